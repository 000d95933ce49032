// What the library is compared with: CaDiCaL finds the first build of an order, and the listing of it is written.
#pragma once

#include <string>

// When CaDiCaL is asked about an option: at each option, or only where the build that it found last has 1 there (where that has 0,
// a build with 0 is known).
enum class Asking { each_option, where_taken };

// Texts to listing, as `quote` does it.
std::string reference_listing(const std::string &rules, const std::string &picks, Asking asking);
