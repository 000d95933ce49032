// An order's rules as clauses for CaDiCaL. Option o is variable o + 1; what the encodings need beside comes after the options.
#pragma once

#include <cadical.hpp>

#include "order.hpp"

int variable_of(int option);
void add_rules(CaDiCaL::Solver &solver, const Order &order);
void add_picks(CaDiCaL::Solver &solver, const Order &order);
