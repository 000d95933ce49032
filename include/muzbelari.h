/* Muzbelari: completes a dealer's order over a maker's rules. docs/FORMAT.md describes the texts and the listing. */
#ifndef MUZBELARI_H
#define MUZBELARI_H

#include <stdbool.h>
#include <stddef.h>
#include <stdint.h>

#ifdef __cplusplus
extern "C" {
#endif

/* The listing space that a quote needs: 128 lines of 14 bytes. */
#define MUZBELARI_LISTING 1792
/* The longest texts that are read. */
#define MUZBELARI_RULES 49152
#define MUZBELARI_PICKS 4096

/* What both calls ask of their caller: a pointer is not null unless its length is 0, it points to as many bytes as its length
 * says, and what a call writes (the listing, the place) does not overlap what it reads. Everything else that can be passed is
 * handled: any bytes, any lengths, any budget. Nothing is allocated and nothing is kept between calls, so any number of threads
 * may call at once. A call needs up to 128 KiB of stack. */

/* Reads the rules and the picks, searches for the first build with at most `budget` steps (up to 2^62), and writes the listing.
 * Returns how many bytes it wrote; 0 means that the listing space is under MUZBELARI_LISTING bytes, and nothing was written.
 * The rest of the listing stays as it was. */
size_t quote(const uint8_t *rules, size_t rules_length,
             const uint8_t *picks, size_t picks_length,
             uint64_t budget,
             uint8_t *listing, size_t listing_length);

/* Where a faulty line stands. */
typedef struct {
    size_t text;   /* 1 the rules, 2 the picks */
    size_t line;   /* its number in that text, counted from 1 */
    size_t start;  /* its first byte in that text, counted from 0 */
    size_t length; /* its bytes, without the LF */
} muzbelari_place;

/* Says whether a line of the order is at fault, and where it stands. The reading is that of `quote`: the line is the one that the
 * F line of the listing names. Where no line is at fault (the order is in order, or 5, 24 or an empty rules text) the place stays
 * as it was. */
bool faulty_line_place(const uint8_t *rules, size_t rules_length,
                       const uint8_t *picks, size_t picks_length,
                       uint64_t budget,
                       muzbelari_place *place);

#ifdef __cplusplus
}
#endif

#endif
