/* Sheets: writing one, the ranges of its numbers, and which of them is wrong where the library refuses one. */
#ifndef SHEET_H
#define SHEET_H
#include "bytes.h"

/* The numbers of a new sheet. */
struct new_sheet {
    uint64_t ring, modulus, drown, rounds, repeats;
};

/* a, b, k1, k2, k3 */
#define POLYNOMIALS 5

/* The line of a polynomial, 8 bytes to a coefficient. */
void sheet_add_polynomial(struct text *text, const char *name, const uint8_t *at, uint64_t ring);
/* The sheet with these numbers and polynomials, a first. */
void sheet_write(struct text *text, const struct new_sheet *numbers, const uint8_t *polynomials);

/* The least repeats for the rounds, by asking the library; the most there are where none suffice. */
uint64_t least_repeats(uint64_t rounds);

/* Whether the numbers of a new sheet are in their ranges and fit each other; says which one is not, with `prefix` before its name. */
bool sheet_numbers_fit(const struct new_sheet *numbers, const char *prefix);

/* Says which number of a sheet is outside its range, or does not fit, where the library refused it 3 or 4, with `prefix`
 * before its name. */
void sheet_explain(const struct bytes *sheet, unsigned refusal, const char *prefix);

#endif
