/* Sheets. The library judges them, by a number; here the number gets the name of what is wrong (document 01, "Sheet" and "Refused because
 * of the input"). */
#include "sheet.h"

#include <string.h>

#include "election.h"
#include "say.h"

#define MOST_RING 2048
#define MOST_MODULUS ((UINT64_C(1) << 56) - 1)
#define MOST_DROWN 40

void sheet_add_polynomial(struct text *text, const char *name, const uint8_t *at, uint64_t ring) {
    text_add(text, "%s=", name);
    for (uint64_t i = 0; i < ring; i++) text_add(text, i ? ",%llu" : "%llu", (unsigned long long)read64(at + 8 * i));
    text_add(text, "\n");
}

void sheet_write(struct text *text, const struct new_sheet *numbers, const uint8_t *polynomials) {
    static const char *const names[POLYNOMIALS] = {"a", "b", "k1", "k2", "k3"};
    text_add(text, "ring=%llu\nmodulus=%llu\n", (unsigned long long)numbers->ring, (unsigned long long)numbers->modulus);
    text_add(text, "drown=%llu\nrounds=%llu\n", (unsigned long long)numbers->drown, (unsigned long long)numbers->rounds);
    text_add(text, "repeats=%llu\n", (unsigned long long)numbers->repeats);
    for (size_t i = 0; i < POLYNOMIALS; i++) sheet_add_polynomial(text, names[i], polynomials + 8 * numbers->ring * i, numbers->ring);
}

/* Whether the library takes a small sheet with so many rounds and repeats. */
static bool repeats_suffice(uint64_t rounds, uint64_t repeats) {
    static const uint8_t zeros[POLYNOMIALS * 4 * 8];
    const struct new_sheet small = {.ring = 4, .modulus = 97, .drown = 0, .rounds = rounds, .repeats = repeats};
    struct text text = {0};
    uint8_t about[32];
    sheet_write(&text, &small, zeros);
    bool taken = !text.failed && !jdn_sheet((uint8_t *)text.at, text.length, about, sizeof about);
    text_free(&text);
    return taken;
}

uint64_t least_repeats(uint64_t rounds) {
    uint64_t repeats = 1;
    while (repeats < MOST_REPEATS && !repeats_suffice(rounds, repeats)) repeats++;
    return repeats;
}

/* Whether a number is in its range; says so where it is not. */
static bool in_range(const char *prefix, const char *name, uint64_t value, uint64_t least, uint64_t most, const char *kind) {
    if (value >= least && value <= most) return true;
    say("%s%s %llu is outside its range: %s from %llu to %llu", prefix, name, (unsigned long long)value, kind, (unsigned long long)least,
        (unsigned long long)most);
    return false;
}

static bool ring_fits(uint64_t ring, const char *prefix) {
    if (!in_range(prefix, "ring", ring, 4, MOST_RING, "a power of two")) return false;
    if (!(ring & (ring - 1))) return true;
    say("%sring %llu is no power of two", prefix, (unsigned long long)ring);
    return false;
}

/* The two conditions of refusal 4: the first by its division, the second where the first holds and the library refuses all the same. */
static bool modulus_fits(const struct new_sheet *numbers, const char *prefix) {
    if (numbers->modulus % (2 * numbers->ring) == 1) return true;
    say("%smodulus %llu does not fit ring %llu: twice the ring, %llu, has to divide the modulus less one", prefix,
        (unsigned long long)numbers->modulus, (unsigned long long)numbers->ring, (unsigned long long)(2 * numbers->ring));
    return false;
}

bool sheet_numbers_fit(const struct new_sheet *numbers, const char *prefix) {
    static const char whole[] = "a whole number";
    return ring_fits(numbers->ring, prefix) && in_range(prefix, "modulus", numbers->modulus, 3, MOST_MODULUS, whole) &&
           in_range(prefix, "drown", numbers->drown, 0, MOST_DROWN, whole) &&
           in_range(prefix, "rounds", numbers->rounds, 1, MOST_ROUNDS, whole) &&
           in_range(prefix, "repeats", numbers->repeats, least_repeats(numbers->rounds), MOST_REPEATS,
                    "for so many rounds, a whole number") &&
           modulus_fits(numbers, prefix);
}

/* The number of the line that has a name, or 0 where there is none such. The form of the sheet was judged by the library. */
static uint64_t number_of(const struct bytes *sheet, const char *name) {
    uint64_t value = 0;
    const char *at = (const char *)sheet->at, *end = at + sheet->length;
    size_t length = strlen(name);
    while (at && at < end) {
        const char *next = memchr(at, '\n', (size_t)(end - at));
        if (next && (size_t)(next - at) > length && !memcmp(at, name, length) && at[length] == '=')
            return read_decimal(at + length + 1, (size_t)(next - at) - length - 1, UINT64_MAX, &value) ? value : 0;
        at = next ? next + 1 : NULL;
    }
    return 0;
}

void sheet_explain(const struct bytes *sheet, unsigned refusal, const char *prefix) {
    const struct new_sheet numbers = {
        .ring = number_of(sheet, "ring"),
        .modulus = number_of(sheet, "modulus"),
        .drown = number_of(sheet, "drown"),
        .rounds = number_of(sheet, "rounds"),
        .repeats = number_of(sheet, "repeats"),
    };
    if (refusal != 3 && refusal != 4) return;
    if (sheet_numbers_fit(&numbers, prefix) && refusal == 4)
        say("%smodulus %llu leaves no room for noise and masks with ring %llu and drown %llu", prefix, (unsigned long long)numbers.modulus,
            (unsigned long long)numbers.ring, (unsigned long long)numbers.drown);
}
