/* What the library is lent from C++: a container as a slice, and the text of a sheet at 2048 coefficients. */
#ifndef BENCH_LENT_H
#define BENCH_LENT_H
#include <string>
#include <utility>

#include "ntl.h"

#define IN(x) (const uint8_t *)(x).data(), sizeof((x)[0]) * (x).size()
#define OUT(x) (uint8_t *)(x).data(), sizeof((x)[0]) * (x).size()

static void line(std::string &text, const char *name, const theirs::Words &list) {
    for (size_t i = 0; i < list.size(); i++) text += (i ? "," : std::string(name) + "=") + std::to_string(list[i]);
    text += "\n";
}

/* The lists are a, b, k1, k2, k3. */
static std::string sheet_text(uint64_t drown, uint64_t rounds, uint64_t repeats, const theirs::Words *const (&lists)[5]) {
    const std::pair<const char *, uint64_t> numbers[5] = {
        {"ring", theirs::n}, {"modulus", theirs::q}, {"drown", drown}, {"rounds", rounds}, {"repeats", repeats}};
    const char *const names[5] = {"a", "b", "k1", "k2", "k3"};
    std::string text;
    for (const auto &number : numbers) line(text, number.first, {number.second});
    for (size_t i = 0; i < 5; i++) line(text, names[i], *lists[i]);
    return text;
}
#endif
