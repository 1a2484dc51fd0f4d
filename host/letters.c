/* Names in UTF-8: what is refused in them, and a comparison by looks. Both go by short tables and not by the whole of Unicode
 * (docs/DECISIONS.md). */
#include "letters.h"

#include <stdio.h>

struct range {
    uint32_t first, last;
    const char *fault;
};

static const char control[] = "a control character";
static const char carriage_return[] = "a carriage return: a line ends with a line feed alone";
static const char unseen[] = "a character that cannot be seen";
static const char turning[] = "a character that turns the direction of writing";
static const char apart[] = "an accent that stands apart from its letter: write the letter and its accent as one character";
static const char unshared[] = "a character that has no agreed look";

/* What no name may have, in ascending order. */
static const struct range barred[] = {
    {0x0000, 0x001f, control},  {0x007f, 0x009f, control},  {0x00ad, 0x00ad, unseen},      {0x0300, 0x036f, apart},
    {0x061c, 0x061c, turning},  {0x115f, 0x1160, unseen},   {0x17b4, 0x17b5, unseen},      {0x180b, 0x180f, unseen},
    {0x1ab0, 0x1aff, apart},    {0x1dc0, 0x1dff, apart},    {0x200b, 0x200d, unseen},      {0x200e, 0x200f, turning},
    {0x2028, 0x2029, control},  {0x202a, 0x202e, turning},  {0x2060, 0x2065, unseen},      {0x2066, 0x2069, turning},
    {0x206a, 0x206f, control},  {0x20d0, 0x20ff, apart},    {0x2800, 0x2800, unseen},      {0x3164, 0x3164, unseen},
    {0xe000, 0xf8ff, unshared}, {0xfdd0, 0xfdef, unshared}, {0xfe00, 0xfe0f, unseen},      {0xfe20, 0xfe2f, apart},
    {0xfeff, 0xfeff, unseen},   {0xffa0, 0xffa0, unseen},   {0xfff0, 0xffff, unshared},    {0x1bca0, 0x1bca3, unseen},
    {0x1d173, 0x1d17a, unseen}, {0xe0000, 0xe0fff, unseen}, {0xf0000, 0x10ffff, unshared},
};

static const struct range blanks[] = {
    {0x0020, 0x0020, NULL}, {0x00a0, 0x00a0, NULL}, {0x1680, 0x1680, NULL}, {0x2000, 0x200a, NULL},
    {0x202f, 0x202f, NULL}, {0x205f, 0x205f, NULL}, {0x3000, 0x3000, NULL},
};

/* Characters that are drawn as others are: digits and letters of one alphabet, Greek and Cyrillic letters beside Latin ones, dashes,
 * quotes. */
static const struct {
    uint32_t from;
    char to;
} drawn_alike[] = {
    {'0', 'O'},    {'1', 'l'},    {'I', 'l'},    {'|', 'l'},    {0x0131, 'i'}, {0x0391, 'A'}, {0x0392, 'B'},  {0x0395, 'E'},
    {0x0396, 'Z'}, {0x0397, 'H'}, {0x0399, 'l'}, {0x039a, 'K'}, {0x039c, 'M'}, {0x039d, 'N'}, {0x039f, 'O'},  {0x03a1, 'P'},
    {0x03a4, 'T'}, {0x03a5, 'Y'}, {0x03a7, 'X'}, {0x03b1, 'a'}, {0x03b9, 'i'}, {0x03bd, 'v'}, {0x03bf, 'o'},  {0x03c1, 'p'},
    {0x03c5, 'u'}, {0x0405, 'S'}, {0x0406, 'l'}, {0x0408, 'J'}, {0x0410, 'A'}, {0x0412, 'B'}, {0x0415, 'E'},  {0x041a, 'K'},
    {0x041c, 'M'}, {0x041d, 'H'}, {0x041e, 'O'}, {0x0420, 'P'}, {0x0421, 'C'}, {0x0422, 'T'}, {0x0423, 'Y'},  {0x0425, 'X'},
    {0x0430, 'a'}, {0x0435, 'e'}, {0x043e, 'o'}, {0x0440, 'p'}, {0x0441, 'c'}, {0x0443, 'y'}, {0x0445, 'x'},  {0x0455, 's'},
    {0x0456, 'i'}, {0x0458, 'j'}, {0x0475, 'v'}, {0x04bb, 'h'}, {0x0501, 'd'}, {0x051b, 'q'}, {0x051d, 'w'},  {0x02bc, '\''},
    {0x2010, '-'}, {0x2011, '-'}, {0x2012, '-'}, {0x2013, '-'}, {0x2014, '-'}, {0x2015, '-'}, {0x2018, '\''}, {0x2019, '\''},
    {0x201c, '"'}, {0x201d, '"'}, {0x2212, '-'},
};

/* The lowest character that is written in so many bytes: a longer writing of a lower one is no UTF-8. */
static const uint32_t lowest[] = {0, 0, 0x80, 0x800, 0x10000};

/* How many bytes a character has by its first one; 0 where no character begins so. */
static size_t width(uint8_t first) {
    if (first < 0x80) return 1;
    if (first >= 0xc2 && first < 0xe0) return 2;
    if (first >= 0xe0 && first < 0xf0) return 3;
    return first >= 0xf0 && first < 0xf5 ? 4 : 0;
}

/* Reads the character at `at`. Answers how many bytes it has, 0 where they are no UTF-8. */
static size_t decode(const uint8_t *at, size_t left, uint32_t *character) {
    size_t bytes = left ? width(at[0]) : 0;
    if (!bytes || bytes > left) return 0;
    *character = bytes == 1 ? at[0] : at[0] & (0x7fu >> bytes);
    for (size_t i = 1; i < bytes; i++) {
        if ((at[i] & 0xc0) != 0x80) return 0;
        *character = *character << 6 | (at[i] & 0x3f);
    }
    bool surrogate = *character >= 0xd800 && *character <= 0xdfff;
    return *character < lowest[bytes] || surrogate || *character > 0x10ffff ? 0 : bytes;
}

static const struct range *find_range(const struct range *ranges, size_t count, uint32_t character) {
    for (size_t i = 0; i < count; i++)
        if (character >= ranges[i].first && character <= ranges[i].last) return &ranges[i];
    return NULL;
}

static bool is_blank(uint32_t character) {
    return find_range(blanks, sizeof blanks / sizeof *blanks, character);
}

bool name_reads(const uint8_t *at, size_t length, char *fault) {
    bool blank = true;
    size_t bytes = 0;
    for (size_t done = 0; done < length; done += bytes) {
        uint32_t character = 0;
        bytes = decode(at + done, length - done, &character);
        const struct range *found = bytes ? find_range(barred, sizeof barred / sizeof *barred, character) : NULL;
        if (!bytes) snprintf(fault, FAULT_ROOM, "is no valid UTF-8 (byte %zu)", done + 1);
        if (found) snprintf(fault, FAULT_ROOM, "has U+%04X, %s", (unsigned)character, character == '\r' ? carriage_return : found->fault);
        if (!bytes || found) return false;
        blank = blank && is_blank(character);
    }
    if (blank) snprintf(fault, FAULT_ROOM, "is blank");
    return !blank;
}

/* The character that stands for all that are drawn like this one. */
static uint32_t drawn_as(uint32_t character) {
    if (character > 0xff00 && character < 0xff5f) character -= 0xfee0; /* the wide forms of ASCII */
    for (size_t i = 0; i < sizeof drawn_alike / sizeof *drawn_alike; i++)
        if (drawn_alike[i].from == character) return (uint32_t)drawn_alike[i].to;
    return character;
}

void name_looks(const char *name, char *looks) {
    const uint8_t *at = (const uint8_t *)name;
    const char *start = looks;
    uint32_t character = 0;
    bool between = false;
    /* the zero at the end goes on no character, so that no byte behind it is read */
    for (size_t bytes = 1; *at && bytes; at += bytes) {
        bytes = decode(at, 4, &character);
        if (is_blank(character)) {
            between = looks > start;
            continue;
        }
        if (between) *looks++ = ' ';
        between = false;
        character = drawn_as(character);
        if (character < 0x80) *looks++ = (char)character;
        for (size_t i = 0; character >= 0x80 && i < bytes; i++) *looks++ = (char)at[i];
    }
    *looks = 0;
}
