/* Runs of bytes, texts, decimals. */
#include "bytes.h"

#include <errno.h>
#include <stdarg.h>
#include <stdio.h>
#include <stdlib.h>
#include <string.h>

#include "say.h"

enum status bytes_make(struct bytes *run, size_t length) {
    run->at = calloc(length + 1, 1); /* one more, so that an empty run has a place too */
    run->length = run->at ? length : 0;
    return run->at ? DONE : say_no_memory();
}

void bytes_free(struct bytes *run) {
    if (run->at) explicit_bzero(run->at, run->length);
    free(run->at);
    *run = (struct bytes){0};
}

/* Makes room for `more` characters and the zero at the end. */
static bool text_grow(struct text *text, size_t more) {
    size_t room = text->room ? text->room : 1024;
    while (room - text->length <= more) room *= 2;
    if (room == text->room) return true;
    char *at = realloc(text->at, room);
    if (!at) return false;
    text->at = at;
    text->room = room;
    return true;
}

void text_add(struct text *text, const char *form, ...) {
    va_list values;
    va_start(values, form);
    int more = vsnprintf(NULL, 0, form, values);
    va_end(values);
    if (more < 0 || !text_grow(text, (size_t)more)) {
        text->failed = true;
        return;
    }
    va_start(values, form);
    vsnprintf(text->at + text->length, (size_t)more + 1, form, values);
    va_end(values);
    text->length += (size_t)more;
}

void text_add_hex(struct text *text, const uint8_t *at, size_t length) {
    for (size_t i = 0; i < length; i++) text_add(text, "%02x", at[i]);
}

void text_add_groups(struct text *text, const uint8_t *digest) {
    for (size_t i = 0; i < DIGEST; i += 2) text_add(text, "%s%02x%02x", i ? "-" : "", digest[i], digest[i + 1]);
}

enum status text_print(struct text *text) {
    enum status status = text->failed ? say_no_memory() : DONE;
    if (!status && (fwrite(text->at, 1, text->length, stdout) != text->length || fflush(stdout))) {
        say("standard output: %s", strerror(errno));
        status = TROUBLE;
    }
    text_free(text);
    return status;
}

void text_free(struct text *text) {
    free(text->at);
    *text = (struct text){0};
}

/* The value of a hexadecimal digit, or -1. */
static int digit(char c) {
    if (c >= '0' && c <= '9') return c - '0';
    if (c >= 'a' && c <= 'f') return c - 'a' + 10;
    return c >= 'A' && c <= 'F' ? c - 'A' + 10 : -1;
}

bool read_digest(const char *text, uint8_t *digest) {
    uint8_t read[DIGEST] = {0};
    size_t digits = 0;
    for (; *text; text++) {
        int value = digit(*text);
        if (value < 0 && !strchr(" -:", *text)) return false;
        if (value < 0) continue;
        if (digits == 2 * DIGEST) return false;
        read[digits / 2] = (uint8_t)(16 * read[digits / 2] + value);
        digits++;
    }
    if (digits != 2 * DIGEST) return false;
    memcpy(digest, read, sizeof read);
    return true;
}

bool read_decimal(const char *at, size_t length, uint64_t most, uint64_t *value) {
    uint64_t number = 0;
    if (length == 0 || length > 18 || (at[0] == '0' && length > 1)) return false;
    for (size_t i = 0; i < length; i++) {
        if (at[i] < '0' || at[i] > '9') return false;
        number = 10 * number + (uint64_t)(at[i] - '0');
    }
    if (number > most) return false;
    *value = number;
    return true;
}
