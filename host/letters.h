/* The letters of a name that people read: which ones a name may have, and which names look alike. */
#ifndef LETTERS_H
#define LETTERS_H
#include <stdbool.h>
#include <stddef.h>
#include <stdint.h>

/* Room for what is said of a name. */
#define FAULT_ROOM 120

/* Whether people can read a name and tell it from others: valid UTF-8, not blank, nothing in it that cannot be seen or turns the order of
 * what can. Where it is not, `fault` says what is wrong, as the end of a sentence that begins with the line. */
bool name_reads(const uint8_t *at, size_t length, char *fault);

/* Writes down how a name that reads looks, zero-ended, in no more bytes than the name has: without blanks around it, with one blank for
 * each run of them, and one letter for all that are drawn alike. Two names whose looks are the same look alike. */
void name_looks(const char *name, char *looks);

#endif
