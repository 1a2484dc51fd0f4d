/* The result of an accepted transcript: turnout and votes, as a text and as a page. Both follow from what is published, byte for byte.
 * They name their form, so that a release that writes another one knows that it cannot compare them. */
#ifndef RESULT_H
#define RESULT_H
#include "transcript.h"

#define RESULT_TEXT "result.txt"
#define RESULT_PAGE "result.html"
/* The form, with its number: another one for every change in what is said of an election that a release with this number can count. The
 * lists of the ballot account are no such change. They stand only in results of a log in which a ballot came after its withdrawal, or a
 * withdrawal has no ballot; and the release that wrote form 2 without them, 0.9, refuses such a log. */
#define RESULT_TITLE "jackdawnail result "
#define RESULT_FORM RESULT_TITLE "2"
/* What stands before the form in a page, and what a page of a release begins with that named none. */
#define PAGE_START "<!DOCTYPE html>\n<!-- "
#define PAGE_BEFORE "<!DOCTYPE html>\n<html lang=\"en\">\n"

struct result {
    const struct transcript *transcript;
    size_t counted;
    size_t *votes;    /* of each list */
    size_t elsewhere; /* marks at coefficients that are no list's */
};

/* A digest with its name, as both show them. */
struct result_digest {
    char name[32];
    const uint8_t *digest;
};
/* Sheet, lists, enrolment, log, closing, claims, then the rounds. */
#define MOST_RESULT_DIGESTS (6 + MOST_ROUNDS)
/* Fills them in, in the order in which they are shown. Answers how many there are. */
size_t result_digests(const struct result *result, struct result_digest *digests);

/* Adds the claims of a transcript up that was checked and accepted. The transcript has to outlive it. */
enum status result_make(const struct transcript *transcript, struct result *result);
void result_free(struct result *result);

/* The text, and the page (page.c). */
void result_text(const struct result *result, struct text *text);
void result_page(const struct result *result, struct text *text);

/* Shows the text on standard output. */
enum status result_print(const struct result *result);
/* Writes both files. */
enum status result_write(const struct result *result);
/* Compares result.txt, and result.html where it is there, with what they have to be. One of another form is not compared, and that is
 * said. */
enum status result_compare(const struct result *result);

#endif
