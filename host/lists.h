/* The names of the lists that are voted on, and the number enrolled. */
#ifndef LISTS_H
#define LISTS_H
#include "files.h"

#define LISTS_FILE "lists.txt"
#define ENROLLED_FILE "enrolled.txt"

/* Names are zero-ended, in the bytes of the file; what they look like (letters.h) stands at the same places of another run. */
struct lists {
    struct bytes file, looks;
    const char **names;
    size_t count;
    uint8_t digest[DIGEST]; /* of the file as it was read */
};

/* lists.txt: at most `most` names, a line each, that people can read and tell apart (letters.h). */
enum status lists_read(const struct folder *folder, size_t most, struct lists *lists);
void lists_free(struct lists *lists);
/* The place of a name, or the count where there is none such. */
size_t lists_find(const struct lists *lists, const char *name);

struct enrolment {
    uint64_t number;
    uint8_t digest[DIGEST]; /* of the file as it was read */
};

/* enrolled.txt: one decimal on a line. The library decides whether it is in range. */
enum status enrolment_read(const struct folder *folder, struct enrolment *enrolment);

#endif
