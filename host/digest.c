/* digest FILE..: SHA3-256 of each file by the library, in the form of sha3sum; `-` is standard input. */
#include <errno.h>
#include <stdio.h>
#include <stdlib.h>
#include <string.h>

#include "jackdawnail.h"

/* The whole of a stream, or NULL where it cannot be read; the caller frees it. */
static uint8_t *read_all(FILE *stream, size_t *length) {
    size_t room = 1 << 16, used = 0;
    uint8_t *bytes = malloc(room);
    while (bytes) {
        used += fread(bytes + used, 1, room - used, stream);
        if (used < room) break;
        uint8_t *more = realloc(bytes, room *= 2);
        if (!more) free(bytes);
        bytes = more;
    }
    if (bytes && ferror(stream)) {
        free(bytes);
        bytes = NULL;
    }
    *length = used;
    return bytes;
}

static int digest(const char *name) {
    FILE *stream = strcmp(name, "-") ? fopen(name, "rb") : stdin;
    size_t length = 0;
    uint8_t *bytes = stream ? read_all(stream, &length) : NULL;
    if (!bytes) {
        fprintf(stderr, "digest: %s: %s\n", name, strerror(errno));
        if (stream && stream != stdin) fclose(stream);
        return 1;
    }
    uint8_t out[32];
    uint64_t reply = jdn_digest(bytes, length, out, sizeof out);
    free(bytes);
    if (stream != stdin) fclose(stream);
    if (reply) {
        fprintf(stderr, "digest: %s: refused %u\n", name, JDN_NUMBER(reply));
        return 1;
    }
    for (size_t i = 0; i < sizeof out; i++) printf("%02x", out[i]);
    printf("  %s\n", name);
    return 0;
}

int main(int count, char **names) {
    int status = 0;
    if (count < 2) {
        fputs("usage: digest FILE..\n", stderr);
        return 2;
    }
    for (int i = 1; i < count; i++) status |= digest(names[i]);
    return status;
}
