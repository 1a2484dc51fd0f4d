/* How a step of the host ends; also the exit status of the program. */
#ifndef STATUS_H
#define STATUS_H

enum status {
    DONE = 0,    /* done; for a check: accepted */
    REFUSED = 1, /* the library refused what it was lent, or what is published does not agree */
    USAGE = 2,   /* the command was not understood */
    TROUBLE = 3  /* a file is missing or cannot be read or written, or there is no memory */
};

#endif
