/* Lists and enrolment: judged, kept, compared. */
#include "paper.h"

#include <string.h>

#include "say.h"

/* The library judges the number enrolled with the turnout. */
static enum status read_turnout(const struct election *election, struct paper *paper) {
    uint64_t reply = jdn_turnout(election->image, JDN_IMAGE, election->reg, JDN_REGISTER, paper->enrolment.number);
    if (!JDN_NUMBER(reply)) {
        paper->turnout = JDN_VALUE(reply);
        return DONE;
    }
    if (JDN_NUMBER(reply) == 3)
        say("%s/%s: %llu is outside its range: a whole number from 1 to 1000000", election->folder.name, ENROLLED_FILE,
            (unsigned long long)paper->enrolment.number);
    return say_refused(reply, "%s/%s", election->folder.name, ENROLLED_FILE);
}

enum status paper_read(const struct election *election, struct paper *paper) {
    enum status status = lists_read(&election->folder, election->numbers.ring, &paper->lists);
    if (!status) status = enrolment_read(&election->folder, &paper->enrolment);
    return status ? status : read_turnout(election, paper);
}

void paper_free(struct paper *paper) {
    lists_free(&paper->lists);
}

/* Keeps a digest where none is kept yet. False where another one is. */
static bool keep(uint8_t *kept, const uint8_t *digest, bool *fresh) {
    static const uint8_t none[DIGEST];
    if (!memcmp(kept, none, DIGEST)) {
        memcpy(kept, digest, DIGEST);
        *fresh = true;
    }
    return !memcmp(kept, digest, DIGEST);
}

enum status lists_keep(struct election *election, const struct lists *lists, bool *fresh) {
    if (keep(election->lists_kept, lists->digest, fresh)) return DONE;
    say("%s/%s was changed after the first ballot. A vote is a mark at the place of a line, so the file stays as it was then: put it back",
        election->folder.name, LISTS_FILE);
    return REFUSED;
}

enum status enrolment_keep(struct election *election, const struct enrolment *enrolment, bool *fresh) {
    if (keep(election->enrolment_kept, enrolment->digest, fresh)) return DONE;
    say("%s/%s was changed after the ballots were closed: put it back as it was then", election->folder.name, ENROLLED_FILE);
    return REFUSED;
}
