/* The producer of a round: its two calls over one material. */
#include "rounds.h"
#include "say.h"

/* Where the producer refuses. A ballot whose noise is too large was not made by the rules, and no round can be shown for it: it has to be
 * withdrawn. */
static enum status refused(const struct batch *batch, uint64_t reply, size_t round) {
    batch_say_mark(batch, reply);
    if (JDN_NUMBER(reply) == 15) say("the ballots were closed with it: remove state.bin, withdraw this mark, and run again");
    return say_refused(reply, "producing round %zu", round);
}

static enum status first_room(const struct election *election, struct first *first) {
    size_t closed = election_closed(election), ring = election->numbers.ring;
    enum status status = bytes_make(&first->head, head_length(&election->numbers));
    if (!status) status = bytes_make(&first->shares0, 8 * ring * closed);
    if (!status) status = bytes_make(&first->shares1, 8 * ring * closed);
    if (!status) status = bytes_make(&first->claims, ring * closed);
    return status;
}

enum status first_produce(const struct election *election, const struct key *key, const struct batch *batch, struct round *round) {
    struct first *first = &round->first;
    enum status status = first_room(election, first);
    if (!status) status = material_make(&round->material, &election->numbers, key, batch->count, STREAM_OF_TODAY, round->seed);
    if (status) return status;
    uint64_t reply = jdn_produce_first(LENT(election->sheet), LENT_MATERIAL(round->material), LENT(batch->all), LENT(first->head),
                                       LENT(first->shares0), LENT(first->shares1), LENT(first->claims), LENT(round->scratch));
    return reply ? refused(batch, reply, round->number) : DONE;
}

/* The material again, where it is not there. */
static enum status material_again(const struct election *election, const struct key *key, size_t ballots, struct round *round) {
    if (round->material.secrets.at) return DONE;
    return material_make(&round->material, &election->numbers, key, ballots, election->streams[round->number],
                         election->seeds + SEED * round->number);
}

enum status second_produce(const struct election *election, const struct key *key, const struct batch *batch, struct round *round) {
    struct second *second = &round->second;
    uint8_t drawn[1 + MOST_REPEATS]; /* the side, then the challenges */
    size_t repeats = election->numbers.repeats;
    uint64_t reply = jdn_challenges(election->image, JDN_IMAGE, round->number, drawn, 1 + repeats);
    if (reply) return say_refused(reply, "the challenges of round %zu", round->number);
    enum status status = bytes_make(&second->opening, opening_length(&election->numbers));
    if (!status) status = bytes_make(&second->answers, answers_length(&election->numbers, drawn + 1));
    if (!status) status = material_again(election, key, batch->count, round);
    if (status) return status;
    reply = jdn_produce_second(LENT(election->sheet), LENT_MATERIAL(round->material), LENT(batch->all), drawn[0], drawn + 1, repeats,
                               LENT(second->opening), LENT(second->answers), LENT(round->scratch));
    return reply ? refused(batch, reply, round->number) : DONE;
}
