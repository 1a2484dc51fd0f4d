/* Jackdawnail: the C interface of the library (libjackdawnail.a).
 *
 * Every byte slice is a pointer and a length. Nothing is kept between calls and nothing is allocated.
 * A call answers one number: reply = number + 256 * value.
 *   number 0: taken. value is 0 unless the call says what it carries.
 *   any other number: refused, as documents 01 and 02 number it (docs/INTERFACE.md has the list); value is the place.
 * Any pointer may be null where its length is 0. Slices that are written must not overlap others.
 */
#ifndef JACKDAWNAIL_H
#define JACKDAWNAIL_H
#include <stddef.h>
#include <stdint.h>
#ifdef __cplusplus
extern "C" {
#endif
#define JDN_IN(name) const uint8_t *name, size_t name##_length
#define JDN_OUT(name) uint8_t *name, size_t name##_length
#define JDN_NUMBER(reply) ((unsigned)((reply) % 256))
#define JDN_VALUE(reply) ((reply) / 256)

/* SHA3-256 of the message (FIPS 202). out: 32 bytes; another length is refused 1 and leaves it as it was. */
uint64_t jdn_digest(JDN_IN(message), JDN_OUT(out));

/* Reads a parameter sheet. out: 32 bytes: N, the noise bound D, the mask bound B and the number of unknowns L, 8 bytes each, the lowest first.
 * Refused, in this order: 1 the sheet is empty or above 262,144 bytes, or out has not 32; 2 its form; 3 a number out of range; 4 2N does not divide
 * q - 1, or no room for noise and masks; 5 a list's count or a coefficient. A refusal leaves out as it was. */
uint64_t jdn_sheet(JDN_IN(sheet), JDN_OUT(out));

/* Each of these is lent the sheet and reads it by its order first, then refuses 1 (a slice of wrong length), then 5 (a ternary byte, message or
 * coefficient out of range). N and q are the sheet's. Ternary slices: N bytes 0, 1, 2 for 0, 1, -1. Polynomials: 8N bytes, 8 to a coefficient, the
 * constant first. scratch: JDN_SCRATCH bytes; it is zeroed whole, at any length, unless the call is refused 1. A refusal leaves the output as it was. */
#define JDN_SCRATCH 1048576

/* b = a s + 2 e. b: 8N bytes. */
uint64_t jdn_keygen(JDN_IN(sheet), JDN_IN(s), JDN_IN(e), JDN_OUT(b), JDN_OUT(scratch));
/* m: N bytes 0 or 1. ciphertext: u = a r + 2 e1, then v = b r + 2 e2 + m, 16N bytes. */
uint64_t jdn_encrypt(JDN_IN(sheet), JDN_IN(r), JDN_IN(e1), JDN_IN(e2), JDN_IN(m), JDN_OUT(ciphertext), JDN_OUT(scratch));
/* vote: v - s u centred, by 2, N bytes. */
uint64_t jdn_decrypt(JDN_IN(sheet), JDN_IN(s), JDN_IN(ciphertext), JDN_OUT(vote), JDN_OUT(scratch));
/* s0, e0: polynomials. out: s1, e1, b0, b1, 32N bytes. */
uint64_t jdn_split(JDN_IN(sheet), JDN_IN(s), JDN_IN(e), JDN_IN(s0), JDN_IN(e0), JDN_OUT(out), JDN_OUT(scratch));
/* mask: E, signed 64-bit numbers in two's complement, 8N bytes; after 5 it is refused 12 where one exceeds the sheet's B in size, as lent.
 * t = key_share u + 2 E, 8N bytes. */
uint64_t jdn_share(JDN_IN(sheet), JDN_IN(key_share), JDN_IN(u), JDN_IN(mask), JDN_OUT(t), JDN_OUT(scratch));
/* vote: v - t0 - t1 centred, by 2, N bytes. */
uint64_t jdn_reconstruct(JDN_IN(sheet), JDN_IN(v), JDN_IN(t0), JDN_IN(t1), JDN_OUT(vote), JDN_OUT(scratch));
/* m: a polynomial. r: r1, r2, r3, 3N ternary bytes. pair: r1 + k1 r2 + k2 r3, then r2 + k3 r3 + m, 16N bytes. */
uint64_t jdn_commitment(JDN_IN(sheet), JDN_IN(m), JDN_IN(r), JDN_OUT(pair), JDN_OUT(scratch));
/* x, y: polynomials. product: x y, 8N bytes. By number-theoretic transform, with a root for which root^N is -1 modulo q; between 1 and 5 it
 * is refused 37 where root is not below q or root^N is not -1. A modulus may have no root: then every one is refused. */
uint64_t jdn_multiply(JDN_IN(sheet), JDN_IN(x), JDN_IN(y), uint64_t root, JDN_OUT(product), JDN_OUT(scratch));
/* The same polynomial by the plain method, for callers without a root. */
uint64_t jdn_product(JDN_IN(sheet), JDN_IN(x), JDN_IN(y), JDN_OUT(product), JDN_OUT(scratch));

/* The calls of a round: scratch, and outputs on a refusal, are as above. Ballots are whole, 4 + 16N bytes each (mark, u, v), 4,096 at most. Ballots and repetitions count
 * from 0. After the sheet each call refuses 1 and then what is said.
 *
 * The producer. secrets: s, e, then the three r of s0, of s1, of e0, of e1, 14N ternary bytes. s0, e0: polynomials. masks0, masks1: E of each side, 8N bytes a ballot.
 * vectors: R, 336N bytes a repetition. permutations: P, 168N bytes a repetition, 4 to an entry. salts: 96 bytes a repetition.
 * Both calls refuse 5, 14, then by ballot 12, by repetition 9, by ballot 15.
 * head: b0, b1, the pairs of s0, s1, e0, e1, and the digests, 80N + 96 repeats bytes. shares0, shares1: 8N bytes a ballot. claims: N bytes a ballot. */
uint64_t jdn_produce_first(JDN_IN(sheet), JDN_IN(secrets), JDN_IN(s0), JDN_IN(e0), JDN_IN(masks0), JDN_IN(masks1),
                           JDN_IN(vectors), JDN_IN(permutations), JDN_IN(salts), JDN_IN(ballots),
                           JDN_OUT(head), JDN_OUT(shares0), JDN_OUT(shares1), JDN_OUT(claims), JDN_OUT(scratch));
/* side: 0 or 1, the half of the key that is opened. challenges: one byte (1, 2, 3) a repetition. opening: s and e of that side, the three r of each, 22N bytes.
 * answers: 378N + 64 bytes for challenge 1, 504N + 64 for any other byte, end to end. */
uint64_t jdn_produce_second(JDN_IN(sheet), JDN_IN(secrets), JDN_IN(s0), JDN_IN(e0), JDN_IN(masks0), JDN_IN(masks1),
                            JDN_IN(vectors), JDN_IN(permutations), JDN_IN(salts), JDN_IN(ballots),
                            uint64_t side, JDN_IN(challenges), JDN_OUT(opening), JDN_OUT(answers), JDN_OUT(scratch));
/* The extractor. answer1, answer2, answer3: the answers of one repetition, below the sheet's repeats, to the challenges 1, 2, 3. Refuses 5, 6; for side 0 and then 1: 7, 8 and by ballot 12, 13;
 * then by answer 9, 10, 11, with the repetition as the place. out: 24N bytes. value: 1, 2, 3 two strings with that digest (out: zeros); 4 the vector for s; 5 the vector
 * for e; 6 the key (out: s and e as ternary bytes, then zeros). */
uint64_t jdn_extract(JDN_IN(sheet), JDN_IN(head), JDN_IN(shares0), JDN_IN(shares1), JDN_IN(ballots), JDN_IN(claims),
                     JDN_IN(opening0), JDN_IN(opening1), uint64_t repetition, JDN_IN(answer1), JDN_IN(answer2),
                     JDN_IN(answer3), JDN_OUT(out), JDN_OUT(scratch));

/* Lent no sheet, and refuses nothing: number is always 0. The stretch of the opened side that holds ballot j's share, 8N bytes: value is its first byte's place in that
 * slice plus one, 0 where it is empty (side above 1, n no ring size, slices unequal or not whole ballots, or j past them) or the place has more than 56 bits. */
uint64_t jdn_opened_share(uint64_t side, uint64_t n, JDN_IN(shares0), JDN_IN(shares1), uint64_t j);

/* The steps of a session, over its image (docs/INTERFACE.md has its layout) and a register of 4,096 entries of 40 bytes. An image of another length than JDN_IMAGE is refused 1
 * before all else. A session is refused 31 where the step or the round is not due, its phase is unknown, a count is past its limit, or 3 or 4 refuse its numbers; only
 * clear asks nothing of the session. A refusal leaves image, register and outputs as they were, but for one: see jdn_check. Rounds count from 0. */
#define JDN_IMAGE 4297
#define JDN_REGISTER 163840

/* The fixed lengths: JDN_IMAGE, JDN_SCRATCH, JDN_REGISTER. These three calls answer the bare length, not a reply. */
uint64_t jdn_image_length(void);
uint64_t jdn_scratch_length(void);
uint64_t jdn_register_length(void);

/* Starts anew, from any image: gathering, on this sheet, with a zeroed register. Refused 1 (register or sheet), 2, 3, 4, 5 as the sheet is. */
uint64_t jdn_clear(JDN_OUT(image), JDN_OUT(reg), JDN_IN(sheet));
/* ballot: mark, u, v, 4 + 16N bytes. Refused 31, 1, 5 a coefficient, 32 the mark stands, 33 it was withdrawn, 35 4,096 entries are used. */
uint64_t jdn_admit(JDN_OUT(image), JDN_OUT(reg), JDN_IN(ballot));
/* Refused 31, 1, 33 the mark was withdrawn, 35 no entry has the mark and 4,096 are used. The mark's entry is withdrawn and keeps its place.
 * For a mark with none, whose ballot has not come yet, a withdrawn entry is made behind the used ones, with 32 zero bytes for the digest,
 * and the image counts one more. Until the next clear, while each call is lent the image and the register that the last one left, a ballot
 * with the mark that 31, 1 and 5 do not refuse is refused 33. */
uint64_t jdn_withdraw(JDN_OUT(image), JDN_OUT(reg), uint32_t mark);
/* The standing entries are the batch. Refused 31, 1, 36 none stands. */
uint64_t jdn_close(JDN_OUT(image), JDN_IN(reg));
/* claims: N bytes 0 or 1 for each ballot closed. Refused 31, 1, 5. */
uint64_t jdn_claim(JDN_OUT(image), JDN_IN(claims));
/* The first message of a round, in their order. head: 80N + 96 repeats bytes; shares0, shares1: 8N for each ballot closed. Refused 31, 1. */
uint64_t jdn_commit(JDN_OUT(image), uint64_t round, JDN_IN(head), JDN_IN(shares0), JDN_IN(shares1));
/* seed: 32 bytes, once all rounds are committed. Refused 31, 1. */
uint64_t jdn_draw(JDN_OUT(image), JDN_IN(seed));
/* Checks a round, in their order, with the sheet and the ballots lent again. Refused 31, the sheet's 1 to 5, 1, 16 something differs from its stored digest, then 5, 6, 7, 8;
 * by repetition 9, 10, 11; by ballot 12, 13. A refusal listed after 16 ends the session refused; the last acceptance ends it accepted. scratch: as above, and a call
 * refused 31 leaves it too. */
uint64_t jdn_check(JDN_OUT(image), JDN_IN(sheet), JDN_IN(ballots), JDN_IN(claims), uint64_t round, JDN_IN(head),
                   JDN_IN(shares0), JDN_IN(shares1), JDN_IN(opening), JDN_IN(answers), JDN_OUT(scratch));
/* What was drawn for a round, from draw on and after the end: out is the side, then one challenge a repetition, 1 + repeats bytes. Refused 31, 1. */
uint64_t jdn_challenges(JDN_IN(image), uint64_t round, JDN_OUT(out));
/* value: the standing entries in thousandths of the enrolled (1 to 1,000,000), half up; in any phase. Refused 31, 1, 3. */
uint64_t jdn_turnout(JDN_IN(image), JDN_IN(reg), uint64_t enrolled);

#ifdef __cplusplus
}
#endif
#endif
