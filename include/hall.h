/*
 * hall.h - the two halls of seats, from C.
 *
 * A submission is text: lines of lower-case hexadecimal bytes, each with a line feed. A hall function runs it from its first line to its
 * last and writes a record of the same form: one line for each of the first 64 refusals, one for each honest seat, one with the counts.
 * docs/PAGE.md has both formats byte by byte, docs/RULES.md the rules that decide them.
 *
 * The functions keep nothing from call to call, allocate nothing, read submission only and write output only. Their working memory, well under
 * a megabyte, is on the stack. The caller sees to it that both pointers are valid for their lengths and not NULL (also where a length is 0),
 * and that the two buffers do not overlap.
 *
 *     uint8_t record[HALL_OUTPUT_MIN];
 *     uint32_t r = card_hall(paper, paper_len, record, sizeof record);
 *     if (HALL_IS_REFUSAL(r))
 *         fprintf(stderr, "refused: %u\n", (unsigned)(r - HALL_REFUSAL_BASE));
 *     else
 *         fwrite(record, 1, r, stdout);
 */
#ifndef HALL_H
#define HALL_H

#include <stddef.h>
#include <stdint.h>

#ifdef __cplusplus
extern "C" {
#endif

/* Limits of the page. */
#define HALL_SUBMISSION_MAX 65535u /* longest submission, in bytes */
#define HALL_OUTPUT_MIN     2048u  /* shortest output buffer, in bytes */
#define HALL_RECORD_MAX     1662u  /* longest record: 64 refusals, 13 seats with 8 blocks, the counts */
#define HALL_REFUSALS_MAX   64u    /* how many refusals a record lists */

/* Limits of a plan. */
#define HALL_SEATS_MAX   13u
#define HALL_ROUNDS_MAX  8u
#define HALL_DELAY_MAX   10000u
#define HALL_ENTRIES_MAX 128u
#define HALL_PLACES_MAX  4u
#define HALL_BLOCKS_MAX  312u
#define HALL_CLOCK_MAX   1000000000u

/* Results. Anything below HALL_REFUSAL_BASE is the length of the record. */
#define HALL_REFUSAL_BASE        1000000u
#define HALL_SUBMISSION_TOO_LONG (HALL_REFUSAL_BASE + 24u) /* submission_len > HALL_SUBMISSION_MAX; judged first */
#define HALL_OUTPUT_TOO_SHORT    (HALL_REFUSAL_BASE + 4u)  /* output_len < HALL_OUTPUT_MIN; judged second */
#define HALL_IS_REFUSAL(r)       ((r) >= HALL_REFUSAL_BASE)

/* First bytes of the lines of a record. */
#define HALL_LINE_REFUSAL 0xf0u /* line(2) number layer seat subject(2) */
#define HALL_LINE_SEAT    0xe0u /* seat state round highest-committed-round blocks(2 each) */
#define HALL_LINE_COUNTS  0xefu /* calls(2) accepted(2) refused(2) */

/* States of a seat in HALL_LINE_SEAT. */
#define HALL_SEAT_WAITING  0x00u /* the round is the one awaited */
#define HALL_SEAT_IN_ROUND 0x01u
#define HALL_SEAT_DONE     0x02u /* the round is the last */

/*
 * Runs a submission in the card hall: cards as entries (lines 02), ranks by rotation.
 * Answers the length of the record, which then stands at the start of output; the bytes of output past that length are as they were.
 * Or HALL_SUBMISSION_TOO_LONG or HALL_OUTPUT_TOO_SHORT, judged in this order; then all of output is as it was.
 */
uint32_t card_hall(const uint8_t *submission, size_t submission_len, uint8_t *output, size_t output_len);

/*
 * The same in the slip hall: slips as entries (lines 03), ranks from R lines 04 after the first line.
 */
uint32_t slip_hall(const uint8_t *submission, size_t submission_len, uint8_t *output, size_t output_len);

#ifdef __cplusplus
}
#endif

#endif /* HALL_H */
