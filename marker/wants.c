/* Wanted outcomes: how each is written, and when it holds of a record. A want about seats never holds of a run that its first lines ended. */
#include "marker.h"
#include <string.h>

static bool within(const struct limit *limit, unsigned number)
{
    switch (limit->comparison) {
    case EQUAL:
        return number == limit->number;
    case AT_MOST:
        return number <= limit->number;
    default:
        return number >= limit->number;
    }
}

/* When each holds. */

static bool state_holds(const struct want *want, const struct record *record)
{
    const struct seat *seat = &record->seats[want->seat];
    return seat->honest && seat->state == want->state;
}

static bool round_holds(const struct want *want, const struct record *record)
{
    const struct seat *seat = &record->seats[want->seat];
    return seat->honest && within(&want->limit, seat->round);
}

static bool highest_holds(const struct want *want, const struct record *record)
{
    const struct seat *seat = &record->seats[want->seat];
    return seat->honest && within(&want->limit, seat->highest);
}

static bool same_blocks(const unsigned *one, unsigned one_count, const unsigned *other, unsigned other_count)
{
    return one_count == other_count && memcmp(one, other, one_count * sizeof *one) == 0;
}

static bool catalogue_holds(const struct want *want, const struct record *record)
{
    const struct seat *seat = &record->seats[want->seat];
    return seat->honest && same_blocks(seat->blocks, seat->block_count, want->blocks, want->block_count);
}

static bool all_done_holds(const struct want *want, const struct record *record)
{
    (void)want;
    for (size_t i = 0; i < HALL_SEATS_MAX; i++) {
        if (record->seats[i].honest && record->seats[i].state != HALL_SEAT_DONE)
            return false;
    }
    return record->complete;
}

static bool all_highest_holds(const struct want *want, const struct record *record)
{
    for (size_t i = 0; i < HALL_SEATS_MAX; i++) {
        if (record->seats[i].honest && !within(&want->limit, record->seats[i].highest))
            return false;
    }
    return record->complete;
}

static bool all_equal_holds(const struct want *want, const struct record *record)
{
    const struct seat *first = NULL;
    (void)want;
    for (size_t i = 0; i < HALL_SEATS_MAX; i++) {
        const struct seat *seat = &record->seats[i];
        if (!seat->honest)
            continue;
        if (first == NULL)
            first = seat;
        if (!same_blocks(first->blocks, first->block_count, seat->blocks, seat->block_count))
            return false;
    }
    return record->complete;
}

static bool at_odds_holds(const struct want *want, const struct record *record)
{
    (void)want;
    return record_at_odds(record);
}

static bool refusal_holds(const struct want *want, const struct record *record)
{
    for (size_t i = 0; i < record->refusal_count; i++) {
        const struct refusal *refusal = &record->refusals[i];
        if (refusal->number == want->refusal.number && (!want->of_line || refusal->line == want->refusal.line)
            && (!want->of_seat || refusal->seat == want->refusal.seat)
            && (!want->of_subject || refusal->subject == want->refusal.subject))
            return true;
    }
    return false;
}

static bool no_refusal_holds(const struct want *want, const struct record *record)
{
    (void)want;
    return record->refusal_count == 0;
}

static bool ended_holds(const struct want *want, const struct record *record)
{
    return !record->complete && record->refusal_count == 1 && record->refusals[0].number == want->refusal.number;
}

static bool calls_hold(const struct want *want, const struct record *record)
{
    return record->complete && within(&want->limit, record->calls);
}

static bool accepted_holds(const struct want *want, const struct record *record)
{
    return record->complete && within(&want->limit, record->accepted);
}

static bool refused_holds(const struct want *want, const struct record *record)
{
    return record->complete && within(&want->limit, record->refused);
}

/* How each is written. */

static bool is(const char *word, const char *wanted)
{
    return word != NULL && strcmp(word, wanted) == 0;
}

static bool parse_limit(struct limit *limit, struct words *words, const char *what, unsigned high)
{
    const char *sign = words_next(words);
    if (is(sign, "="))
        limit->comparison = EQUAL;
    else if (is(sign, "<="))
        limit->comparison = AT_MOST;
    else if (is(sign, ">="))
        limit->comparison = AT_LEAST;
    else
        return words_fail(words, "after %s comes =, <= or >=", what);
    return words_number(words, what, 0, high, &limit->number);
}

static bool parse_state(struct want *want, struct words *words)
{
    const char *word = words_next(words);
    if (is(word, "waiting"))
        want->state = HALL_SEAT_WAITING;
    else if (is(word, "in-round"))
        want->state = HALL_SEAT_IN_ROUND;
    else if (is(word, "done"))
        want->state = HALL_SEAT_DONE;
    else
        return words_fail(words, "a state is waiting, in-round or done");
    want->holds = state_holds;
    return true;
}

static bool parse_catalogue(struct want *want, struct words *words)
{
    want->holds = catalogue_holds;
    if (words_left(words) && strcmp(words->word[words->next], "empty") == 0) {
        words_next(words);
        return true;
    }
    do {
        if (want->block_count == HALL_ROUNDS_MAX)
            return words_fail(words, "a catalogue has at most %u blocks", HALL_ROUNDS_MAX);
        if (!words_number(words, "a block", 1, HALL_BLOCKS_MAX, &want->blocks[want->block_count]))
            return false;
        want->block_count++;
    } while (words_left(words));
    return true;
}

static bool parse_seat(struct want *want, struct words *words)
{
    if (!words_number(words, "the seat", 0, HALL_SEATS_MAX - 1, &want->seat))
        return false;
    const char *word = words_next(words);
    if (is(word, "state"))
        return parse_state(want, words);
    if (is(word, "catalogue"))
        return parse_catalogue(want, words);
    if (is(word, "round")) {
        want->holds = round_holds;
        return parse_limit(&want->limit, words, "the round", HALL_ROUNDS_MAX);
    }
    if (is(word, "highest")) {
        want->holds = highest_holds;
        return parse_limit(&want->limit, words, "the highest committed round", HALL_ROUNDS_MAX);
    }
    return words_fail(words, "of a seat state, round, highest or catalogue can be wanted");
}

static bool parse_all(struct want *want, struct words *words)
{
    const char *word = words_next(words);
    if (is(word, "done"))
        want->holds = all_done_holds;
    else if (is(word, "equal"))
        want->holds = all_equal_holds;
    else if (is(word, "highest")) {
        want->holds = all_highest_holds;
        return parse_limit(&want->limit, words, "the highest committed round", HALL_ROUNDS_MAX);
    } else
        return words_fail(words, "of all seats done, equal or highest can be wanted");
    return true;
}

/* One of `line N`, `seat N` and `subject N` after a refusal's number. */
static bool parse_detail(struct want *want, struct words *words)
{
    const char *word = words_next(words);
    if (is(word, "line") && !want->of_line) {
        want->of_line = true;
        return words_number(words, "the line", 1, 65535, &want->refusal.line);
    }
    if (is(word, "seat") && !want->of_seat) {
        want->of_seat = true;
        return words_number(words, "the seat", 0, 255, &want->refusal.seat);
    }
    if (is(word, "subject") && !want->of_subject) {
        want->of_subject = true;
        return words_number(words, "the subject", 0, 65535, &want->refusal.subject);
    }
    return words_fail(words, "after a refusal come line, seat and subject, each once at most: %s", word);
}

static bool parse_refusal(struct want *want, struct words *words)
{
    want->holds = refusal_holds;
    if (!words_number(words, "the refusal", 1, 23, &want->refusal.number))
        return false;
    while (words_left(words)) {
        if (!parse_detail(want, words))
            return false;
    }
    return true;
}

static bool parse_no(struct want *want, struct words *words)
{
    want->holds = no_refusal_holds;
    return is(words_next(words), "refusal") || words_fail(words, "after no comes refusal");
}

static bool parse_ended(struct want *want, struct words *words)
{
    want->holds = ended_holds;
    return words_number(words, "the refusal", 1, 23, &want->refusal.number);
}

static bool parse_at_odds(struct want *want, struct words *words)
{
    (void)words;
    want->holds = at_odds_holds;
    return true;
}

static bool parse_calls(struct want *want, struct words *words)
{
    want->holds = calls_hold;
    return parse_limit(&want->limit, words, "calls", 65535);
}

static bool parse_accepted(struct want *want, struct words *words)
{
    want->holds = accepted_holds;
    return parse_limit(&want->limit, words, "accepted", 65535);
}

static bool parse_refused(struct want *want, struct words *words)
{
    want->holds = refused_holds;
    return parse_limit(&want->limit, words, "refused", 65535);
}

static const struct form {
    const char *word;
    bool (*parse)(struct want *want, struct words *words);
} forms[] = {
    {"seat", parse_seat},       {"all", parse_all},         {"refusal", parse_refusal},   {"no", parse_no},           {"ended", parse_ended},
    {"at-odds", parse_at_odds}, {"calls", parse_calls},     {"accepted", parse_accepted}, {"refused", parse_refused},
};

bool want_parse(struct want *want, struct words *words)
{
    const char *word = words_next(words);
    if (word == NULL)
        return words_fail(words, "nothing is wanted");
    for (size_t i = 0; i < sizeof forms / sizeof forms[0]; i++) {
        if (strcmp(forms[i].word, word) == 0)
            return forms[i].parse(want, words) && words_end(words);
    }
    return words_fail(words, "cannot be wanted: %s", word);
}
