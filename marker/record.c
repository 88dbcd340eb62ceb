/* Reading a record: lines f0 (refusal), e0 (honest seat) and ef (counts), as docs/PAGE.md has them. */
#include "marker.h"
#include <string.h>

enum { FRAME_MAX = 5 + 2 * HALL_ROUNDS_MAX };

struct frame {
    uint8_t bytes[FRAME_MAX];
    size_t length;
};

static unsigned digit(uint8_t character)
{
    if (character >= '0' && character <= '9')
        return character - '0';
    if (character >= 'a' && character <= 'f')
        return character - 'a' + 10;
    return 16;
}

/* The bytes of one line; false where it is not hexadecimal or too long. */
static bool frame_read(struct frame *frame, const uint8_t *line, size_t length)
{
    if (length % 2 != 0 || length / 2 > FRAME_MAX)
        return false;
    frame->length = length / 2;
    for (size_t i = 0; i < frame->length; i++) {
        unsigned high = digit(line[2 * i]), low = digit(line[2 * i + 1]);
        if (high > 15 || low > 15)
            return false;
        frame->bytes[i] = (uint8_t)(high * 16 + low);
    }
    return frame->length > 0;
}

/* The number in two bytes, high byte first. */
static unsigned wide(const uint8_t *bytes)
{
    return bytes[0] * 256u + bytes[1];
}

static bool take_refusal(struct record *record, const struct frame *frame)
{
    if (frame->length != 8 || record->refusal_count == HALL_REFUSALS_MAX)
        return false;
    const uint8_t *b = frame->bytes;
    record->refusals[record->refusal_count++] =
        (struct refusal){.line = wide(b + 1), .number = b[3], .layer = b[4], .seat = b[5], .subject = wide(b + 6)};
    return true;
}

static bool take_seat(struct record *record, const struct frame *frame)
{
    const uint8_t *b = frame->bytes;
    if (frame->length < 5 || frame->length % 2 != 1 || b[1] >= HALL_SEATS_MAX)
        return false;
    struct seat *seat = &record->seats[b[1]];
    *seat = (struct seat){.honest = true, .state = b[2], .round = b[3], .highest = b[4]};
    seat->block_count = (unsigned)(frame->length - 5) / 2;
    for (unsigned i = 0; i < seat->block_count; i++)
        seat->blocks[i] = wide(b + 5 + 2 * i);
    return true;
}

static bool take_counts(struct record *record, const struct frame *frame)
{
    if (frame->length != 7)
        return false;
    record->complete = true;
    record->calls = wide(frame->bytes + 1);
    record->accepted = wide(frame->bytes + 3);
    record->refused = wide(frame->bytes + 5);
    return true;
}

static bool take(struct record *record, const struct frame *frame)
{
    switch (frame->bytes[0]) {
    case HALL_LINE_REFUSAL:
        return take_refusal(record, frame);
    case HALL_LINE_SEAT:
        return take_seat(record, frame);
    case HALL_LINE_COUNTS:
        return take_counts(record, frame);
    default:
        return false;
    }
}

bool record_read(struct record *record, const uint8_t *text, size_t length)
{
    memset(record, 0, sizeof *record);
    while (length > 0) {
        const uint8_t *feed = memchr(text, '\n', length);
        struct frame frame;
        if (feed == NULL || !frame_read(&frame, text, (size_t)(feed - text)) || !take(record, &frame))
            return false;
        length -= (size_t)(feed - text) + 1;
        text = feed + 1;
    }
    return true;
}

/* Neither of two catalogues begins with all of the other. */
static bool differ(const struct seat *one, const struct seat *other)
{
    unsigned shorter = one->block_count < other->block_count ? one->block_count : other->block_count;
    for (unsigned i = 0; i < shorter; i++) {
        if (one->blocks[i] != other->blocks[i])
            return true;
    }
    return false;
}

bool record_at_odds(const struct record *record)
{
    for (size_t i = 0; i < HALL_SEATS_MAX; i++) {
        for (size_t j = 0; j < i; j++) {
            if (record->seats[i].honest && record->seats[j].honest && differ(&record->seats[i], &record->seats[j]))
                return true;
        }
    }
    return false;
}
