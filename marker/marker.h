/* The marking program: a file of questions, and a folder of papers that answer them. docs/MARKER.md has both formats. */
#ifndef MARKER_H
#define MARKER_H

#include "hall.h"
#include <stdbool.h>
#include <stddef.h>
#include <stdint.h>

enum {
    LINE_LENGTH_MAX = 255,  /* characters in a line of a question file */
    WORDS_MAX = 16,         /* words in a line */
    NAME_LENGTH_MAX = 32,   /* characters in a question's name */
    QUESTIONS_MAX = 64,     /* questions in a file */
    WANTS_MAX = 256,        /* want lines in a file */
    MARKS_MAX = 1000,       /* marks of a question */
    GIVEN_LENGTH_MAX = 4096 /* bytes of all given lines together */
};

/* words.c: the words of one line of a question file, taken one after the other. */

struct words {
    char *word[WORDS_MAX];
    size_t count;
    size_t next;
    char error[160]; /* the first error in the line; empty if there is none */
};

void words_split(struct words *words, char *line);
const char *words_next(struct words *words); /* NULL where there is none left */
bool words_left(const struct words *words);
bool words_number(struct words *words, const char *what, unsigned low, unsigned high, unsigned *number);
bool words_end(struct words *words);
bool words_fail(struct words *words, const char *format, ...); /* keeps the first error; always false */

/* record.c: what a hall function wrote. */

struct refusal {
    unsigned line, number, layer, seat, subject;
};

struct seat {
    bool honest; /* the record has a line for it */
    unsigned state, round, highest;
    unsigned blocks[HALL_ROUNDS_MAX];
    unsigned block_count;
};

struct record {
    struct refusal refusals[HALL_REFUSALS_MAX];
    size_t refusal_count;
    struct seat seats[HALL_SEATS_MAX];
    bool complete; /* it has its counts: the first lines did not end the run */
    unsigned calls, accepted, refused;
};

bool record_read(struct record *record, const uint8_t *text, size_t length);
bool record_at_odds(const struct record *record);

/* wants.c: one wanted outcome. */

enum comparison { EQUAL, AT_MOST, AT_LEAST };

struct limit {
    enum comparison comparison;
    unsigned number;
};

struct want {
    unsigned line; /* where it stands in the question file */
    bool (*holds)(const struct want *want, const struct record *record);
    unsigned seat;
    unsigned state;
    struct limit limit;
    struct refusal refusal; /* its fields count only if the flag of the same name is set */
    bool of_line, of_seat, of_subject;
    unsigned blocks[HALL_ROUNDS_MAX];
    unsigned block_count;
};

bool want_parse(struct want *want, struct words *words);

/* questions.c: a file of questions. */

typedef uint32_t hall_function(const uint8_t *submission, size_t submission_len, uint8_t *output, size_t output_len);

struct question {
    unsigned line;
    char name[NAME_LENGTH_MAX + 1];
    unsigned marks;
    size_t first_want, want_count; /* its wants, in the file's list */
};

struct questions {
    hall_function *hall;
    uint8_t given[GIVEN_LENGTH_MAX]; /* the lines that a paper must begin with, each with its line feed */
    size_t given_length;
    struct question question[QUESTIONS_MAX];
    size_t question_count;
    struct want want[WANTS_MAX];
    size_t want_count;
};

/* Reads a question file and reports every error in it on standard error. -1: it cannot be read; else the number of errors. */
int questions_read(struct questions *questions, const char *path);

/* papers.c: the papers of a folder. */

struct folder {
    const char *path;
    char **names; /* sorted */
    size_t count;
};

struct paper {
    uint8_t bytes[HALL_SUBMISSION_MAX + 1]; /* one more than a hall takes, so that a paper that is too long shows as such */
    size_t length;
};

bool folder_open(struct folder *folder, const char *path);
void folder_close(struct folder *folder);
bool paper_read(struct paper *paper, const struct folder *folder, const char *name);

#endif
