/* Reading a question file. Every line that is wrong is reported, with its number; reading goes on after it. */
#include "marker.h"
#include <stdio.h>
#include <string.h>

struct reading {
    struct questions *questions;
    const char *path;
    FILE *file;
    unsigned line;
    int errors;
    bool open_question; /* a question line was the last but for its wants, or was wrong */
};

static void report(struct reading *reading, unsigned line, const char *error)
{
    reading->errors++;
    fprintf(stderr, "%s:%u: %s\n", reading->path, line, error);
}

/* Reads one line without its line feed. False at the end of the file; error is set where the line is not plain text. */
static bool line_read(struct reading *reading, char *line, const char **error)
{
    size_t length = 0;
    int c = getc(reading->file);
    *error = NULL;
    if (c == EOF)
        return false;
    reading->line++;
    for (; c != EOF && c != '\n'; c = getc(reading->file)) {
        if (length == LINE_LENGTH_MAX)
            *error = "the line has more than 255 characters";
        else if ((c < ' ' && c != '\t') || c == 127)
            *error = "the line has a control character";
        else
            line[length++] = (char)c;
    }
    line[length] = '\0';
    return true;
}

static bool parse_hall(struct reading *reading, struct words *words)
{
    const char *word = words_next(words);
    if (reading->questions->hall != NULL)
        return words_fail(words, "a second hall");
    if (word != NULL && strcmp(word, "card") == 0)
        reading->questions->hall = card_hall;
    else if (word != NULL && strcmp(word, "slip") == 0)
        reading->questions->hall = slip_hall;
    else
        return words_fail(words, "a hall is card or slip");
    return true;
}

/* A line that a paper must begin with: lower-case hexadecimal, an even number of digits. */
static bool parse_given(struct reading *reading, struct words *words)
{
    struct questions *questions = reading->questions;
    const char *word = words_next(words);
    if (reading->open_question)
        return words_fail(words, "given after the first question");
    if (word == NULL || strlen(word) % 2 != 0 || word[strspn(word, "0123456789abcdef")] != '\0')
        return words_fail(words, "a given line is an even number of digits 0 to 9 and a to f");
    size_t length = strlen(word);
    if (questions->given_length + length + 1 > GIVEN_LENGTH_MAX)
        return words_fail(words, "the given lines have more than %d bytes", GIVEN_LENGTH_MAX);
    memcpy(questions->given + questions->given_length, word, length);
    questions->given[questions->given_length + length] = '\n';
    questions->given_length += length + 1;
    return true;
}

static bool name_is_used(const struct questions *questions, const char *name)
{
    for (size_t i = 0; i < questions->question_count; i++) {
        if (strcmp(questions->question[i].name, name) == 0)
            return true;
    }
    return false;
}

static bool parse_name(const struct questions *questions, struct words *words, char *name)
{
    const char *word = words_next(words);
    if (word == NULL)
        return words_fail(words, "the question's name is missing");
    if (strlen(word) > NAME_LENGTH_MAX)
        return words_fail(words, "the question's name has more than %d characters", NAME_LENGTH_MAX);
    if (word[strspn(word, "abcdefghijklmnopqrstuvwxyz0123456789-")] != '\0')
        return words_fail(words, "a question's name is of a to z, 0 to 9 and -: %s", word);
    if (name_is_used(questions, word))
        return words_fail(words, "a second question of this name: %s", word);
    strcpy(name, word);
    return true;
}

/* The question at hand must have wants before the next one, or the end of the file, comes. */
static void close_question(struct reading *reading)
{
    const struct questions *questions = reading->questions;
    if (questions->question_count == 0)
        return;
    const struct question *last = &questions->question[questions->question_count - 1];
    if (last->want_count == 0 && last->line != 0)
        report(reading, last->line, "the question has no want line");
}

static bool parse_question(struct reading *reading, struct words *words)
{
    struct questions *questions = reading->questions;
    close_question(reading);
    reading->open_question = true;
    if (questions->question_count == QUESTIONS_MAX)
        return words_fail(words, "more than %d questions", QUESTIONS_MAX);
    struct question question = {.line = reading->line, .first_want = questions->want_count};
    bool good = words_number(words, "the number of marks", 1, MARKS_MAX, &question.marks)
        && parse_name(questions, words, question.name) && words_end(words);
    if (!good)
        question.line = 0; /* reported already: that it has no wants is not reported besides */
    questions->question[questions->question_count++] = question;
    return good;
}

static bool parse_want(struct reading *reading, struct words *words)
{
    struct questions *questions = reading->questions;
    if (!reading->open_question)
        return words_fail(words, "want before the first question");
    if (questions->want_count == WANTS_MAX)
        return words_fail(words, "more than %d want lines", WANTS_MAX);
    struct want *want = &questions->want[questions->want_count++];
    *want = (struct want){.line = reading->line};
    questions->question[questions->question_count - 1].want_count++;
    return want_parse(want, words);
}

static bool parse_line(struct reading *reading, struct words *words)
{
    const char *word = words_next(words);
    if (strcmp(word, "hall") == 0)
        return parse_hall(reading, words) && words_end(words);
    if (strcmp(word, "given") == 0)
        return parse_given(reading, words) && words_end(words);
    if (strcmp(word, "question") == 0)
        return parse_question(reading, words);
    if (strcmp(word, "want") == 0)
        return parse_want(reading, words);
    return words_fail(words, "a line begins with hall, given, question or want: %s", word);
}

static void take_line(struct reading *reading, char *line)
{
    struct words words;
    words_split(&words, line);
    if (words.count == 0 || words.word[0][0] == '#')
        return;
    if (words.error[0] == '\0')
        parse_line(reading, &words);
    if (words.error[0] != '\0')
        report(reading, reading->line, words.error);
}

static void finish(struct reading *reading)
{
    close_question(reading);
    if (reading->questions->hall == NULL)
        report(reading, reading->line, "the file ends without a hall line");
    if (reading->questions->question_count == 0)
        report(reading, reading->line, "the file ends without a question");
}

int questions_read(struct questions *questions, const char *path)
{
    char line[LINE_LENGTH_MAX + 1];
    const char *error;
    struct reading reading = {.questions = questions, .path = path, .file = fopen(path, "rb")};
    memset(questions, 0, sizeof *questions);
    if (reading.file == NULL)
        return -1;
    while (line_read(&reading, line, &error)) {
        if (error != NULL)
            report(&reading, reading.line, error);
        else
            take_line(&reading, line);
    }
    bool unreadable = ferror(reading.file) != 0;
    fclose(reading.file);
    if (unreadable)
        return -1;
    finish(&reading);
    return reading.errors;
}
