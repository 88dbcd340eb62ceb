/* mark QUESTIONS FOLDER: runs every paper of the folder and prints its marks, then a summary.
 * Status 0: all papers are marked. 1: the question file has errors. 2: wrong usage, or something cannot be read or written. */
#include "marker.h"
#include <errno.h>
#include <stdio.h>
#include <string.h>

struct sums {
    unsigned papers;
    unsigned long got, most;
    unsigned answered[QUESTIONS_MAX]; /* papers that have the marks of each question */
};

static struct questions questions;
static struct paper paper;
static struct sums sums;

/* A file's name, with ? for what would break a line. */
static void print_name(const char *name)
{
    for (; *name != '\0'; name++)
        putchar((unsigned char)*name < ' ' || *name == 127 ? '?' : *name);
}

/* The number of the first line that is not as given; 0 where all given lines are there. */
static unsigned first_line_not_given(void)
{
    unsigned line = 1;
    for (size_t i = 0; i < questions.given_length; i++) {
        if (i >= paper.length || paper.bytes[i] != questions.given[i])
            return line;
        if (questions.given[i] == '\n')
            line++;
    }
    return 0;
}

/* Runs the paper. True if its record can be judged; else a note says why not. */
static bool run_paper(struct record *record)
{
    uint8_t output[HALL_OUTPUT_MIN];
    unsigned line = first_line_not_given();
    uint32_t result = questions.hall(paper.bytes, paper.length, output, sizeof output);
    if (result == HALL_SUBMISSION_TOO_LONG)
        printf("note more than %u bytes\n", HALL_SUBMISSION_MAX);
    else if (HALL_IS_REFUSAL(result))
        printf("note the hall answers %u\n", (unsigned)result);
    else if (line != 0)
        printf("note line %u is not the given line\n", line);
    else if (!record_read(record, output, result))
        printf("note the record cannot be read\n");
    else
        return true;
    return false;
}

/* The line of the first want of a question that does not hold; 0 where all hold. */
static unsigned first_missed(const struct question *question, const struct record *record)
{
    for (size_t i = 0; i < question->want_count; i++) {
        const struct want *want = &questions.want[question->first_want + i];
        if (!want->holds(want, record))
            return want->line;
    }
    return 0;
}

/* Marks one question and answers the marks that it brings. */
static unsigned mark_question(size_t index, bool judged, const struct record *record)
{
    const struct question *question = &questions.question[index];
    unsigned missed = judged ? first_missed(question, record) : question->line;
    if (missed != 0) {
        printf("mark %s 0 %u missed %u\n", question->name, question->marks, missed);
        return 0;
    }
    printf("mark %s %u %u\n", question->name, question->marks, question->marks);
    sums.answered[index]++;
    return question->marks;
}

static void mark_paper(const char *name)
{
    struct record record;
    unsigned got = 0, most = 0;
    printf("paper ");
    print_name(name);
    putchar('\n');
    bool judged = run_paper(&record);
    for (size_t i = 0; i < questions.question_count; i++) {
        got += mark_question(i, judged, &record);
        most += questions.question[i].marks;
    }
    printf("total %u %u\n", got, most);
    sums.papers++;
    sums.got += got;
    sums.most += most;
}

static void print_summary(void)
{
    printf("summary\n");
    for (size_t i = 0; i < questions.question_count; i++)
        printf("question %s %u answered %u\n", questions.question[i].name, questions.question[i].marks, sums.answered[i]);
    printf("papers %u\n", sums.papers);
    printf("marks %lu %lu\n", sums.got, sums.most);
}

static bool mark_folder(const struct folder *folder)
{
    bool all_read = true;
    for (size_t i = 0; i < folder->count; i++) {
        if (paper_read(&paper, folder, folder->names[i])) {
            mark_paper(folder->names[i]);
        } else {
            fprintf(stderr, "mark: %s/%s: %s\n", folder->path, folder->names[i], strerror(errno));
            all_read = false;
        }
    }
    print_summary();
    return all_read;
}

int main(int argc, char **argv)
{
    struct folder folder;
    if (argc != 3) {
        fprintf(stderr, "usage: mark QUESTIONS FOLDER\n");
        return 2;
    }
    int errors = questions_read(&questions, argv[1]);
    if (errors < 0) {
        fprintf(stderr, "mark: %s: %s\n", argv[1], strerror(errno));
        return 2;
    }
    if (errors > 0)
        return 1;
    if (!folder_open(&folder, argv[2])) {
        fprintf(stderr, "mark: %s: %s\n", argv[2], strerror(errno));
        return 2;
    }
    bool good = mark_folder(&folder);
    folder_close(&folder);
    return good && fflush(stdout) == 0 && ferror(stdout) == 0 ? 0 : 2;
}
