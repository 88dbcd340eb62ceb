/* Random and mutated submissions through the C functions of the library, with every byte outside the two buffers forbidden.
 *
 *   fuzz [--count N] [--seconds S] [--seed X] FILE...    FILE is a table of papers (table.txt) or a paper (*.card, *.slip): what is mutated
 *   fuzz --self-test                                     shows that accesses out of bounds are caught
 *
 * Buffers lie flush against a page that may not be touched, at their end or at their start in turn, or on the heap between the red zones of
 * the address sanitizer; the submission may not be written. The library runs on a stack of one megabyte. Each submission is run twice, in
 * buffers placed differently, and must give the same; the record must have the form of a record, and what lies past it must be untouched.
 * A fault ends the program with a signal or a report of the sanitizer, anything else that is wrong with status 1 and the submission in
 * the file fuzz-failure.paper. The same seed gives the same submissions. */
#define _GNU_SOURCE
#include "../include/hall.h"
#include <pthread.h>
#include <stdio.h>
#include <stdlib.h>
#include <string.h>
#include <sys/mman.h>
#include <sys/wait.h>
#include <time.h>
#include <unistd.h>

typedef uint32_t hall_function(const uint8_t *, size_t, uint8_t *, size_t);

enum {
    LONGEST = 70000,      /* longest submission that is tried */
    ROOM = 4 * 2048,      /* longest output buffer that is tried */
    CORPUS_MAX = 4096,    /* papers at most */
    STACK = 1 << 20,      /* for the library and the little that is around it */
    SHORTEST_RECORD = 17, /* one refusal, or less than one seat and the counts */
};

/* Random numbers (splitmix64). */

static uint64_t random_state;

static uint64_t next(void)
{
    uint64_t z = random_state += 0x9e3779b97f4a7c15u;
    z = (z ^ (z >> 30)) * 0xbf58476d1ce4e5b9u;
    z = (z ^ (z >> 27)) * 0x94d049bb133111ebu;
    return z ^ (z >> 31);
}

static size_t below(size_t limit)
{
    return (size_t)(next() % limit);
}

/* Placed buffers. */

typedef enum { AT_END, AT_START, ON_HEAP, PLACEMENTS } placement;

/* Memory between two pages that may not be touched. */
typedef struct {
    uint8_t *pages;
    size_t size;
} guarded;

static guarded guard(size_t room)
{
    size_t page = (size_t)sysconf(_SC_PAGESIZE);
    size_t size = (room + page - 1) / page * page;
    uint8_t *all = mmap(NULL, size + 2 * page, PROT_NONE, MAP_PRIVATE | MAP_ANONYMOUS, -1, 0);
    if (all == MAP_FAILED || mprotect(all + page, size, PROT_READ | PROT_WRITE) != 0) {
        perror("mmap");
        exit(2);
    }
    return (guarded){all + page, size};
}

static void protect(guarded memory, int protection)
{
    if (mprotect(memory.pages, memory.size, protection) != 0) {
        perror("mprotect");
        exit(2);
    }
}

/* Room for `length` bytes, flush against a guard page or on the heap. */
static uint8_t *place(guarded memory, placement where, size_t length)
{
    switch (where) {
    case AT_END: return memory.pages + memory.size - length;
    case AT_START: return memory.pages;
    default: return malloc(length > 0 ? length : 1);
    }
}

/* One submission. */

typedef struct {
    const uint8_t *text;
    size_t length;
    size_t room;
    hall_function *hall;
} trial;

typedef struct {
    uint32_t result;
    uint8_t output[ROOM];
} outcome;

static guarded submission_memory, output_memory;

static uint8_t pattern(size_t i)
{
    return (uint8_t)(0x80 | (i * 37 % 127));
}

static void run(const trial *one, placement where, outcome *out)
{
    uint8_t *submission = place(submission_memory, where, one->length);
    uint8_t *output = place(output_memory, where, one->room);
    memcpy(submission, one->text, one->length);
    for (size_t i = 0; i < one->room; i++)
        output[i] = pattern(i);
    protect(submission_memory, PROT_READ);
    out->result = one->hall(submission, one->length, output, one->room);
    protect(submission_memory, PROT_READ | PROT_WRITE);
    memcpy(out->output, output, one->room);
    if (where == ON_HEAP) {
        free(submission);
        free(output);
    }
}

static void fail(const trial *one, const char *what)
{
    fprintf(stderr, "fuzz: %s; the submission is in fuzz-failure.paper, its output buffer had %zu bytes\n", what, one->room);
    FILE *file = fopen("fuzz-failure.paper", "wb");
    if (file != NULL) {
        fwrite(one->text, 1, one->length, file);
        fclose(file);
    }
    exit(1);
}

static int is_record(const uint8_t *record, size_t length)
{
    if (length < SHORTEST_RECORD || length > HALL_RECORD_MAX || record[length - 1] != '\n')
        return 0;
    for (size_t i = 0; i < length; i++)
        if (record[i] != '\n' && (record[i] < '0' || record[i] > '9') && (record[i] < 'a' || record[i] > 'f'))
            return 0;
    return 1;
}

static void judge(const trial *one, const outcome *out)
{
    uint32_t expected = one->length > HALL_SUBMISSION_MAX ? HALL_SUBMISSION_TOO_LONG : one->room < HALL_OUTPUT_MIN ? HALL_OUTPUT_TOO_SHORT : 0;
    size_t written = HALL_IS_REFUSAL(out->result) ? 0 : out->result;
    if (expected != 0 ? out->result != expected : !is_record(out->output, written))
        fail(one, "the result or the record is wrong");
    for (size_t i = written; i < one->room; i++)
        if (out->output[i] != pattern(i))
            fail(one, "a byte past the record was touched");
}

static void try(const trial *one)
{
    static outcome first, second;
    placement where = (placement)below(PLACEMENTS);
    run(one, where, &first);
    run(one, (placement)((where + 1) % PLACEMENTS), &second);
    judge(one, &first);
    if (first.result != second.result || memcmp(first.output, second.output, one->room) != 0)
        fail(one, "two runs differ");
}

/* The corpus. */

static struct {
    uint8_t *text;
    size_t length;
} corpus[CORPUS_MAX];
static size_t corpus_count;

static uint8_t scratch[LONGEST + 1];
static size_t scratch_length;

static void keep_scratch(void)
{
    if (corpus_count == CORPUS_MAX || scratch_length == 0)
        return;
    corpus[corpus_count].text = malloc(scratch_length);
    memcpy(corpus[corpus_count].text, scratch, scratch_length);
    corpus[corpus_count++].length = scratch_length;
    scratch_length = 0;
}

static void put(uint8_t byte)
{
    if (scratch_length < LONGEST)
        scratch[scratch_length++] = byte;
}

/* One TEXT of the table, its escapes read (papers/table.txt says how). */
static void put_text(const char *text)
{
    for (; *text != '\0'; text++) {
        unsigned byte;
        if (*text != '\\') {
            put((uint8_t)*text);
        } else if (*++text == 'x' && sscanf(text + 1, "%2x", &byte) == 1) {
            put((uint8_t)byte);
            text += 2;
        } else {
            put(*text == 'r' ? '\r' : *text == 't' ? '\t' : *text == 's' ? ' ' : *text == 'n' ? '\n' : '\\');
        }
    }
}

static void put_row(const char *word, const char *text)
{
    int in = strcmp(word, "in") == 0;
    long count = 1;
    if (!in && strcmp(word, "cut") != 0)
        return;
    if (text[0] == '*') {
        char *rest;
        count = strtol(text + 1, &rest, 10);
        text = *rest == ' ' ? rest + 1 : rest;
    }
    while (count-- > 0) {
        put_text(text);
        if (in)
            put('\n');
    }
}

static void read_table(FILE *file)
{
    static char row[LONGEST];
    while (fgets(row, sizeof row, file) != NULL) {
        row[strcspn(row, "\n")] = '\0';
        char *text = strchr(row, ' ');
        if (text != NULL)
            *text++ = '\0';
        if (strcmp(row, "paper") == 0)
            keep_scratch();
        put_row(row, text != NULL ? text : "");
    }
    keep_scratch();
}

static void read_corpus(const char *path)
{
    FILE *file = fopen(path, "rb");
    if (file == NULL) {
        perror(path);
        exit(2);
    }
    const char *dot = strrchr(path, '.');
    if (dot != NULL && strcmp(dot, ".txt") == 0) {
        read_table(file);
    } else {
        scratch_length = fread(scratch, 1, LONGEST, file);
        keep_scratch();
    }
    fclose(file);
}

/* Mutations of the text in scratch. */

static void replace(size_t at, size_t cut, const uint8_t *by, size_t length)
{
    if (at + cut > scratch_length || scratch_length - cut + length > LONGEST)
        return;
    memmove(scratch + at + length, scratch + at + cut, scratch_length - at - cut);
    memcpy(scratch + at, by, length);
    scratch_length = scratch_length - cut + length;
}

static size_t line_start(size_t at)
{
    while (at > 0 && scratch[at - 1] != '\n')
        at--;
    return at;
}

static size_t line_end(size_t at)
{
    while (at < scratch_length && scratch[at] != '\n')
        at++;
    return at < scratch_length ? at + 1 : at;
}

/* A line of a call with random fields, mostly small. */
static size_t random_line(uint8_t *line)
{
    static const uint8_t lengths[] = {6, 2, 4, 4, 4, 4, 6, 5, 5};
    size_t sort = below(sizeof lengths);
    size_t bytes = lengths[sort] + (sort == 2 || sort == 7 ? below(10) : 0) + (below(40) == 0);
    int size = snprintf((char *)line, 8, "%02x", (unsigned)(0x10 + sort));
    for (size_t i = 1; i < bytes; i++)
        size += snprintf((char *)line + size, 8, "%02x", (unsigned)(below(8) == 0 ? below(256) : below(14)));
    line[size] = '\n';
    return (size_t)size + 1;
}

static void mutate(void)
{
    static uint8_t piece[LONGEST];
    size_t at = below(scratch_length + 1);
    size_t start = line_start(at), end = line_end(at);
    uint8_t digit = (uint8_t)"0123456789abcdef\n"[below(17)], byte = (uint8_t)next();
    switch (below(9)) {
    case 0: replace(at, 1, &byte, 1); break;
    case 1: replace(at, 1, &digit, 1); break;
    case 2: replace(at, 0, &digit, 1); break;
    case 3: replace(at, 1, &digit, 0); break;
    case 4: replace(start, end - start, piece, 0); break;
    case 5:
        memcpy(piece, scratch + start, end - start);
        replace(line_start(below(scratch_length + 1)), 0, piece, end - start);
        break;
    case 6: scratch_length = at; break;
    case 7: {
        size_t other = below(corpus_count), from = below(corpus[other].length);
        replace(start, 0, corpus[other].text + from, below(corpus[other].length - from) % 2000);
        break;
    }
    default: replace(start, below(2) * (end - start), piece, random_line(piece)); break;
    }
}

static void new_submission(void)
{
    scratch_length = 0;
    if (below(20) == 0) {
        size_t length = below(3) == 0 ? below(LONGEST) : below(300);
        while (scratch_length < length)
            put(below(2) == 0 ? (uint8_t)next() : (uint8_t)"0123456789abcdef\n"[below(17)]);
        return;
    }
    size_t from = below(corpus_count);
    memcpy(scratch, corpus[from].text, scratch_length = corpus[from].length);
    for (size_t count = below(8); count > 0; count--)
        mutate();
    if (below(200) == 0)
        while (scratch_length < HALL_SUBMISSION_MAX + below(2))
            put((uint8_t)"0\n"[below(2)]);
}

static size_t new_room(void)
{
    switch (below(16)) {
    case 0: return below(HALL_OUTPUT_MIN);
    case 1: return HALL_OUTPUT_MIN + below(ROOM - HALL_OUTPUT_MIN);
    default: return HALL_OUTPUT_MIN;
    }
}

/* The program. */

static long wanted_count = 1000000, wanted_seconds = 20;

static void *fuzz(void *unused)
{
    time_t end = time(NULL) + wanted_seconds;
    long count = 0;
    (void)unused;
    for (; count < wanted_count && time(NULL) < end; count++) {
        new_submission();
        trial one = {scratch, scratch_length, new_room(), below(2) == 0 ? card_hall : slip_hall};
        try(&one);
    }
    printf("fuzz: %ld submissions from a corpus of %zu papers, each in two placements, none out of bounds\n", count, corpus_count);
    if (count == 0)
        exit(1);
    return NULL;
}

/* Runs a function on the small stack. */
static void on_small_stack(void *(*body)(void *), void *argument)
{
    pthread_attr_t attributes;
    pthread_t thread;
    pthread_attr_init(&attributes);
    if (pthread_attr_setstacksize(&attributes, STACK) != 0 || pthread_create(&thread, &attributes, body, argument) != 0) {
        perror("thread");
        exit(2);
    }
    pthread_join(thread, NULL);
}

/* Self-test: functions that stand for a library with a fault. Like the library they are not instrumented. */
#define UNINSTRUMENTED __attribute__((no_sanitize_address, noinline))

static volatile uint8_t sink;

UNINSTRUMENTED static uint32_t reads_past_end(const uint8_t *in, size_t in_length, uint8_t *out, size_t out_length)
{
    (void)out, (void)out_length;
    sink = in[in_length];
    return HALL_SUBMISSION_TOO_LONG;
}

UNINSTRUMENTED static uint32_t reads_before_start(const uint8_t *in, size_t in_length, uint8_t *out, size_t out_length)
{
    (void)in_length, (void)out, (void)out_length;
    sink = *(in - 1);
    return HALL_SUBMISSION_TOO_LONG;
}

UNINSTRUMENTED static uint32_t writes_past_end(const uint8_t *in, size_t in_length, uint8_t *out, size_t out_length)
{
    (void)in, (void)in_length;
    *(volatile uint8_t *)(out + out_length) = 0;
    return HALL_SUBMISSION_TOO_LONG;
}

UNINSTRUMENTED static uint32_t writes_submission(const uint8_t *in, size_t in_length, uint8_t *out, size_t out_length)
{
    (void)in_length, (void)out, (void)out_length;
    *(volatile uint8_t *)(uintptr_t)in = 0;
    return HALL_SUBMISSION_TOO_LONG;
}

UNINSTRUMENTED static uint32_t clears_too_much(const uint8_t *in, size_t in_length, uint8_t *out, size_t out_length)
{
    (void)in, (void)in_length;
    memset(out, 0, out_length + 1);
    return HALL_SUBMISSION_TOO_LONG;
}

UNINSTRUMENTED static uint32_t uses_much_stack(const uint8_t *in, size_t in_length, uint8_t *out, size_t out_length)
{
    volatile uint8_t much[STACK + 65536];
    (void)in, (void)in_length, (void)out, (void)out_length;
    for (size_t i = 0; i < sizeof much; i += 1024)
        much[sizeof much - 1 - i] = 0;
    return HALL_SUBMISSION_TOO_LONG;
}

UNINSTRUMENTED static uint32_t touches_rest(const uint8_t *in, size_t in_length, uint8_t *out, size_t out_length)
{
    uint32_t result = card_hall(in, in_length, out, out_length);
    out[out_length - 1] = 0;
    return result;
}

UNINSTRUMENTED static uint32_t harmless(const uint8_t *in, size_t in_length, uint8_t *out, size_t out_length)
{
    return card_hall(in, in_length, out, out_length);
}

static placement self_test_placement;

static void *self_test_run(void *function)
{
    static const uint8_t paper[] = "01010001000000000000\n1100\n";
    static outcome out;
    trial one = {paper, sizeof paper - 1, HALL_OUTPUT_MIN, *(hall_function **)function};
    run(&one, self_test_placement, &out);
    judge(&one, &out);
    return NULL;
}

/* Whether a fault in the library ends the program. */
static int is_caught(hall_function *function, placement where)
{
    fflush(NULL);
    pid_t child = fork();
    if (child == 0) {
        if (freopen("/dev/null", "w", stderr) == NULL || chdir("/tmp") != 0)
            _exit(0);
        self_test_placement = where;
        on_small_stack(self_test_run, &function);
        _exit(0);
    }
    int status;
    waitpid(child, &status, 0);
    return status != 0;
}

static int self_test(void)
{
    static const struct {
        const char *name;
        hall_function *function;
        placement where;
        int caught;
    } cases[] = {
        {"a read past the end of the submission", reads_past_end, AT_END, 1},
        {"a read before the start of the submission", reads_before_start, AT_START, 1},
        {"a write past the end of the output buffer", writes_past_end, AT_END, 1},
        {"a write into the submission", writes_submission, AT_END, 1},
        {"a memset past the end of the output buffer", clears_too_much, ON_HEAP, 1},
        {"more than a megabyte of stack", uses_much_stack, AT_END, 1},
        {"a write past the record", touches_rest, AT_START, 1},
        {"the library as it is", harmless, AT_END, 0},
    };
    int failed = 0;
    for (size_t i = 0; i < sizeof cases / sizeof *cases; i++) {
        int caught = is_caught(cases[i].function, cases[i].where);
        printf("fuzz: %s: %s\n", cases[i].name, caught ? "caught" : "not caught");
        failed |= caught != cases[i].caught;
    }
    return failed;
}

int main(int argc, char **argv)
{
    submission_memory = guard(LONGEST);
    output_memory = guard(ROOM);
    for (int i = 1; i < argc; i++) {
        if (strcmp(argv[i], "--self-test") == 0)
            return self_test();
        if (strcmp(argv[i], "--count") == 0 && i + 1 < argc)
            wanted_count = atol(argv[++i]);
        else if (strcmp(argv[i], "--seconds") == 0 && i + 1 < argc)
            wanted_seconds = atol(argv[++i]);
        else if (strcmp(argv[i], "--seed") == 0 && i + 1 < argc)
            random_state = (uint64_t)atoll(argv[++i]);
        else
            read_corpus(argv[i]);
    }
    if (corpus_count == 0) {
        fprintf(stderr, "usage: fuzz [--count N] [--seconds S] [--seed X] FILE... | fuzz --self-test\n");
        return 2;
    }
    on_small_stack(fuzz, NULL);
    return 0;
}
