/* Measures the stack that the hall functions use: `stack card|slip FILE...` runs each paper on a painted stack of 1 MiB and prints the most
 * bytes that any of them touched, the thread's own start among them. Build with -pthread and the static library. */
#define _POSIX_C_SOURCE 200809L
#include "../include/hall.h"
#include <pthread.h>
#include <stdio.h>
#include <stdlib.h>
#include <string.h>

enum { STACK = 1 << 20, PAINT = 0xa5 };

typedef uint32_t hall_function(const uint8_t *submission, size_t submission_len, uint8_t *output, size_t output_len);

static uint8_t submission[HALL_SUBMISSION_MAX + 1];
static size_t length;
static uint8_t output[HALL_OUTPUT_MIN];
static hall_function *hall;

static void *run(void *unused)
{
    (void)unused;
    hall(submission, length, output, sizeof output);
    return NULL;
}

static void *idle(void *unused)
{
    return unused;
}

/* How much of the stack a thread with this body touches. Stacks grow downwards: the lowest bytes are the last to be touched. */
static size_t touched(void *(*body)(void *), uint8_t *stack)
{
    pthread_attr_t attributes;
    pthread_t thread;
    size_t untouched = 0;
    memset(stack, PAINT, STACK);
    if (pthread_attr_init(&attributes) != 0 || pthread_attr_setstack(&attributes, stack, STACK) != 0
        || pthread_create(&thread, &attributes, body, NULL) != 0 || pthread_join(thread, NULL) != 0) {
        fprintf(stderr, "stack: no thread\n");
        exit(2);
    }
    pthread_attr_destroy(&attributes);
    while (untouched < STACK && stack[untouched] == PAINT)
        untouched++;
    return STACK - untouched;
}

static void load(const char *path)
{
    FILE *file = fopen(path, "rb");
    if (file == NULL) {
        perror(path);
        exit(2);
    }
    length = fread(submission, 1, sizeof submission, file);
    fclose(file);
}

int main(int argc, char **argv)
{
    void *stack;
    size_t most = 0;
    if (argc < 3 || (strcmp(argv[1], "card") != 0 && strcmp(argv[1], "slip") != 0)) {
        fprintf(stderr, "usage: stack card|slip FILE...\n");
        return 2;
    }
    hall = strcmp(argv[1], "card") == 0 ? card_hall : slip_hall;
    if (posix_memalign(&stack, 4096, STACK) != 0)
        return 2;
    for (int i = 2; i < argc; i++) {
        load(argv[i]);
        size_t now = touched(run, stack);
        most = now > most ? now : most;
    }
    printf("%s: %d papers, at most %zu bytes of stack, %zu without the thread's own\n", argv[1], argc - 2, most, most - touched(idle, stack));
    free(stack);
    return 0;
}
