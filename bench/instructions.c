/* Runs each paper (*.card, *.slip) once through the library under callgrind, and has callgrind write down after each how many instructions
 * that took; prints `NAME CALLS`. bench/run reads both. */
#include "../include/hall.h"
#include <stdio.h>
#include <string.h>
#include <valgrind/callgrind.h>

static uint8_t text[HALL_SUBMISSION_MAX];
static uint8_t output[HALL_OUTPUT_MIN];

/* The number of calls, from the counts that end the record: ef, calls (2), accepted (2), refused (2). */
static unsigned calls_of(uint32_t length)
{
    unsigned calls = 0;
    sscanf((const char *)output + length - 15, "ef%4x", &calls);
    return calls;
}

int main(int argc, char **argv)
{
    for (int i = 1; i < argc; i++) {
        FILE *file = fopen(argv[i], "rb");
        const char *name = strrchr(argv[i], '/'), *dot = strrchr(argv[i], '.');
        if (file == NULL || dot == NULL) {
            perror(argv[i]);
            return 1;
        }
        name = name != NULL ? name + 1 : argv[i];
        size_t length = fread(text, 1, sizeof text, file);
        fclose(file);
        int slip = strcmp(dot, ".slip") == 0;
        CALLGRIND_ZERO_STATS;
        uint32_t result = slip ? slip_hall(text, length, output, sizeof output) : card_hall(text, length, output, sizeof output);
        CALLGRIND_DUMP_STATS_AT(name);
        if (HALL_IS_REFUSAL(result))
            return 1;
        printf("%s %u\n", name, calls_of(result));
    }
    return 0;
}
