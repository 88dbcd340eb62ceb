/* Runs one paper through the library: `paper card|slip FILE` writes the record to standard output, or prints `answer NUMBER`
 * where the hall refuses the submission as a whole. It ends with status 2 if a byte past the record was touched. */
#include "../include/hall.h"
#include <stdio.h>
#include <string.h>

enum { ROOM = 4096, LONGEST = 1 << 20, UNTOUCHED = 0xaa };

static uint8_t submission[LONGEST];
static uint8_t output[ROOM];

int main(int argc, char **argv)
{
    if (argc != 3 || (strcmp(argv[1], "card") != 0 && strcmp(argv[1], "slip") != 0)) {
        fprintf(stderr, "usage: paper card|slip FILE\n");
        return 1;
    }
    FILE *file = fopen(argv[2], "rb");
    if (file == NULL) {
        perror(argv[2]);
        return 1;
    }
    size_t length = fread(submission, 1, sizeof submission, file);
    fclose(file);
    memset(output, UNTOUCHED, sizeof output);
    uint32_t answer = strcmp(argv[1], "card") == 0 ? card_hall(submission, length, output, sizeof output)
                                                   : slip_hall(submission, length, output, sizeof output);
    size_t written = answer < 1000000 ? answer : 0;
    if (answer >= 1000000)
        printf("answer %u\n", (unsigned)answer);
    fwrite(output, 1, written, stdout);
    for (size_t i = written; i < sizeof output; i++) {
        if (output[i] != UNTOUCHED) {
            fprintf(stderr, "byte %zu past the record was touched\n", i);
            return 2;
        }
    }
    return 0;
}
