/* The words of one line of a question file. */
#include "marker.h"
#include <stdarg.h>
#include <stdio.h>
#include <string.h>

void words_split(struct words *words, char *line)
{
    memset(words, 0, sizeof *words);
    for (char *word = strtok(line, " \t"); word != NULL; word = strtok(NULL, " \t")) {
        if (words->count == WORDS_MAX) {
            words_fail(words, "more than %d words", WORDS_MAX);
            return;
        }
        words->word[words->count++] = word;
    }
}

const char *words_next(struct words *words)
{
    return words_left(words) ? words->word[words->next++] : NULL;
}

bool words_left(const struct words *words)
{
    return words->next < words->count;
}

bool words_fail(struct words *words, const char *format, ...)
{
    if (words->error[0] == '\0') {
        va_list arguments;
        va_start(arguments, format);
        vsnprintf(words->error, sizeof words->error, format, arguments);
        va_end(arguments);
    }
    return false;
}

/* The value of a word of decimal digits, or high + 1 where it is none or above high. */
static unsigned decimal(const char *word, unsigned high)
{
    unsigned value = 0;
    if (*word == '\0')
        return high + 1;
    for (; *word != '\0'; word++) {
        if (*word < '0' || *word > '9' || value > high)
            return high + 1;
        value = value * 10 + (unsigned)(*word - '0');
    }
    return value;
}

bool words_number(struct words *words, const char *what, unsigned low, unsigned high, unsigned *number)
{
    const char *word = words_next(words);
    if (word == NULL)
        return words_fail(words, "%s is missing", what);
    *number = decimal(word, high);
    if (*number < low || *number > high)
        return words_fail(words, "%s is not from %u to %u: %s", what, low, high, word);
    return true;
}

bool words_end(struct words *words)
{
    const char *word = words_next(words);
    return word == NULL || words_fail(words, "too many words: %s", word);
}
