/* What no paper can show: records at odds, and records that are none. Prints `records: N right, M wrong`; status 1 if one is wrong. */
#include "marker.h"
#include <stdio.h>
#include <string.h>

enum reading { AGREE, AT_ODDS, NO_RECORD };

static const struct example {
    const char *text;
    enum reading reading;
} examples[] = {
    {"e000020100\ne001020100\nef000000000000\n", AGREE},
    {"e0000201010001\ne0010201010001\nef000000000000\n", AGREE},
    {"e0000201010001\ne001020100\nef000000000000\n", AGREE},
    {"e00002020200010010\ne0010202010001\nef000000000000\n", AGREE},
    {"e0000201010001\ne0010201010002\nef000000000000\n", AT_ODDS},
    {"e00002020200010010\ne0010202010002\nef000000000000\n", AT_ODDS},
    {"e00002020200010010\ne001020200\ne00c02020200010013\nef000000000000\n", AT_ODDS},
    {"f000011701000000\n", AGREE},
    {"f0000117010000\n", NO_RECORD},
    {"e0000201\n", NO_RECORD},
    {"e00d020100\n", NO_RECORD},
    {"e00002010100\n", NO_RECORD},
    {"e00002080800010002000300040005000600070008\nef000000000000\n", AGREE},
    {"e000020808000100020003000400050006000700080009\n", NO_RECORD},
    {"ef0000000000\n", NO_RECORD},
    {"ef00000000000g\n", NO_RECORD},
    {"ef000000000000", NO_RECORD},
    {"ab\n", NO_RECORD},
    {"\n", NO_RECORD},
};

static enum reading read_text(const char *text)
{
    struct record record;
    if (!record_read(&record, (const uint8_t *)text, strlen(text)))
        return NO_RECORD;
    return record_at_odds(&record) ? AT_ODDS : AGREE;
}

int main(void)
{
    unsigned right = 0, wrong = 0;
    for (size_t i = 0; i < sizeof examples / sizeof examples[0]; i++) {
        if (read_text(examples[i].text) == examples[i].reading) {
            right++;
        } else {
            wrong++;
            printf("wrong:\n%s", examples[i].text);
        }
    }
    printf("records: %u right, %u wrong\n", right, wrong);
    return wrong == 0 ? 0 : 1;
}
