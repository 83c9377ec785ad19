#include "class1_words.h"
#include "carriers.h"
#include <string.h>

int class1_result(const char *line)
{
    static const struct { const char *text; int is; } RESULTS[] = {
        {"OK", OK}, {"ERROR", ERROR}, {"CONNECT", CONNECT}, {"NO CARRIER", NO_CARRIER}, {"+FCERROR", OTHER_CARRIER},
        {"+FC ERROR", OTHER_CARRIER}, {"RING", RING}, {"BUSY", NO_CALL}, {"NO DIALTONE", NO_CALL}, {"NO DIAL TONE", NO_CALL},
        {"NO ANSWER", NO_CALL}, {"BLACKLISTED", NO_CALL}, {"DELAYED", NO_CALL}, {"+FRH:3", ADAPTS_TO_V21}, {"+FRH: 3", ADAPTS_TO_V21}};
    for (size_t i = 0; i < sizeof RESULTS / sizeof RESULTS[0]; i++) {
        if (strcmp(line, RESULTS[i].text) == 0) return RESULTS[i].is;
    }
    return NO_RESULT;
}

int class1_number(uint32_t carrier, int brief)
{
    static const int OF_CARRIERS[][2] = {
        [0] = {3, 3}, [G3_V21] = {3, 3}, [G3_V27TER_2400] = {24, 24}, [G3_V27TER_4800] = {48, 48}, [G3_V29_7200] = {72, 72},
        [G3_V29_9600] = {96, 96}, [G3_V17_7200] = {73, 74}, [G3_V17_9600] = {97, 98}, [G3_V17_12000] = {121, 122},
        [G3_V17_14400] = {145, 146}};
    return OF_CARRIERS[carrier][brief != 0];
}

/* The numbers, and the modems that want each; a set has a bit for each. */
static const struct { int number; uint32_t modems; } NUMBERS[] = {
    {24, G3_V27TER}, {48, G3_V27TER}, {72, G3_V29}, {96, G3_V29}, {73, G3_V17}, {74, G3_V17}, {97, G3_V17}, {98, G3_V17}, {121, G3_V17},
    {122, G3_V17}, {145, G3_V17}, {146, G3_V17}};
enum { NUMBERS_COUNT = sizeof NUMBERS / sizeof NUMBERS[0] };

static void add_range(uint32_t *set, int from, int to)
{
    for (int i = 0; i < NUMBERS_COUNT; i++) {
        if (NUMBERS[i].number >= from && NUMBERS[i].number <= to) *set |= 1u << i;
    }
}

int class1_add_list(uint32_t *set, const char *line)
{
    int from = -1, number = -1, has_numbers = 0;
    for (;; line++) {
        if (*line >= '0' && *line <= '9' && number < 1000) number = (number < 0 ? 0 : number * 10) + (*line - '0');
        else if (*line == '-' && number >= 0) from = number, number = -1;
        else {
            if (number >= 0) add_range(set, from >= 0 ? from : number, number);
            has_numbers |= number >= 0;
            from = number = -1;
        }
        if (*line == 0) return has_numbers;
    }
}

uint32_t class1_modems(uint32_t set)
{
    uint32_t missing[G3_V17 + 1] = {0}, is = 0;
    for (int i = 0; i < NUMBERS_COUNT; i++) missing[NUMBERS[i].modems] += (set >> i & 1) == 0;
    while (is < G3_V17 && missing[is + 1] == 0) is++;
    return is;
}
