/* Calls the library for a program at the other end of a pipe.
 *
 * A request is a letter and rows of numbers, each row with its length before it:
 *   e table values cells         evaluate
 *   j table sheet values cells   judge
 *   f table                      finish
 *   p table                      print
 *   t text                       parse; a byte is a number
 * The answer is one line: the number that the function answers, its four answers, and the room's front; of print the text comes
 * after the line. */
#include <inttypes.h>
#include <stdint.h>
#include <stdio.h>
#include <stdlib.h>

#include "hiranthok.h"

enum { LONGEST = HIRANTHOK_TERM_WORDS * HIRANTHOK_MAX_EVALUATED_TERMS };

struct row {
    uint32_t numbers[LONGEST];
    size_t len;
};

static struct row table, sheet, values, cells, room;
static uint8_t text[HIRANTHOK_MAX_PRINT_ROOM];
_Static_assert((int)LONGEST < (int)HIRANTHOK_MAX_PRINT_ROOM, "a row of bytes fits");

static void take(struct row *row) {
    if (scanf("%zu", &row->len) != 1 || row->len > LONGEST) exit(2);
    for (size_t k = 0; k < row->len; k++)
        if (scanf("%" SCNu32, &row->numbers[k]) != 1) exit(2);
}

static void give(uint32_t number, const uint64_t answer[4], size_t front) {
    printf("%" PRIu32, number);
    for (int k = 0; k < 4; k++) printf(" %" PRIu64, answer[k]);
    for (size_t k = 0; number == 0 && k < front; k++) printf(" %" PRIu32, room.numbers[k]);
    printf("\n");
    fflush(stdout);
}

int main(void) {
    char request;
    while (scanf(" %c", &request) == 1) {
        uint64_t answer[4] = {0};
        uint32_t number;
        take(&table);
        if (request == 'f') {
            number = hiranthok_finish(table.numbers, table.len, room.numbers, LONGEST, answer);
            give(number, answer, HIRANTHOK_TERM_WORDS * answer[0]);
            continue;
        }
        if (request == 'p') {
            number = hiranthok_print(table.numbers, table.len, text, sizeof text, answer);
            give(number, answer, 0);
            if (number == 0) fwrite(text, 1, answer[0], stdout);
            fflush(stdout);
            continue;
        }
        if (request == 't') {
            for (size_t k = 0; k < table.len; k++) text[k] = (uint8_t)table.numbers[k];
            number = hiranthok_parse(text, table.len, room.numbers, LONGEST, answer);
            give(number, answer, answer[0]);
            continue;
        }
        if (request == 'j') take(&sheet);
        take(&values);
        take(&cells);
        size_t terms = table.len / HIRANTHOK_TERM_WORDS;
        size_t front = request == 'j' ? HIRANTHOK_JUDGE_WORK(terms) : HIRANTHOK_EVALUATE_WORK(terms);
        if (request == 'j')
            number = hiranthok_judge(table.numbers, table.len, sheet.numbers, sheet.len, values.numbers, values.len,
                                     cells.numbers, cells.len, UINT64_MAX, room.numbers, front, answer);
        else
            number = hiranthok_evaluate(table.numbers, table.len, values.numbers, values.len, cells.numbers, cells.len,
                                        UINT64_MAX, room.numbers, front, answer);
        give(number, answer, front);
    }
    return 0;
}
