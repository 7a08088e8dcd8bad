/* Judges rule G, 0 < a * x + b at width 8 with x marked, in three settings, and refuses a fourth; then rule H, t with 42 stored at a
 * is 42 at c, with t marked, where some cells of t are listed as records; then finishes rule G and prints it for a solver; then reads
 * rule G as a person types it, and judges that; last judges one rule in one setting under the mark sheets of two parties. */
#include <stdio.h>
#include <string.h>

#include "hiranthok.h"

#define LENGTH(row) (sizeof(row) / sizeof((row)[0]))

enum { TERMS = 7 }; /* of either rule */

static const uint32_t rule_g[TERMS * HIRANTHOK_TERM_WORDS] = {
    1,  0, 8, 0, 0, 0, /* 0: variable a, slot 0 */
    1,  0, 8, 1, 1, 0, /* 1: variable x, slot 1, marked */
    1,  0, 8, 2, 0, 0, /* 2: variable b, slot 2 */
    12, 0, 8, 0, 1, 0, /* 3: a * x */
    11, 0, 8, 3, 2, 0, /* 4: a * x + b */
    0,  0, 8, 0, 0, 0, /* 5: 0 */
    14, 0, 0, 5, 4, 0, /* 6: 0 < a * x + b */
};

static const uint32_t rule_h[TERMS * HIRANTHOK_TERM_WORDS] = {
    1,  8, 8, 0, 1, 0, /* 0: array t, slot 0, marked */
    1,  0, 8, 1, 0, 0, /* 1: variable a, slot 1 */
    1,  0, 8, 2, 0, 0, /* 2: variable c, slot 2 */
    0,  0, 8, 42, 0, 0, /* 3: 42 */
    16, 8, 8, 0, 1, 3, /* 4: t with 42 stored at a */
    15, 0, 8, 4, 2, 0, /* 5: the same at c */
    6,  0, 0, 5, 3, 0, /* 6: it is 42 */
};

static void show_refusal(uint32_t refused, const uint64_t answer[4])
{
    printf("refused %u at %llu: %s\n", (unsigned)refused, (unsigned long long)answer[0], hiranthok_refusal_text(refused));
}

static void show(uint32_t refused, const uint64_t answer[4])
{
    if (refused)
        show_refusal(refused, answer);
    else
        printf("rule %s, condition %s, %s\n", answer[0] ? "true" : "false", answer[1] ? "true" : "false",
               answer[0] && answer[1] ? "passes" : "does not pass");
}

/* Rule G has no array, so there are no cells and no steps; nor is there a sheet: the table's marks hold. */
static void judge(uint32_t a, uint32_t x, uint32_t b)
{
    const uint32_t values[] = {a, x, b};
    uint32_t work[HIRANTHOK_JUDGE_WORK(TERMS)];
    uint64_t answer[4];
    uint32_t refused = hiranthok_judge(rule_g, LENGTH(rule_g), hiranthok_row(NULL), 0, values, LENGTH(values), hiranthok_row(NULL),
                                       0, 0, work, LENGTH(work), answer);

    printf("a %u, x %u, b %u: ", (unsigned)a, (unsigned)x, (unsigned)b);
    show(refused, answer);
}

/* t holds 42 at 2 and 9 elsewhere; of the two cells at 2 the earlier counts. The read's chain has one store: one step. */
static void judge_records(uint32_t a, uint32_t c)
{
    const uint32_t values[] = {9, a, c};
    const struct hiranthok_cell cells[] = {{0, 2, 42}, {0, 2, 8}};
    uint32_t work[HIRANTHOK_JUDGE_WORK(TERMS)];
    uint64_t answer[4];
    uint32_t refused = hiranthok_judge_records(rule_h, LENGTH(rule_h), hiranthok_row(NULL), 0, values, LENGTH(values), cells,
                                               LENGTH(cells), 1, work, LENGTH(work), answer);

    printf("a %u, c %u: ", (unsigned)a, (unsigned)c);
    show(refused, answer);
}

/* In a room of so many numbers, of one that is long enough for any table of so many terms. */
static void finish(size_t length)
{
    uint32_t room[HIRANTHOK_FINISH_ROOM(TERMS)];
    uint64_t answer[4];
    uint32_t refused = hiranthok_finish(rule_g, LENGTH(rule_g), room, length, answer);

    printf("finished in %u numbers: ", (unsigned)length);
    if (refused)
        show_refusal(refused, answer);
    else
        printf("%llu terms, the condition is term %llu, the last is term %llu\n", (unsigned long long)answer[0],
               (unsigned long long)answer[1], (unsigned long long)answer[2]);
}

/* What a solver is asked: finds a setting that passes, or says that there is none. In a room of so many bytes, of one that is long
 * enough for any finished table of so many terms. */
static void print_finished(size_t length)
{
    uint32_t room[HIRANTHOK_FINISH_ROOM(TERMS)];
    uint8_t text[HIRANTHOK_PRINT_ROOM(HIRANTHOK_FINISHED_TERMS(TERMS))];
    uint64_t answer[4];
    uint32_t refused = hiranthok_finish(rule_g, LENGTH(rule_g), room, LENGTH(room), answer);

    if (!refused)
        refused = hiranthok_print(room, HIRANTHOK_TERM_WORDS * (size_t)answer[0], text, length, answer);
    printf("printed in %u bytes: ", (unsigned)length);
    if (refused)
        show_refusal(refused, answer);
    else
        printf("%llu bytes\n%.*s", (unsigned long long)answer[0], (int)answer[0], (const char *)text);
}

#define DECLARED "(declare-const a (_ BitVec 8))\n(declare-const x1 (_ BitVec 8))\n(declare-const b (_ BitVec 8))\n"

/* The values are those of the declared names, in their order: a, x1, which is marked, b. */
static void judge_typed(const char *text)
{
    const uint32_t values[] = {0, 5, 1};
    uint32_t table[HIRANTHOK_PARSE_ROOM], work[HIRANTHOK_JUDGE_WORK(HIRANTHOK_MAX_TERMS)];
    uint64_t answer[4];
    uint32_t refused = hiranthok_parse((const uint8_t *)text, strlen(text), table, LENGTH(table), answer);

    printf("typed: ");
    if (!refused) {
        printf("%llu terms; ", (unsigned long long)answer[0] / HIRANTHOK_TERM_WORDS);
        refused = hiranthok_judge(table, (size_t)answer[0], hiranthok_row(NULL), 0, values, LENGTH(values), hiranthok_row(NULL), 0, 0,
                                  work, LENGTH(work), answer);
    }
    show(refused, answer);
}

/* Where a sample was taken its basis weight counts, else the gauge's reading with its offset: it is below 90. */
static const uint32_t gauge[] = {
    1,  0, 8, 0, 0, 0, /* 0: the reading, slot 0 */
    1,  0, 8, 1, 1, 0, /* 1: the offset, slot 1, marked */
    1,  0, 8, 2, 0, 0, /* 2: the basis weight, slot 2 */
    1,  0, 0, 3, 0, 0, /* 3: whether a sample was taken, slot 3 */
    0,  0, 8, 90, 0, 0, /* 4: 90 */
    14, 0, 0, 2, 4, 0, /* 5: basis weight < 90 */
    11, 0, 8, 0, 1, 0, /* 6: reading + offset */
    14, 0, 0, 6, 4, 0, /* 7: reading + offset < 90 */
    7,  0, 0, 3, 5, 7, /* 8: one of the two */
};

/* The mill leaves the offset marked and vouches for the laboratory; the shop vouches for its offset, and for the laboratory not. */
static const uint32_t mill[] = {HIRANTHOK_MARK, 1, 1, HIRANTHOK_KEEP, 2, 2};
static const uint32_t shop[] = {HIRANTHOK_KEEP, 1, 1, HIRANTHOK_MARK, 2, 2};

/* The first so many numbers of a party's sheet. */
static void judge_under(const char *party, const uint32_t *sheet, size_t length, uint32_t sampled)
{
    const uint32_t values[] = {80, 4, 85, sampled};
    uint32_t work[HIRANTHOK_JUDGE_WORK(LENGTH(gauge) / HIRANTHOK_TERM_WORDS)];
    uint64_t answer[4];
    uint32_t refused = hiranthok_judge(gauge, LENGTH(gauge), sheet, length, values, LENGTH(values), hiranthok_row(NULL), 0, 0, work,
                                       LENGTH(work), answer);

    printf("%s, %s: ", party, sampled ? "a sample" : "no sample");
    show(refused, answer);
}

int main(void)
{
    judge(0, 5, 1);   /* a is 0: whatever x is, the product is 0 */
    judge(1, 1, 0);   /* true, but x decides */
    judge(0, 5, 0);   /* false, whatever x is */
    judge(0, 256, 1); /* 256 does not fit width 8 */
    judge_records(0, 0); /* what is read was stored: whatever t is, it is 42 */
    judge_records(0, 2); /* true, but t decides */
    judge_records(0, 3); /* false here, and t decides */
    finish(0); /* the refusal's place is the count of terms needed */
    finish(HIRANTHOK_FINISH_ROOM(TERMS));
    print_finished(0); /* the refusal's place is the count of bytes needed */
    print_finished(HIRANTHOK_PRINT_ROOM(HIRANTHOK_FINISHED_TERMS(TERMS)));
    judge_typed(DECLARED "(assert (bvult #b00000000 (bvadd (bvmul a x1) b)))\n(check-sat)\n");
    judge_typed(DECLARED "(assert (bvult #b00000000 (bvadd (bvmul a x1) c)))\n(check-sat)\n"); /* c is not declared */
    judge_under("the mill", mill, LENGTH(mill), 1); /* the laboratory decides, and its weight is kept */
    judge_under("the shop", shop, LENGTH(shop), 1); /* the same setting: the laboratory is marked */
    judge_under("the mill", mill, LENGTH(mill), 0); /* the gauge decides, and its offset is marked */
    judge_under("the shop", shop, LENGTH(shop), 0);
    judge_under("the shop", shop, 4, 0); /* the second line is cut short */
    return 0;
}
