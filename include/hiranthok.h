/*
 * Hiranthok: a verified checker for rules with marked inputs.
 *
 * A rule is a table of terms, six 32-bit numbers a term: op, index width m, width n, fields p, q, r. A setting is a row of values by
 * slot and a row of cells, three numbers a cell: slot, index, value. A mark sheet, under which a setting is judged, is a row of
 * lines, three numbers a line: kind, lowest slot, highest slot. All lengths count numbers, not bytes; of a row of records, the
 * records; of text, the bytes. docs/RULES.md has the rules whole, with worked examples.
 *
 * Every function takes any input and answers 0, or the number of the first refusal; then answer[0] is the refusal's place, the
 * rest of answer is 0, and no lent number or byte but those of answer has changed. Where it answers 0, answer holds the results
 * that are named below, and 0 in the entries that are not named. A row of length 0 may be any pointer that is not null.
 *
 * answer is written in either case: it is the function's result, and no room that was lent, so a refusal that "writes nothing"
 * tells its place there. The allowance is passed by value: a refusal spends nothing of it.
 *
 * Lent rows must not overlap a room, and rooms must not overlap each other; answer overlaps none of them. Every pointer is aligned
 * as its type asks (4 bytes; answer 8; text any), one of length 0 too. hiranthok_row, hiranthok_room, hiranthok_cells,
 * hiranthok_text and hiranthok_rule below put a pointer that may be passed with length 0 in the place of a null one.
 *
 * No function keeps anything between calls: any number of threads may call at once, provided that no room and no answer is used by
 * two calls at a time. Rows that are only read (table, sheet, values, cells, a rule's text) may be shared, so long as nobody writes
 * them: one table can be lent to several parties, each with a sheet, a setting, a room and an allowance of its own. A call takes
 * some 5 KB of stack (measured, not proved) and no other memory; hiranthok_parse 14 KB, and 89 KB where an assert is 64 levels deep.
 *
 * A term's sort is (m, n): Boolean (0, 0); vector (0, n); array (m, n), index and value vectors of m and n bits; widths 1 to 32.
 * Terms are numbered from 0. Operands are numbers of earlier terms, and fields that hold nothing are 0. The last term is the rule.
 *
 * The operators:
 *
 *   op  SMT-LIB   p            q            r         sort of the term   what it asks
 *    0  constant  value                               Boolean or vector  the value is 0 or 1; below 2^n
 *    1  variable  slot         mark                   any                slot 0 to 255, mark 0 or 1; a slot has one sort and mark
 *    2  not       operand                             Boolean            p Boolean
 *    3  and       operand      operand                Boolean            p, q Boolean
 *    4  or        operand      operand                Boolean            p, q Boolean
 *    5  =>        operand      operand                Boolean            p, q Boolean
 *    6  =         operand      operand                Boolean            p, q of one sort, Boolean or vector
 *    7  ite       test         then         else      any sort           p Boolean; q, r of the term's sort
 *    8  bvnot     operand                             vector             p of the term's sort
 *    9  bvand     operand      operand                vector             p, q of the term's sort
 *   10  bvor      operand      operand                vector             p, q of the term's sort
 *   11  bvadd     operand      operand                vector             p, q of the term's sort
 *   12  bvmul     operand      operand                vector             p, q of the term's sort
 *   13  bvshl     operand      amount                 vector             p, q of the term's sort; 0 where the amount is n or more
 *   14  bvult     operand      operand                Boolean            p, q of one vector sort; unsigned
 *   15  select    array        index                  vector n           p array (m, n), q vector m; the term's own m is 0
 *   16  store     array        index        value     array (m, n)       p of the term's sort, q vector m, r vector n
 *   17  bvneg     operand                             vector             p of the term's sort
 *   18  bvsub     operand      operand                vector             p, q of the term's sort
 *   19  bvslt     operand      operand                Boolean            p, q of one vector sort; signed
 *   20  bvashr    operand      amount                 vector             p, q of the term's sort; the sign comes in from the left
 *
 * A mark sheet: its lines are of the kind mark, 1, or keep, 0, and name the slots from the lowest to the highest, both 0 to 255. A
 * slot in any mark line is marked; a slot in keep lines only is not; a slot in no line is as the table says. An empty sheet leaves
 * every mark as the table has it. The table is admitted by its own marks (8) whatever the sheet says; values and steps do not depend
 * on the sheet.
 *
 * The refusals:
 *
 *   1 table length 0 or not a multiple of six      11 cell row not a multiple of three
 *   2 over 512 terms (evaluate, print: 80,000)    12 slot outside the value row
 *   3 op over 20                                   13 value too wide
 *   4 not one of the three sorts                   14 a cell's slot is no array variable's
 *   5 an operand not below, an unused field not 0  15 a cell's index or value too wide
 *   6 sorts not as the operator asks               16 a faulty line of the sheet: kind, ends, a slot over 255, cut short
 *   7 a constant, slot or mark too large           21 the table's room is too short (place: terms needed)
 *   8 one slot with two sorts or marks             22 the work room is too short (place: numbers needed)
 *   9 an array of a size over 16                   23 the allowance is below the table's steps (place: steps needed)
 *  10 the last term is not Boolean                 24 the text room is too short (place: bytes needed)
 *
 *  31 an unexpected byte, word or end; a width of 0 or over 32; a reserved word or an operator for a name
 *  32 an operand that is not declared, or a name declared twice
 *  33 over 64 parentheses open in an assert
 *  34 an operator with too few or too many operands
 *  35 no assert before check-sat
 *
 * Places of 1, 2, 11 are 0; of 3 to 10, 12, 13 the term's number; of 14, 15 the cell's; of 16 that of the lowest faulty line, from 0
 * and with a cut last line counted; of 31 to 35 the first byte of the word, and at the end the text's length. Judge looks for them
 * in the order 1 to 10, 16, 11 to 15, 22, 23.
 */
#ifndef HIRANTHOK_H
#define HIRANTHOK_H

#include <stddef.h>
#include <stdint.h>

/* The version of this interface. Major: a signature, a number or an answer is another than it was, and programs may have to change.
 * Minor: something was added; it counts the landings (docs/landings/): 0.8 is paper 01 with the eighth, 0.11 has print, 0.12
 * parse. As long as the major number is 0 a minor one may change a signature too: 0.15 gave both judges a sheet. Patch: what is
 * declared here stayed as it was. The library has no version of its own to ask for: take header and library from one state of the
 * repository. */
#define HIRANTHOK_VERSION_MAJOR 0
#define HIRANTHOK_VERSION_MINOR 16
#define HIRANTHOK_VERSION_PATCH 0
#define HIRANTHOK_VERSION "0.16.0"

/* The numbers of a term, of a cell and of a sheet's line. */
#define HIRANTHOK_TERM_WORDS 6
#define HIRANTHOK_CELL_WORDS 3
#define HIRANTHOK_LINE_WORDS 3

/* The kinds of a sheet's line. */
#define HIRANTHOK_KEEP 0
#define HIRANTHOK_MARK 1

/* The terms that a table may have: for admit, finish and judge; for evaluate and print, which take every finished table. */
#define HIRANTHOK_MAX_TERMS 512
#define HIRANTHOK_MAX_EVALUATED_TERMS 80000

/* The numbers that a work room needs, of a table of so many terms. A shorter one is refused 22, with these as the place. */
#define HIRANTHOK_EVALUATE_WORK(terms) (terms)
#define HIRANTHOK_JUDGE_WORK(terms) (2 * (terms))

/* The terms that a finished table has at the most, and the numbers of a room that is long enough for it: of a table of so many terms,
 * and of any table. A shorter room may do: where it does not, it is refused 21, with the terms needed as the place, so that a
 * call with a room of length 0 tells them. */
#define HIRANTHOK_FINISHED_TERMS(terms) (146 * (terms) + 3)
#define HIRANTHOK_FINISH_ROOM(terms) (HIRANTHOK_TERM_WORDS * HIRANTHOK_FINISHED_TERMS(terms))
#define HIRANTHOK_MAX_FINISH_ROOM HIRANTHOK_FINISH_ROOM(HIRANTHOK_MAX_TERMS) /* 448530 */

/* The bytes of a text room that is long enough: of a table of so many terms, and of any table. A shorter room may do: where it
 * does not, it is refused 24, with the bytes needed as the place. */
#define HIRANTHOK_PRINT_ROOM(terms) (88 * (terms) + 14639)
#define HIRANTHOK_MAX_PRINT_ROOM HIRANTHOK_PRINT_ROOM(HIRANTHOK_MAX_EVALUATED_TERMS) /* 7054639 */

/* The numbers of a room that is long enough for every rule's table. */
#define HIRANTHOK_PARSE_ROOM (HIRANTHOK_TERM_WORDS * HIRANTHOK_MAX_TERMS) /* 3072 */

#ifdef __cplusplus
extern "C" {
#endif

/* Whether the table is one that finish and judge take. Refuses 1 to 10. No results. */
uint32_t hiranthok_admit(const uint32_t *table, size_t table_len, uint64_t answer[4]);

/* Writes the finished table to the room's front: the terms; T; F; the groups of the terms' conditions; and(rule, C(rule)). The rest of
 * room is untouched. It takes no sheet: C goes by the table's own marks, and is what judging reports under a sheet that leaves them
 * so. Refuses 1 to 10, 21. Results: the count of terms, the number of C(rule), the number of the last term. */
uint32_t hiranthok_finish(const uint32_t *table, size_t table_len, uint32_t *room, size_t room_len, uint64_t answer[4]);

/* Writes the value of every term (0 for an array) to the front of work; its rest is untouched. Refuses 1 to 15, 22 (one number a
 * term), 23. Results: the steps spent, the allowance left. */
uint32_t hiranthok_evaluate(const uint32_t *table, size_t table_len, const uint32_t *values, size_t values_len,
                            const uint32_t *cells, size_t cells_len, uint64_t allowance, uint32_t *work, size_t work_len,
                            uint64_t answer[4]);

/* Whether the rule is true in the setting, and whether its condition is: where both are, the rule is true whatever fitting values the
 * inputs take that are marked under the sheet. Writes the n values and then the n truths of the terms' conditions under the sheet (1
 * or 0; 0 for a store or a choice of arrays) to the front of work; its rest is untouched. Refuses 1 to 16, 22 (two numbers a
 * term), 23. Results: rule, condition (1 or 0), the steps spent, the allowance left. Who brings no sheet passes
 * hiranthok_row(NULL), 0: the table's marks hold. */
uint32_t hiranthok_judge(const uint32_t *table, size_t table_len, const uint32_t *sheet, size_t sheet_len,
                         const uint32_t *values, size_t values_len, const uint32_t *cells, size_t cells_len,
                         uint64_t allowance, uint32_t *work, size_t work_len, uint64_t answer[4]);

/* A cell as a record. */
struct hiranthok_cell {
    uint32_t slot;
    uint32_t index;
    uint32_t value;
};

/* The same as hiranthok_evaluate and hiranthok_judge, with the cells as a row of count records: equal answers and equal rooms. 11
 * cannot occur. */
uint32_t hiranthok_evaluate_records(const uint32_t *table, size_t table_len, const uint32_t *values, size_t values_len,
                                    const struct hiranthok_cell *cells, size_t count, uint64_t allowance, uint32_t *work,
                                    size_t work_len, uint64_t answer[4]);
uint32_t hiranthok_judge_records(const uint32_t *table, size_t table_len, const uint32_t *sheet, size_t sheet_len,
                                 const uint32_t *values, size_t values_len, const struct hiranthok_cell *cells, size_t count,
                                 uint64_t allowance, uint32_t *work, size_t work_len, uint64_t answer[4]);

/* Writes the table as SMT-LIB 2.6 to the front of text, in ASCII and with no byte 0 behind it; the rest of text is untouched. The
 * lines, each ended by a line feed: (set-logic QF_ABV); a declare-const for each slot in use, ascending, named v and the slot; a
 * define-fun for each term that is no variable, ascending, named t and its number; an assert of the last term; (check-sat). Marks
 * leave no trace: print a finished table to have a solver propose a setting that passes. Refuses 1 to 10, 24. Result: the count of
 * bytes. */
uint32_t hiranthok_print(const uint32_t *table, size_t table_len, uint8_t *text, size_t text_len, uint64_t answer[4]);

/* Reads a rule typed as SMT-LIB (docs/LANGUAGE.md) and writes its table to the front of room; the rest of room is untouched. The
 * declared names are the variables of slots 0, 1, ... in their order; a name of x and then digits is marked. Refuses 31 to 35, then
 * 2, 6, 7, 9 and 10 of the table, then 21. Result: the count of numbers. */
uint32_t hiranthok_parse(const uint8_t *text, size_t text_len, uint32_t *room, size_t room_len, uint64_t answer[4]);

/* A row, a room, a row of records, a text room, a rule's text: the given pointer, or in the place of a null one a pointer to pass with length 0. In
 * C, where there are no cells, hiranthok_row(NULL), 0; in C++, where data() of an empty vector may be null,
 * hiranthok_row(cells.data()), cells.size(). */
static inline const uint32_t *hiranthok_row(const uint32_t *row)
{
    static const uint32_t none[1] = {0};
    return row ? row : none;
}

static inline uint32_t *hiranthok_room(uint32_t *room)
{
    static uint32_t none[1] = {0};
    return room ? room : none;
}

static inline const struct hiranthok_cell *hiranthok_cells(const struct hiranthok_cell *cells)
{
    static const struct hiranthok_cell none[1] = {{0, 0, 0}};
    return cells ? cells : none;
}

static inline uint8_t *hiranthok_text(uint8_t *text)
{
    static uint8_t none[1] = {0};
    return text ? text : none;
}

static inline const uint8_t *hiranthok_rule(const uint8_t *text)
{
    static const uint8_t none[1] = {0};
    return text ? text : none;
}

/* What a function answered, in words: of a refusal's number, of 0 and of a number that no function answers. */
static inline const char *hiranthok_refusal_text(uint32_t number)
{
    switch (number) {
    case 0: return "not refused";
    case 1: return "the table has no numbers, or not six for each term";
    case 2: return "too many terms: at most 512, and 80000 for evaluate and print";
    case 3: return "no operator has this number: op is over 20";
    case 4: return "not a sort: (0, 0), (0, n) or (m, n), widths 1 to 32";
    case 5: return "an operand not below the term, or an unused field not 0";
    case 6: return "the sorts are not as the operator asks";
    case 7: return "a constant is too wide, a slot over 255 or a mark over 1";
    case 8: return "an earlier variable has this slot with another sort or mark";
    case 9: return "an array of a size over 16";
    case 10: return "the last term, the rule, is not Boolean";
    case 11: return "the cells have not three numbers each";
    case 12: return "the variable's slot is outside the values";
    case 13: return "the variable's value is too wide";
    case 14: return "no array variable has the cell's slot";
    case 15: return "the cell's index or value is too wide";
    case 16: return "a sheet's line of another kind, with reversed ends, a slot over 255, or cut short";
    case 21: return "the room is too short: so many terms are needed";
    case 22: return "the work room is too short: so many numbers are needed";
    case 23: return "the allowance is too small: so many steps are needed";
    case 24: return "the text room is too short: so many bytes are needed";
    case 31: return "an unexpected byte, word or end of the text";
    case 32: return "an operand that is not declared, or a name declared twice";
    case 33: return "more than 64 parentheses are open";
    case 34: return "too few or too many operands";
    case 35: return "no assert before check-sat";
    default: return "no refusal has this number";
    }
}

#ifdef __cplusplus
}
#endif

#endif
