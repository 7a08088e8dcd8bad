/* The C interface from C++: rows are vectors, and some of them are empty. The data() of an empty vector may be null, and then
 * hiranthok_row, hiranthok_room, hiranthok_cells, hiranthok_text and hiranthok_rule give a pointer that may be passed. */
#include <cstddef>
#include <cstdio>
#include <string>
#include <vector>

#include "hiranthok.h"

using Row = std::vector<uint32_t>;
using Cells = std::vector<hiranthok_cell>;
using Text = std::vector<uint8_t>;

static const std::size_t terms = 3;

/* The rule 1 = 1: it has no inputs, so that the setting is empty. */
static const Row rule = {
    0, 0, 8, 1, 0, 0, /* 0: 1 */
    0, 0, 8, 1, 0, 0, /* 1: 1 */
    6, 0, 0, 0, 1, 0, /* 2: they are equal */
};

static void show(const char *what, uint32_t refused, const uint64_t answer[4])
{
    if (refused)
        std::printf("%s: refused %u at %llu: %s\n", what, static_cast<unsigned>(refused),
                    static_cast<unsigned long long>(answer[0]), hiranthok_refusal_text(refused));
    else
        std::printf("%s: rule %s, condition %s\n", what, answer[0] ? "true" : "false", answer[1] ? "true" : "false");
}

static void judge(const char *what, const Row &table, const Row &sheet, const Row &values, const Row &cells, Row work)
{
    uint64_t answer[4];
    const uint32_t refused =
        hiranthok_judge(hiranthok_row(table.data()), table.size(), hiranthok_row(sheet.data()), sheet.size(),
                        hiranthok_row(values.data()), values.size(), hiranthok_row(cells.data()), cells.size(), 0,
                        hiranthok_room(work.data()), work.size(), answer);
    show(what, refused, answer);
}

static void judge_records(const char *what, const Row &table, const Row &sheet, const Row &values, const Cells &cells, Row work)
{
    uint64_t answer[4];
    const uint32_t refused = hiranthok_judge_records(
        hiranthok_row(table.data()), table.size(), hiranthok_row(sheet.data()), sheet.size(), hiranthok_row(values.data()),
        values.size(), hiranthok_cells(cells.data()), cells.size(), 0, hiranthok_room(work.data()), work.size(), answer);
    show(what, refused, answer);
}

static void finish(const char *what, const Row &table, Row room)
{
    uint64_t answer[4];
    const uint32_t refused = hiranthok_finish(hiranthok_row(table.data()), table.size(), hiranthok_room(room.data()),
                                              room.size(), answer);
    if (refused)
        show(what, refused, answer);
    else
        std::printf("%s: %llu terms\n", what, static_cast<unsigned long long>(answer[0]));
}

static void print(const char *what, const Row &table, Text text)
{
    uint64_t answer[4];
    const uint32_t refused = hiranthok_print(hiranthok_row(table.data()), table.size(), hiranthok_text(text.data()),
                                             text.size(), answer);
    if (refused)
        show(what, refused, answer);
    else
        std::printf("%s: %llu bytes\n%s", what, static_cast<unsigned long long>(answer[0]),
                    std::string(text.begin(), text.begin() + static_cast<std::ptrdiff_t>(answer[0])).c_str());
}

static void parse(const char *what, const std::string &typed, Row room)
{
    const Text text(typed.begin(), typed.end());
    uint64_t answer[4];
    const uint32_t refused = hiranthok_parse(hiranthok_rule(text.data()), text.size(), hiranthok_room(room.data()), room.size(),
                                             answer);
    if (refused)
        show(what, refused, answer);
    else
        std::printf("%s: %llu numbers\n", what, static_cast<unsigned long long>(answer[0]));
}

/* A null pointer becomes one that is not; any other stays as it is. */
static bool replaced()
{
    uint32_t number = 0;
    uint8_t byte = 0;
    const hiranthok_cell cell = {0, 0, 0};
    return hiranthok_row(nullptr) && hiranthok_room(nullptr) && hiranthok_cells(nullptr) && hiranthok_text(nullptr)
        && hiranthok_rule(nullptr) && hiranthok_rule(&byte) == &byte
        && hiranthok_row(&number) == &number && hiranthok_room(&number) == &number && hiranthok_cells(&cell) == &cell
        && hiranthok_text(&byte) == &byte;
}

static bool versioned()
{
    return std::to_string(HIRANTHOK_VERSION_MAJOR) + "." + std::to_string(HIRANTHOK_VERSION_MINOR) + "."
        + std::to_string(HIRANTHOK_VERSION_PATCH) == HIRANTHOK_VERSION;
}

int main()
{
    judge("no table", {}, {}, {}, {}, {});
    judge("no inputs", rule, {}, {}, {}, Row(HIRANTHOK_JUDGE_WORK(terms)));
    judge("no inputs, a sheet", rule, {HIRANTHOK_MARK, 0, 255}, {}, {}, Row(HIRANTHOK_JUDGE_WORK(terms)));
    judge("a sheet that is cut", rule, {HIRANTHOK_MARK, 0, 255, HIRANTHOK_KEEP}, {}, {}, Row(HIRANTHOK_JUDGE_WORK(terms)));
    judge("no work room", rule, {}, {}, {}, {});
    judge_records("no inputs, records", rule, {}, {}, {}, Row(HIRANTHOK_JUDGE_WORK(terms)));
    judge_records("a sheet that is cut, records", rule, {HIRANTHOK_MARK}, {}, {}, Row(HIRANTHOK_JUDGE_WORK(terms)));
    finish("no finished room", rule, {});
    finish("the largest finished room", rule, Row(HIRANTHOK_MAX_FINISH_ROOM));
    std::printf("any table, finished: at most %d terms, %d numbers\n", HIRANTHOK_FINISHED_TERMS(HIRANTHOK_MAX_TERMS),
                HIRANTHOK_MAX_FINISH_ROOM);
    print("no text room", rule, {});
    print("a text room", rule, Text(HIRANTHOK_PRINT_ROOM(terms)));
    std::printf("any table, printed: at most %d bytes\n", HIRANTHOK_MAX_PRINT_ROOM);
    parse("no text", "", Row(HIRANTHOK_PARSE_ROOM));
    parse("no parse room", "(assert (= #b1 #b1)) (check-sat)", {});
    parse("a parse room", "(assert (= #b1 #b1)) (check-sat)", Row(HIRANTHOK_PARSE_ROOM));
    std::printf("null pointers replaced: %s; version %s\n", replaced() ? "yes" : "no", versioned() ? HIRANTHOK_VERSION : "wrong");
    for (uint32_t number = 0; number <= 36; number++)
        std::printf("%2u %s\n", static_cast<unsigned>(number), hiranthok_refusal_text(number));
    return 0;
}
