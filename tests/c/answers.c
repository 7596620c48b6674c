/* answers.c: what heechstjer.h says, tried through the C interface.
 *
 * A line a test, `ok` or `FAILED` with the place and what didn't hold; the exit status is 0 if all are ok. Answers to
 * ticks are compared in the words of document 01's listing, and each is held to the header's rules for the
 * fields that must be 0. Blocks stand between guard bytes, at an odd address; blocks of a wrong length
 * have a piece of the heap of just that length, so that valgrind sees a byte too many.
 */
#include <heechstjer.h>
#include <stdio.h>
#include <stdlib.h>
#include <string.h>

/* ---- The layout of the answers, held when this file is compiled ---- */

#define HELD(name, condition) typedef char name[(condition) ? 1 : -1]
#define AT(type, field, place) HELD(type##_##field##_at_##place, offsetof(heechstjer_##type##_answer, field) == place)

HELD(plan_answer_has_24_bytes, sizeof(heechstjer_plan_answer) == 24);
AT(plan, from, 0);
AT(plan, size, 8);
AT(plan, refusal, 16);
AT(plan, row, 17);

HELD(tick_answer_has_24_bytes, sizeof(heechstjer_tick_answer) == 24);
AT(tick, clock, 0);
AT(tick, ticket, 4);
AT(tick, closed_ticket, 8);
AT(tick, unknown, 12);
AT(tick, not_ready, 14);
AT(tick, refusal, 16);
AT(tick, none_ran, 17);
AT(tick, runner, 18);
AT(tick, runner_row, 19);
AT(tick, band, 20);
AT(tick, closed, 21);
AT(tick, closed_row, 22);
AT(tick, closing, 23);

HELD(offer_answer_has_8_bytes, sizeof(heechstjer_offer_answer) == 8);
AT(offer, ticket, 0);
AT(offer, refusal, 4);

HELD(table_answer_has_16_bytes, sizeof(heechstjer_table_answer) == 16);
AT(table, size, 0);
AT(table, refusal, 8);

HELD(longest_table, HEECHSTJER_MOST_TABLE_BYTES
                        == HEECHSTJER_MOST_ROWS * HEECHSTJER_MARGIN_ROW_BYTES + HEECHSTJER_END_BYTES);

/* ---- What the tests are written with ---- */

enum { BLOCK = HEECHSTJER_BLOCK_BYTES, GUARD = 33, LAST_BYTE = BLOCK - 1 };
enum { DONE = HEECHSTJER_FLAG_DONE, SOFT = HEECHSTJER_FLAG_SOFT };

static const char *failed; /* what didn't hold in the running test, or NULL */
static int failed_line;

#define EXPECT(condition) expect((condition), #condition, __LINE__)

static void expect(bool holds, const char *words, int line)
{
    if (!holds && !failed) {
        failed = words;
        failed_line = line;
    }
}

/* A block between guard bytes. GUARD is odd, and so is the block's address. */
typedef struct station {
    uint8_t before[GUARD];
    uint8_t block[BLOCK];
    uint8_t after[GUARD];
} station;

static void fill(station *s, uint8_t byte)
{
    memset(s->before, 0xa5, GUARD);
    memset(s->block, byte, BLOCK);
    memset(s->after, 0xa5, GUARD);
}

static bool guards_stand(const station *s)
{
    bool stand = true;
    for (int i = 0; i < GUARD; i++)
        stand = stand && s->before[i] == 0xa5 && s->after[i] == 0xa5;
    return stand;
}

static bool same_block(const station *a, const station *b)
{
    return memcmp(a->block, b->block, BLOCK) == 0;
}

static const uint8_t table_a[] = {
    0x01, 0x00, 0x07, 0x00, 0x02, 0x00, 0x06, 0x00, 0x08, 0x00,
    0x01, 0x00, 0x07, 0x00, 0x05, 0x00, 0x0c, 0x00, 0x0c, 0x01,
    0x0f, 0x00, 0x00,
};

/* Table A with margins 1 and 5: U 3 and 0. */
static const uint8_t table_a_with_margins[] = {
    0x02, 0x00, 0x09, 0x00, 0x02, 0x00, 0x06, 0x00, 0x08, 0x00, 0x00, 0x01,
    0x02, 0x00, 0x09, 0x00, 0x05, 0x00, 0x0c, 0x00, 0x0c, 0x01, 0x00, 0x05,
    0x0f, 0x00, 0x00,
};

static const uint8_t empty_table[] = {0x0f, 0x00, 0x00};

/* The numbers of a row that a test writes. */
enum { C, D, T, RANK, M, NUMBERS };

static uint8_t *write_number(uint8_t *out, uint16_t number)
{
    *out++ = (uint8_t)(number >> 8);
    *out++ = (uint8_t)number;
    return out;
}

/* Writes n rows and the end field; returns the length. A row has M and its tag where M is not 0. */
static size_t write_table(uint8_t *out, const uint16_t rows[][NUMBERS], size_t n)
{
    uint8_t *next = out;
    for (size_t i = 0; i < n; i++) {
        bool margin = rows[i][M] != 0;
        *next++ = margin ? 0x02 : 0x01;
        next = write_number(next, margin ? 9 : 7);
        for (int k = C; k <= T; k++)
            next = write_number(next, rows[i][k]);
        *next++ = (uint8_t)rows[i][RANK];
        if (margin)
            next = write_number(next, rows[i][M]);
    }
    memcpy(next, empty_table, sizeof empty_table);
    return (size_t)(next - out) + sizeof empty_table;
}

static bool plan_is(heechstjer_plan_answer a, unsigned refusal, size_t from, size_t size, unsigned row)
{
    return a.refusal == refusal && a.from == from && a.size == size && a.row == row;
}

/* A fresh station of a table that is accepted. */
static station planned(const uint8_t *table, size_t bytes)
{
    station s;
    fill(&s, 0xee);
    EXPECT(plan_is(heechstjer_plan_in(s.block, table, bytes), 0, 0, 0, 0));
    return s;
}

static station planned_rows(const uint16_t rows[][NUMBERS], size_t n)
{
    uint8_t table[HEECHSTJER_MOST_TABLE_BYTES];
    return planned(table, write_table(table, rows, n));
}

/* The header's rules for the fields that go together. */
static bool well_formed(heechstjer_tick_answer a)
{
    bool hard = a.runner == HEECHSTJER_RUNNER_HARD;
    bool firm = a.runner == HEECHSTJER_RUNNER_FIRM;
    bool closed_hard = a.closed == HEECHSTJER_CLOSED_HARD;
    bool closed_firm = a.closed == HEECHSTJER_CLOSED_FIRM;
    if (a.refusal != 0)
        return (a.refusal == 11 || a.refusal == 20) && !heechstjer_noted(a)
            && a.clock == 0 && a.ticket == 0 && a.runner == 0 && a.runner_row == 0 && a.band == 0
            && a.closed == 0 && a.closed_row == 0 && a.closed_ticket == 0 && a.closing == 0;
    return (a.unknown & a.not_ready) == 0 && a.none_ran <= 1 && a.runner >= 1 && a.runner <= 4
        && (hard ? a.runner_row >= 1 && a.runner_row <= 16 : a.runner_row == 0)
        && (hard ? a.band == 1 || a.band == 2 : a.band == 0) && (firm || a.ticket == 0)
        && a.closed <= 2 && (closed_hard ? a.closed_row >= 1 && a.closed_row <= 16 : a.closed_row == 0)
        && (closed_firm || a.closed_ticket == 0)
        && (a.closed == 0 ? a.closing == 0 : a.closing == 1 || a.closing == 2);
}

/* The words of a tick's notes: " note 12 8004", " note 13", " note 14 0001", those that there are. */
static void write_notes(char *out, size_t bytes, heechstjer_tick_answer a)
{
    char unknown[16] = "", not_ready[16] = "";
    if (a.unknown != 0)
        snprintf(unknown, sizeof unknown, " note 12 %04x", a.unknown);
    if (a.not_ready != 0)
        snprintf(not_ready, sizeof not_ready, " note 14 %04x", a.not_ready);
    snprintf(out, bytes, "%s%s%s", unknown, a.none_ran != 0 ? " note 13" : "", not_ready);
}

/* Whether a tick's answer is this line of document 01's listing, its notes after it; a refusal is "refused 11". */
static bool says(heechstjer_tick_answer a, const char *line)
{
    char text[120], runner[16], closing[32], notes[48];
    if (!well_formed(a))
        return false;
    if (a.refusal != 0) {
        snprintf(text, sizeof text, "refused %u", a.refusal);
        return strcmp(text, line) == 0;
    }
    if (a.runner == HEECHSTJER_RUNNER_HARD)
        snprintf(runner, sizeof runner, "%c%u", a.band == HEECHSTJER_BAND_UPPER ? 'U' : 'L', a.runner_row);
    else if (a.runner == HEECHSTJER_RUNNER_FIRM)
        snprintf(runner, sizeof runner, "F%lu", (unsigned long)a.ticket);
    else
        snprintf(runner, sizeof runner, "%c", a.runner == HEECHSTJER_RUNNER_SOFT ? 'S' : 'I');
    const char *how = a.closing == HEECHSTJER_CLOSING_DONE ? "done" : "spent";
    if (a.closed == HEECHSTJER_CLOSED_HARD)
        snprintf(closing, sizeof closing, "H%u %s", a.closed_row, how);
    else if (a.closed == HEECHSTJER_CLOSED_FIRM)
        snprintf(closing, sizeof closing, "F%lu %s", (unsigned long)a.closed_ticket, how);
    else
        snprintf(closing, sizeof closing, "-");
    write_notes(notes, sizeof notes, a);
    snprintf(text, sizeof text, "%lu %s %s%s", (unsigned long)a.clock, runner, closing, notes);
    return strcmp(text, line) == 0;
}

/* A tick says the line; a refused one leaves every byte as it was, and no tick writes beyond the block. */
static bool ticks(station *s, unsigned released, unsigned flags, const char *line)
{
    station before = *s;
    heechstjer_tick_answer a = heechstjer_tick_in(s->block, (uint16_t)released, (uint8_t)flags);
    return says(a, line) && guards_stand(s) && heechstjer_noted(a) == (strstr(line, "note") != NULL)
        && (a.refusal == 0 ? !same_block(s, &before) : same_block(s, &before));
}

/* Whether two answers agree in all but their notes. */
static bool same_tick(heechstjer_tick_answer a, heechstjer_tick_answer b)
{
    return a.refusal == b.refusal && a.clock == b.clock && a.runner == b.runner && a.runner_row == b.runner_row
        && a.band == b.band && a.ticket == b.ticket && a.closed == b.closed && a.closed_row == b.closed_row
        && a.closed_ticket == b.closed_ticket && a.closing == b.closing;
}

/* As many ticks with nothing released and no flag. */
static void let_pass(station *s, int count)
{
    for (int i = 0; i < count; i++)
        EXPECT(heechstjer_tick_in(s->block, 0, 0).refusal == 0);
}

/* An offer is accepted with this ticket. */
static bool takes(station *s, unsigned budget, unsigned deadline, uint32_t ticket)
{
    heechstjer_offer_answer a = heechstjer_offer_in(s->block, (uint16_t)budget, (uint16_t)deadline);
    return a.refusal == 0 && a.ticket == ticket && guards_stand(s);
}

/* An offer is refused with this number and no ticket, and every byte is as it was. */
static bool turns_down(station *s, unsigned budget, unsigned deadline, unsigned number)
{
    station before = *s;
    heechstjer_offer_answer a = heechstjer_offer_in(s->block, (uint16_t)budget, (uint16_t)deadline);
    return a.refusal == number && a.ticket == 0 && same_block(s, &before) && guards_stand(s);
}

/* The table read back into a piece of the heap of just so many bytes: the answer is this number, and this table
 * of so many bytes is written, none if refused. The rest of the output stays. */
static bool reads_back(const uint8_t *block, size_t block_bytes, size_t out_bytes, unsigned number,
                       const uint8_t *table, size_t bytes)
{
    uint8_t *out = malloc(out_bytes == 0 ? 1 : out_bytes);
    if (!out)
        return false;
    memset(out, 0x3c, out_bytes);
    heechstjer_table_answer a = heechstjer_table(block, block_bytes, out, out_bytes);
    bool holds = a.refusal == number && a.size == bytes && memcmp(out, table, bytes) == 0;
    for (size_t i = bytes; i < out_bytes; i++)
        holds = holds && out[i] == 0x3c;
    free(out);
    return holds;
}

/* The block gives back this table, into an output of just its length and into a longer one, and stays as it was. */
static bool gives_back(const station *s, const uint8_t *table, size_t bytes)
{
    station before = *s;
    return reads_back(s->block, BLOCK, bytes, 0, table, bytes)
        && reads_back(s->block, BLOCK, bytes + GUARD, 0, table, bytes) && same_block(s, &before) && guards_stand(s);
}

/* Reading the table back into an output of so many bytes is refused with this number, and writes nothing. */
static bool keeps_back(const uint8_t *block, size_t block_bytes, size_t out_bytes, unsigned number)
{
    return reads_back(block, block_bytes, out_bytes, number, empty_table, 0);
}

/* Table A after the first two ticks of the listing: both rows released, row 1 has run once. */
static station at_clock_2(void)
{
    station s = planned(table_a, sizeof table_a);
    EXPECT(ticks(&s, 3, 0, "0 L1 -"));
    EXPECT(ticks(&s, 0, SOFT, "1 S -"));
    return s;
}

/* ---- The names ---- */

static void refusals_and_notes_have_their_numbers(void)
{
    static const int numbers[] = {
        HEECHSTJER_ACCEPTED, HEECHSTJER_REFUSED_CUT, HEECHSTJER_REFUSED_UNKNOWN_TAG, HEECHSTJER_REFUSED_WRONG_LENGTH,
        HEECHSTJER_REFUSED_AFTER_END, HEECHSTJER_REFUSED_ROW_17, HEECHSTJER_REFUSED_C_ZERO, HEECHSTJER_REFUSED_C_OVER_D,
        HEECHSTJER_REFUSED_D_OVER_T, HEECHSTJER_REFUSED_BAD_RANK, HEECHSTJER_REFUSED_PASSES_D,
        HEECHSTJER_REFUSED_NOT_IMAGE, HEECHSTJER_NOTE_UNKNOWN_ROW, HEECHSTJER_NOTE_NONE_RAN,
        HEECHSTJER_NOTE_NOT_READY, HEECHSTJER_REFUSED_B_ZERO, HEECHSTJER_REFUSED_D_UNDER_B,
        HEECHSTJER_REFUSED_QUEUE_FULL, HEECHSTJER_REFUSED_ROOM_SHORT, HEECHSTJER_REFUSED_SMALL_OUTPUT,
        HEECHSTJER_REFUSED_UNKNOWN_FLAG, HEECHSTJER_REFUSED_M_ZERO, HEECHSTJER_REFUSED_R_M_OVER_D,
    };
    for (int i = 0; i <= 22; i++)
        EXPECT(numbers[i] == i);
}

static void the_version_is_that_of_its_numbers(void)
{
    static const int numbers[] = {HEECHSTJER_VERSION_MAJOR, HEECHSTJER_VERSION_MINOR, HEECHSTJER_VERSION_PATCH};
    char text[40];
    snprintf(text, sizeof text, "%d.%d.%d", numbers[0], numbers[1], numbers[2]);
    EXPECT(strcmp(HEECHSTJER_VERSION, text) == 0);
}

static void a_row_bit_is_one_bit_of_16(void)
{
    EXPECT(heechstjer_row_bit(0) == 0 && heechstjer_row_bit(17) == 0);
    EXPECT(heechstjer_row_bit(33) == 0 && heechstjer_row_bit(~0u) == 0);
    for (unsigned row = 1; row <= 16; row++)
        EXPECT(heechstjer_row_bit(row) == 1u << (row - 1));
}

/* ---- A table written in C ---- */

static void rows_in_c_are_the_bytes_of_a_file(void)
{
    enum { SEVEN = 7 };
    static const uint8_t a[] = {HEECHSTJER_ROW(2, 6, 8, 0), HEECHSTJER_ROW(5, 12, 12, 1), HEECHSTJER_END};
    static const uint8_t largest[] = {HEECHSTJER_ROW(65535, 65535, 65535, 255), HEECHSTJER_END};
    static const uint8_t largest_bytes[] = {1, 0, 7, 0xff, 0xff, 0xff, 0xff, 0xff, 0xff, 0xff, 0x0f, 0, 0};
    static const uint8_t made[] = {HEECHSTJER_ROW(0x1200 | 0x34, SEVEN + 1, 1 ? 0xabcdu : 0, SEVEN & 2)};
    static const uint8_t made_bytes[] = {1, 0, 7, 0x12, 0x34, 0, 8, 0xab, 0xcd, 2};
    static const uint8_t none[] = {HEECHSTJER_END};
    EXPECT(sizeof a == sizeof table_a && memcmp(a, table_a, sizeof a) == 0);
    EXPECT(sizeof largest == sizeof largest_bytes && memcmp(largest, largest_bytes, sizeof largest) == 0);
    EXPECT(sizeof made == sizeof made_bytes && memcmp(made, made_bytes, sizeof made) == 0);
    EXPECT(sizeof none == sizeof empty_table && memcmp(none, empty_table, sizeof none) == 0);
    EXPECT(sizeof made == HEECHSTJER_ROW_BYTES && sizeof none == HEECHSTJER_END_BYTES);
}

static void rows_with_margins_in_c_are_the_bytes_of_a_file(void)
{
    static const uint8_t a[] = {
        HEECHSTJER_MARGIN_ROW(2, 6, 8, 0, 1), HEECHSTJER_MARGIN_ROW(5, 12, 12, 1, 5), HEECHSTJER_END,
    };
    static const uint8_t made[] = {HEECHSTJER_MARGIN_ROW(0x1234, 8, 0xabcd, 2, 0x0506)};
    static const uint8_t made_bytes[] = {2, 0, 9, 0x12, 0x34, 0, 8, 0xab, 0xcd, 2, 5, 6};
    EXPECT(sizeof a == sizeof table_a_with_margins && memcmp(a, table_a_with_margins, sizeof a) == 0);
    EXPECT(sizeof made == sizeof made_bytes && memcmp(made, made_bytes, sizeof made) == 0);
    EXPECT(sizeof made == HEECHSTJER_MARGIN_ROW_BYTES);
}

/* ---- Planning ---- */

typedef struct plan_case {
    const char *name;
    unsigned refusal;
    size_t from, size;
    unsigned row;
    size_t bytes;
    uint8_t table[37];
} plan_case;

#define ROW HEECHSTJER_ROW
#define MARGIN_ROW HEECHSTJER_MARGIN_ROW
#define END HEECHSTJER_END

/* Rows of both lengths, R 1 and 2; the margin of the second just fits. */
#define TWO_ROWS ROW(1, 9, 9, 0), MARGIN_ROW(1, 9, 9, 1, 7)

static const plan_case plan_cases[] = {
    {"refusal 1: a table of no bytes shows none", 1, 0, 0, 0, 0, {0}},
    {"refusal 1: two bytes where a field must start", 1, 0, 2, 0, 2, {0x0f, 0x00}},
    {"refusal 1: no end field shows the empty rest", 1, 10, 0, 0, 10, {ROW(2, 6, 8, 0)}},
    {"refusal 1: a value that is cut shows its field", 1, 10, 9, 0, 19, {ROW(2, 6, 8, 0), 1, 0, 7, 1, 2, 3, 4, 5, 6}},
    {"refusal 1: a value that is cut within M", 1, 10, 11, 0, 21, {ROW(2, 6, 8, 0), 2, 0, 9, 1, 2, 3, 4, 5, 6, 7, 8}},
    {"refusal 1: no end field after a row with a margin", 1, 12, 0, 0, 12, {MARGIN_ROW(2, 6, 8, 0, 1)}},
    {"refusal 2: an unknown tag", 2, 10, 3, 0, 14, {ROW(2, 6, 8, 0), 0x04, 0x00, 0x07, 0xff}},
    {"refusal 2: the tag before the length", 2, 0, 3, 0, 3, {0x00, 0xff, 0xff}},
    {"refusal 3: a row of length 6", 3, 0, 3, 0, 12, {0x01, 0x00, 0x06, 0, 2, 0, 6, 0, 8, END}},
    {"refusal 3: an end field of length 1", 3, 0, 3, 0, 4, {0x0f, 0x00, 0x01, 0x00}},
    {"refusal 3: a length of 0x0107", 3, 0, 3, 0, 3, {0x01, 0x01, 0x07}},
    {"refusal 3: a row with a margin of length 7", 3, 10, 3, 0, 14, {ROW(2, 6, 8, 0), 0x02, 0x00, 0x07, 0xff}},
    {"refusal 3: a row without a margin of length 9", 3, 12, 3, 0, 15, {MARGIN_ROW(2, 6, 8, 0, 1), 0x01, 0x00, 0x09}},
    {"refusal 4: bytes after the end field", 4, 13, 2, 0, 15, {ROW(2, 6, 8, 0), END, 0x0f, 0x00}},
    {"refusal 4 before 6", 4, 13, 1, 0, 14, {ROW(0, 6, 8, 0), END, 0x00}},
    {"refusal 6: C = 0 in row 2", 6, 10, 10, 2, 23, {ROW(2, 6, 8, 0), ROW(0, 6, 8, 1), END}},
    {"refusal 7: C > D in row 1", 7, 0, 10, 1, 13, {ROW(7, 6, 8, 0), END}},
    {"refusal 7 before 8", 7, 0, 10, 1, 13, {ROW(10, 9, 8, 9), END}},
    {"refusal 8: D > T in row 2", 8, 10, 10, 2, 23, {ROW(2, 6, 8, 0), ROW(2, 9, 8, 1), END}},
    {"refusal 8 before 9", 8, 0, 10, 1, 13, {ROW(2, 9, 8, 9), END}},
    {"refusal 9: a rank of n", 9, 0, 10, 1, 13, {ROW(2, 6, 8, 1), END}},
    {"refusal 9: a rank used by an earlier row", 9, 10, 10, 2, 23, {ROW(2, 6, 8, 1), ROW(2, 9, 9, 1), END}},
    {"refusal 9 in row 1 before 6 in row 2", 9, 0, 10, 1, 23, {ROW(2, 6, 8, 2), ROW(0, 9, 9, 1), END}},
    {"refusal 6 in row 2 before 10 in row 2", 6, 10, 10, 2, 23, {ROW(2, 4, 4, 0), ROW(0, 4, 4, 1), END}},
    {"refusal 10: (2,4,4) over (3,4,4)", 10, 10, 10, 2, 23, {ROW(2, 4, 4, 0), ROW(3, 4, 4, 1), END}},
    {"refusal 6 after rows of both lengths", 6, 22, 12, 3, 37, {TWO_ROWS, MARGIN_ROW(0, 9, 9, 2, 1), END}},
    {"refusal 7 after rows of both lengths", 7, 22, 12, 3, 37, {TWO_ROWS, MARGIN_ROW(9, 8, 9, 2, 1), END}},
    {"refusal 8 after rows of both lengths", 8, 22, 12, 3, 37, {TWO_ROWS, MARGIN_ROW(1, 10, 9, 2, 1), END}},
    {"refusal 9 after rows of both lengths", 9, 22, 12, 3, 37, {TWO_ROWS, MARGIN_ROW(1, 9, 9, 1, 1), END}},
    {"refusal 10 after rows of both lengths", 10, 22, 12, 3, 37, {TWO_ROWS, MARGIN_ROW(8, 9, 9, 2, 1), END}},
    {"refusal 10 without a margin, after both lengths", 10, 22, 10, 3, 35, {TWO_ROWS, ROW(8, 9, 9, 2), END}},
    {"refusal 21: M = 0 in row 1", 21, 0, 12, 1, 15, {MARGIN_ROW(2, 6, 8, 0, 0), END}},
    {"refusal 21 after rows of both lengths", 21, 22, 12, 3, 37, {TWO_ROWS, MARGIN_ROW(1, 9, 9, 2, 0), END}},
    {"refusal 9 before 21", 9, 0, 12, 1, 15, {MARGIN_ROW(2, 6, 8, 1, 0), END}},
    {"refusal 21 in row 1 before 6 in row 2", 21, 0, 12, 1, 25, {MARGIN_ROW(2, 6, 8, 0, 0), ROW(0, 9, 9, 1), END}},
    {"refusal 21 in row 3 before 10 in row 2", 21, 20, 12, 3, 35,
     {ROW(2, 4, 4, 0), ROW(3, 4, 4, 1), MARGIN_ROW(1, 9, 9, 2, 0), END}},
    {"refusal 21 in row 2 before 22 in row 1", 21, 12, 12, 2, 27,
     {MARGIN_ROW(2, 4, 4, 0, 3), MARGIN_ROW(1, 9, 9, 1, 0), END}},
    {"refusal 22: M one tick too large in row 1", 22, 0, 12, 1, 15, {MARGIN_ROW(2, 6, 8, 0, 5), END}},
    {"refusal 22 after rows of both lengths", 22, 22, 12, 3, 37, {TWO_ROWS, MARGIN_ROW(1, 9, 9, 2, 7), END}},
    {"refusal 10 before 22", 10, 10, 12, 2, 25, {ROW(2, 4, 4, 0), MARGIN_ROW(3, 4, 4, 1, 9), END}},
    {"refusal 22 in row 1 before 10 in row 2", 22, 0, 12, 1, 25, {MARGIN_ROW(2, 4, 4, 0, 3), ROW(3, 4, 4, 1), END}},
};

static void plan_refuses(const plan_case *c)
{
    station s, before;
    uint8_t *table = malloc(c->bytes == 0 ? 1 : c->bytes);
    EXPECT(table != NULL);
    if (!table)
        return;
    memcpy(table, c->table, c->bytes);
    fill(&s, 0x3c);
    before = s;
    heechstjer_plan_answer a = heechstjer_plan_in(s.block, table, c->bytes);
    EXPECT(plan_is(a, c->refusal, c->from, c->size, c->row));
    EXPECT(a.from + a.size <= c->bytes);
    EXPECT(same_block(&s, &before) && guards_stand(&s));
    EXPECT(memcmp(table, c->table, c->bytes) == 0);
    free(table);
}

/* The 17th row, where those before it have this margin and it has that one. */
static void row_17_is_refused(uint16_t margin, uint16_t margin_17)
{
    uint8_t table[HEECHSTJER_MOST_TABLE_BYTES + HEECHSTJER_MARGIN_ROW_BYTES];
    uint16_t rows[17][NUMBERS];
    station s, before;
    size_t from = 16 * (margin != 0 ? HEECHSTJER_MARGIN_ROW_BYTES : HEECHSTJER_ROW_BYTES);
    for (uint16_t i = 0; i < 17; i++) {
        rows[i][C] = 1;
        rows[i][D] = rows[i][T] = 100;
        rows[i][RANK] = (uint16_t)(16 - i);
        rows[i][M] = i < 16 ? margin : margin_17;
    }
    size_t bytes = write_table(table, (const uint16_t(*)[NUMBERS])rows, 17);
    fill(&s, 0x3c);
    before = s;
    EXPECT(plan_is(heechstjer_plan_in(s.block, table, bytes), 5, from, 3, 0));
    EXPECT(plan_is(heechstjer_plan_in(s.block, table, from + 3), 5, from, 3, 0)); /* before 1: its value is cut too */
    EXPECT(same_block(&s, &before) && guards_stand(&s));
}

static void refusal_5_for_a_17th_row(void)
{
    row_17_is_refused(0, 0);
    row_17_is_refused(0, 1);
    row_17_is_refused(1, 0);
    row_17_is_refused(1, 1);
}

static void refusal_10_for_the_third_row(void)
{
    static const uint16_t rows[3][NUMBERS] = {{3, 6, 6, 0}, {2, 8, 8, 1}, {3, 12, 12, 2}};
    uint8_t table[HEECHSTJER_MOST_TABLE_BYTES];
    station s, before;
    size_t bytes = write_table(table, rows, 3);
    fill(&s, 0x3c);
    before = s;
    EXPECT(plan_is(heechstjer_plan_in(s.block, table, bytes), 10, 20, 10, 3));
    EXPECT(same_block(&s, &before));
    planned_rows(rows, 2);
}

static void tables_of_0_1_and_16_rows_are_planned(void)
{
    static const uint16_t largest[1][NUMBERS] = {{65535, 65535, 65535, 0}};
    uint16_t rows[16][NUMBERS];
    for (uint16_t i = 0; i < 16; i++) {
        rows[i][C] = 1;
        rows[i][D] = rows[i][T] = 16;
        rows[i][RANK] = (uint16_t)(15 - i);
        rows[i][M] = 0;
    }
    planned(empty_table, sizeof empty_table);
    planned_rows(largest, 1);
    station s = planned_rows((const uint16_t(*)[NUMBERS])rows, 16);
    EXPECT(ticks(&s, 0xffff, 0, "0 U16 -")); /* row 16 has R 16, U 0; the others are promoted later */
    EXPECT(ticks(&s, 0, 0, "1 U15 H16 spent"));
}

static void planning_writes_all_of_the_block(void)
{
    station zeros, ones, run = at_clock_2();
    uint8_t *raw = malloc(BLOCK); /* never written before: valgrind sees a byte that planning leaves out */
    fill(&zeros, 0x00);
    fill(&ones, 0xff);
    EXPECT(raw != NULL);
    if (!raw)
        return;
    EXPECT(heechstjer_plan_in(zeros.block, table_a, sizeof table_a).refusal == 0);
    EXPECT(heechstjer_plan_in(ones.block, table_a, sizeof table_a).refusal == 0);
    EXPECT(heechstjer_plan_in(run.block, table_a, sizeof table_a).refusal == 0);
    EXPECT(heechstjer_plan_in(raw, table_a, sizeof table_a).refusal == 0);
    EXPECT(same_block(&zeros, &ones) && same_block(&zeros, &run) && memcmp(raw, zeros.block, BLOCK) == 0);
    EXPECT(guards_stand(&zeros) && guards_stand(&ones) && guards_stand(&run));
    free(raw);
}

static void the_table_may_be_thrown_away(void)
{
    uint8_t table[sizeof table_a];
    station s;
    memcpy(table, table_a, sizeof table_a);
    s = planned(table, sizeof table);
    memset(table, 0xff, sizeof table);
    EXPECT(ticks(&s, 3, 0, "0 L1 -"));
}

/* ---- Refusal 11 ---- */

/* The four functions on a block of this many bytes, which starts as the image of a running state: 11 by each, also
 * where the table, the set, the done flag, the offer and the output are wrong too, and no byte changed. */
static void length_is_refused(size_t bytes)
{
    station s = at_clock_2();
    size_t held = bytes == 0 ? 1 : bytes;
    uint8_t *block = malloc(held), *before = malloc(held);
    EXPECT(block && before);
    if (block && before) {
        memset(block, 0, held);
        memcpy(block, s.block, held < BLOCK ? held : BLOCK);
        memcpy(before, block, held);
        EXPECT(plan_is(heechstjer_plan(block, bytes, table_a, sizeof table_a), 11, 0, 0, 0));
        EXPECT(plan_is(heechstjer_plan(block, bytes, table_a, 5), 11, 0, 0, 0));
        EXPECT(says(heechstjer_tick(block, bytes, 0, 0), "refused 11"));
        EXPECT(says(heechstjer_tick(block, bytes, 0xffff, DONE), "refused 11"));
        EXPECT(says(heechstjer_tick(block, bytes, 0xffff, 4), "refused 20"));
        heechstjer_offer_answer good = heechstjer_offer(block, bytes, 2, 4);
        heechstjer_offer_answer bad = heechstjer_offer(block, bytes, 0, 0);
        EXPECT(good.refusal == 11 && good.ticket == 0 && bad.refusal == 11 && bad.ticket == 0);
        EXPECT(keeps_back(block, bytes, sizeof table_a, 11) && keeps_back(block, bytes, 0, 11));
        EXPECT(memcmp(block, before, held) == 0);
    }
    free(block);
    free(before);
}

static void refusal_11_for_0_bytes(void) { length_is_refused(0); }
static void refusal_11_for_511_bytes(void) { length_is_refused(511); }
static void refusal_11_for_513_bytes(void) { length_is_refused(513); }

/* The last byte is one of those that are reserved: with a bit of it set a block is no image. */
static void refusal_11_for_a_flipped_bit(void)
{
    for (int bit = 0; bit < 8; bit++) {
        station s = at_clock_2();
        s.block[LAST_BYTE] ^= (uint8_t)(1u << bit);
        EXPECT(ticks(&s, 0, 0, "refused 11"));
        EXPECT(ticks(&s, 0xffff, DONE, "refused 11"));
        EXPECT(ticks(&s, 0, 4, "refused 20"));
        EXPECT(turns_down(&s, 2, 4, 11));
        EXPECT(turns_down(&s, 0, 0, 11));
        EXPECT(keeps_back(s.block, BLOCK, sizeof table_a, 11) && keeps_back(s.block, BLOCK, 0, 11));
        s.block[LAST_BYTE] ^= (uint8_t)(1u << bit);
        EXPECT(ticks(&s, 0, 0, "2 L1 -"));
    }
}

/* Where the rows' numbers stand in a block (docs/block.md), two bytes each. */
enum { C_AT = 16, U_AT = 112, M_AT = 320, M_BYTES = 32 };

/* The length of table A in this block: its margins are none, or a bit was flipped in them. */
static size_t length_of_table_a(const station *s)
{
    bool margin = false;
    for (int i = 0; i < M_BYTES; i++)
        margin = margin || s->block[M_AT + i] != 0;
    return margin ? sizeof table_a + 2 : sizeof table_a;
}

/* Every bit in turn: the block is still an image, or tick, offer and table all say 11; refused, no byte changes. */
static void every_flipped_bit_is_judged_once(void)
{
    station sound = at_clock_2();
    uint8_t out[HEECHSTJER_MOST_TABLE_BYTES];
    int refused = 0;
    EXPECT(takes(&sound, 2, 4, 0));
    for (int place = 0; place < BLOCK; place++)
        for (int bit = 0; bit < 8; bit++) {
            station s = sound, t, damaged;
            s.block[place] ^= (uint8_t)(1u << bit);
            damaged = t = s;
            heechstjer_tick_answer tick = heechstjer_tick_in(s.block, 0, 0);
            heechstjer_offer_answer offer = heechstjer_offer_in(t.block, 1, 1);
            EXPECT(well_formed(tick) && guards_stand(&s) && guards_stand(&t));
            EXPECT((tick.refusal == 11) == (offer.refusal == 11));
            heechstjer_table_answer table = heechstjer_table_in(damaged.block, out, sizeof out);
            EXPECT((tick.refusal == 11) == (table.refusal == 11));
            EXPECT(table.size == (table.refusal == 0 ? length_of_table_a(&damaged) : 0));
            EXPECT(tick.refusal == 0 || (tick.refusal == 11 && same_block(&s, &damaged)));
            EXPECT(offer.refusal == 0 || (same_block(&t, &damaged) && offer.ticket == 0));
            refused += tick.refusal == 11;
        }
    EXPECT(refused > 2048);
}

/* U <= D - C - M: table A has U 4 in row 1, which leaves no margin, and U 5 in row 2, which leaves 2. */
static void refusal_11_for_a_margin_too_large(void)
{
    static const struct { int row, u, m; bool image; } margins[] = {
        {0, 4, 1, false}, {0, 3, 1, true}, {0, 0, 4, true}, {0, 0, 5, false},
        {1, 5, 2, true}, {1, 5, 3, false}, {1, 0, 7, true}, {1, 0, 8, false},
        {2, 0, 1, false}, {15, 0, 1, false},
    };
    for (size_t i = 0; i < sizeof margins / sizeof margins[0]; i++) {
        station s = at_clock_2();
        s.block[U_AT + 2 * margins[i].row] = (uint8_t)margins[i].u;
        s.block[M_AT + 2 * margins[i].row] = (uint8_t)margins[i].m;
        station damaged = s;
        unsigned number = margins[i].image ? 0 : 11;
        EXPECT(heechstjer_tick_in(s.block, 0, 0).refusal == number);
        EXPECT((number == 0) == !same_block(&s, &damaged));
        EXPECT(margins[i].image || (turns_down(&s, 1, 1, 11) && keeps_back(s.block, BLOCK, 0, 11)));
    }
    station high = at_clock_2();
    high.block[M_AT + 3] = 1; /* M 256 in row 2 */
    EXPECT(ticks(&high, 0, 0, "refused 11"));
}

/* ---- NULL, where there are no bytes ---- */

static void null_is_an_empty_table(void)
{
    station s = at_clock_2(), before = s;
    EXPECT(plan_is(heechstjer_plan_in(s.block, NULL, 0), 1, 0, 0, 0));
    EXPECT(same_block(&s, &before) && guards_stand(&s));
    EXPECT(ticks(&s, 0, 0, "2 L1 -")); /* as if nobody had planned */
}

static void null_is_a_block_of_0_bytes(void)
{
    EXPECT(plan_is(heechstjer_plan(NULL, 0, table_a, sizeof table_a), 11, 0, 0, 0));
    EXPECT(plan_is(heechstjer_plan(NULL, 0, NULL, 0), 11, 0, 0, 0));
    EXPECT(says(heechstjer_tick(NULL, 0, 0, 0), "refused 11"));
    EXPECT(says(heechstjer_tick(NULL, 0, 0xffff, DONE | SOFT), "refused 11"));
    EXPECT(says(heechstjer_tick(NULL, 0, 0xffff, 4), "refused 20"));
    heechstjer_offer_answer good = heechstjer_offer(NULL, 0, 2, 4), bad = heechstjer_offer(NULL, 0, 0, 0);
    EXPECT(good.refusal == 11 && good.ticket == 0 && bad.refusal == 11 && bad.ticket == 0);
    EXPECT(keeps_back(NULL, 0, HEECHSTJER_MOST_TABLE_BYTES, 11) && keeps_back(NULL, 0, 0, 11));
    heechstjer_table_answer nowhere = heechstjer_table(NULL, 0, NULL, 0);
    EXPECT(nowhere.refusal == 11 && nowhere.size == 0);
}

static void null_is_an_output_of_0_bytes(void)
{
    station s = at_clock_2(), none = planned(empty_table, sizeof empty_table), before = s;
    heechstjer_table_answer a = heechstjer_table_in(s.block, NULL, 0);
    EXPECT(a.refusal == 19 && a.size == 0);
    a = heechstjer_table_in(none.block, NULL, 0);
    EXPECT(a.refusal == 19 && a.size == 0);
    EXPECT(same_block(&s, &before) && gives_back(&s, table_a, sizeof table_a));
    s.block[LAST_BYTE] = 1;
    a = heechstjer_table_in(s.block, NULL, 0);
    EXPECT(a.refusal == 11 && a.size == 0);
}

/* ---- The tick ---- */

static void the_listing_of_document_01(void)
{
    station s = planned(table_a, sizeof table_a);
    EXPECT(ticks(&s, 3, 0, "0 L1 -"));
    EXPECT(ticks(&s, 0, SOFT, "1 S -"));
    EXPECT(takes(&s, 2, 4, 0));
    EXPECT(ticks(&s, 0, 0, "2 F0 -"));
    EXPECT(ticks(&s, 1, 0, "3 F0 - note 14 0001"));
    EXPECT(ticks(&s, 0, 0, "4 U1 F0 spent"));
    EXPECT(ticks(&s, 0, 0, "5 U2 H1 spent"));
    EXPECT(ticks(&s, 0, DONE, "6 I H2 done"));
}

static void note_12_lists_the_rows_above_n(void)
{
    station s = planned(table_a, sizeof table_a), none = planned(empty_table, sizeof empty_table);
    EXPECT(ticks(&s, 0x8008, 0, "0 I - note 12 8008"));
    EXPECT(ticks(&s, 0xfffc, SOFT, "1 S - note 12 fffc"));
    EXPECT(ticks(&s, 0x8001, 0, "2 L1 - note 12 8000")); /* row 1 is released all the same */
    EXPECT(ticks(&s, 0x0004, DONE, "3 I H1 done note 12 0004"));
    EXPECT(ticks(&none, 0xffff, 0, "0 I - note 12 ffff"));
    EXPECT(ticks(&none, 0, 0, "1 I -"));
}

static void note_12_for_every_bit_above_n(void)
{
    for (unsigned n = 0; n <= 16; n++) {
        uint16_t rows[16][NUMBERS];
        for (uint16_t i = 0; i < n; i++) {
            rows[i][C] = 1;
            rows[i][D] = rows[i][T] = 100;
            rows[i][RANK] = i;
            rows[i][M] = 0;
        }
        station s = planned_rows((const uint16_t(*)[NUMBERS])rows, n);
        for (unsigned row = 1; row <= 16; row++) {
            uint16_t bit = heechstjer_row_bit(row);
            heechstjer_tick_answer a = heechstjer_tick_in(s.block, bit, 0);
            EXPECT(well_formed(a) && a.clock == row - 1 && a.none_ran == 0 && a.not_ready == 0);
            EXPECT(a.unknown == (row > n ? bit : 0) && heechstjer_noted(a) == (row > n));
            EXPECT(row > n ? a.runner == HEECHSTJER_RUNNER_IDLE : a.runner_row == row);
        }
    }
}

static void note_13_where_no_job_ran(void)
{
    station s = planned(table_a, sizeof table_a);
    EXPECT(ticks(&s, 0, DONE, "0 I - note 13"));
    EXPECT(ticks(&s, 0, DONE | SOFT, "1 S - note 13"));
    EXPECT(ticks(&s, 1, DONE, "2 L1 - note 13"));
    EXPECT(ticks(&s, 0, 4, "refused 20")); /* refused ticks and offers in between don't count */
    EXPECT(turns_down(&s, 0, 0, 15));
    EXPECT(takes(&s, 1, 9, 0));
    EXPECT(ticks(&s, 0, DONE, "3 F0 H1 done"));
    EXPECT(ticks(&s, 0, DONE, "4 I F0 done"));
    EXPECT(ticks(&s, 0, DONE, "5 I - note 13"));
}

static void note_14_until_t_ticks_have_passed(void)
{
    station s = planned(table_a, sizeof table_a);
    EXPECT(ticks(&s, 3, 0, "0 L1 -"));
    EXPECT(ticks(&s, 1, DONE, "1 L2 H1 done note 14 0001")); /* closed, but not rested */
    EXPECT(ticks(&s, 0, DONE, "2 I H2 done"));
    let_pass(&s, 4);
    EXPECT(ticks(&s, 3, 0, "7 I - note 14 0003"));
    EXPECT(ticks(&s, 3, 0, "8 L1 - note 14 0002")); /* row 1 is released all the same */
    let_pass(&s, 2);
    EXPECT(ticks(&s, 2, 0, "11 I - note 14 0002"));
    EXPECT(ticks(&s, 2, 0, "12 L2 -"));
}

/* A release at 3 that is noted between those at 0 and 8: promotion is counted from these two. */
static void a_noted_release_did_not_happen(void)
{
    station s = planned(table_a, sizeof table_a);
    EXPECT(ticks(&s, 1, SOFT, "0 S -") && ticks(&s, 0, SOFT, "1 S -") && ticks(&s, 0, SOFT, "2 S -"));
    EXPECT(ticks(&s, 1, SOFT, "3 S - note 14 0001"));
    EXPECT(ticks(&s, 0, SOFT, "4 U1 -") && ticks(&s, 0, SOFT, "5 U1 -") && ticks(&s, 0, SOFT, "6 S H1 spent"));
    EXPECT(ticks(&s, 1, SOFT, "7 S - note 14 0001"));
    EXPECT(ticks(&s, 1, SOFT, "8 S -") && ticks(&s, 0, SOFT, "9 S -") && ticks(&s, 0, SOFT, "10 S -"));
    EXPECT(ticks(&s, 0, SOFT, "11 S -") && ticks(&s, 0, SOFT, "12 U1 -"));
}

/* Row 1 is marked as rested while its job is open (docs/block.md), as no planning leads to: it waits for the closing, and
 * the call that closes it, as spent or as done, may release it. */
static void note_14_until_this_call_closes(void)
{
    enum { RESTED_AT = 14 };
    station spent = at_clock_2(), done = planned(table_a, sizeof table_a);
    spent.block[RESTED_AT] |= 1;
    EXPECT(ticks(&spent, 1, 0, "2 U1 - note 14 0001"));
    EXPECT(ticks(&spent, 1, 0, "3 L1 H1 spent"));
    EXPECT(ticks(&done, 1, 0, "0 L1 -"));
    done.block[RESTED_AT] |= 1;
    EXPECT(ticks(&done, 1, DONE, "1 L1 H1 done"));
}

static void all_notes_in_one_tick(void)
{
    station s = at_clock_2(); /* soft work ran last, row 1 is not rested */
    EXPECT(ticks(&s, 0xffff, DONE | SOFT, "2 S - note 12 fffc note 13 note 14 0003"));
    EXPECT(ticks(&s, 0x8001, DONE, "3 L1 - note 12 8000 note 13 note 14 0001"));
    EXPECT(ticks(&s, 0x4002, DONE, "4 L2 H1 done note 12 4000 note 14 0002"));
    station t = planned(table_a, sizeof table_a);
    EXPECT(ticks(&t, 1, SOFT, "0 S -"));
    EXPECT(ticks(&t, 7, DONE, "1 L1 - note 12 0004 note 13 note 14 0001")); /* row 2 is released */
    EXPECT(ticks(&t, 0, DONE, "2 L2 H1 done"));
}

static void refusal_20_for_every_other_flag(void)
{
    station s = planned(table_a, sizeof table_a);
    for (unsigned flags = 4; flags <= 255; flags++)
        EXPECT(ticks(&s, 0, flags, "refused 20"));
    EXPECT(ticks(&s, 0, 0, "0 I -"));
}

/* 20 and 11, whose order is tried with wrong lengths and flipped bits above, also where much would be noted. */
static void a_refused_tick_notes_nothing(void)
{
    station s = at_clock_2();
    EXPECT(ticks(&s, 0xffff, DONE | 4, "refused 20"));
    s.block[LAST_BYTE] = 1;
    EXPECT(ticks(&s, 0xffff, DONE, "refused 11"));
    s.block[LAST_BYTE] = 0;
    EXPECT(ticks(&s, 0, 0, "2 L1 -"));
}

static void a_refused_call_was_not_made(void)
{
    station s = planned(table_a, sizeof table_a), quiet = planned(table_a, sizeof table_a);
    for (unsigned t = 0; t < 48; t++) {
        unsigned due = (t % 8 == 0) + 2u * (t % 12 == 0);
        heechstjer_tick(s.block, BLOCK, 0xffff, 0x81);
        heechstjer_tick(s.block, BLOCK, 0, 0x80);
        heechstjer_tick(s.block, BLOCK - 1, 0, 0);
        heechstjer_offer(s.block, BLOCK, 9, 8);
        heechstjer_plan(s.block, BLOCK, table_a, sizeof table_a - 1);
        EXPECT(same_block(&s, &quiet));
        heechstjer_tick_answer a = heechstjer_tick_in(s.block, (uint16_t)due, 0);
        heechstjer_tick_answer b = heechstjer_tick_in(quiet.block, (uint16_t)due, 0);
        EXPECT(a.refusal == 0 && a.clock == t && same_tick(a, b) && !heechstjer_noted(a) && !heechstjer_noted(b));
    }
}

static uint32_t seed;

static unsigned any_below(unsigned bound)
{
    seed = seed * 1664525u + 1013904223u;
    return (seed >> 8) % bound;
}

/* Whatever is set, the answer but for the notes and the block are those of the call without what was noted. */
static void what_is_noted_counts_as_clear(void)
{
    station noisy = planned(table_a, sizeof table_a), clean = noisy;
    unsigned all_three = 0;
    seed = 2;
    for (unsigned t = 0; t < 5000; t++) {
        unsigned released = any_below(0x10000) & any_below(0x10000), flags = any_below(4);
        heechstjer_tick_answer a = heechstjer_tick_in(noisy.block, (uint16_t)released, (uint8_t)flags);
        unsigned noted = (unsigned)a.unknown | a.not_ready, left = a.none_ran != 0 ? flags & SOFT : flags;
        heechstjer_tick_answer b = heechstjer_tick_in(clean.block, (uint16_t)(released & ~noted), (uint8_t)left);
        EXPECT(well_formed(a) && a.clock == t && (noted & ~released) == 0 && a.unknown == (released & 0xfffc));
        EXPECT((a.none_ran == 0 || (flags & DONE) != 0) && !heechstjer_noted(b));
        EXPECT(same_tick(a, b) && same_block(&noisy, &clean));
        all_three += a.unknown != 0 && a.none_ran != 0 && a.not_ready != 0;
    }
    EXPECT(all_three > 100 && guards_stand(&noisy));
}

static void the_five_choices_in_order(void)
{
    static const uint16_t rows[3][NUMBERS] = {{1, 4, 20, 2}, {1, 4, 20, 0}, {1, 9, 20, 1}}; /* U 3, 2, 6 */
    station s = planned_rows(rows, 3);
    EXPECT(ticks(&s, 0, 0, "0 I -"));
    EXPECT(takes(&s, 2, 9, 0));
    EXPECT(ticks(&s, 7, SOFT, "1 F0 -"));       /* an upload before soft work and unpromoted jobs */
    EXPECT(ticks(&s, 0, SOFT, "2 F0 -"));
    EXPECT(ticks(&s, 0, SOFT, "3 U2 F0 spent")); /* promoted at release + U, that tick included */
    EXPECT(takes(&s, 1, 9, 1));
    EXPECT(ticks(&s, 0, SOFT, "4 U1 H2 spent")); /* a promoted job before an upload */
    EXPECT(ticks(&s, 0, SOFT, "5 F1 H1 spent"));
    EXPECT(ticks(&s, 0, SOFT, "6 S F1 spent")); /* soft work before an unpromoted job */
    EXPECT(ticks(&s, 0, 0, "7 U3 -"));
    let_pass(&s, 13);
    EXPECT(ticks(&s, 7, 0, "21 L2 -"));
    EXPECT(ticks(&s, 0, 0, "22 L3 H2 spent")); /* the smallest rank, not the smallest row */
    EXPECT(ticks(&s, 0, 0, "23 L1 H3 spent"));
    EXPECT(ticks(&s, 0, 0, "24 I H1 spent"));
}

static void the_smallest_promoted_row_runs(void)
{
    static const uint16_t rows[2][NUMBERS] = {{2, 4, 4, 1}, {2, 4, 4, 0}}; /* U 2 and 0 */
    station s = planned_rows(rows, 2);
    EXPECT(ticks(&s, 3, 0, "0 U2 -"));
    EXPECT(ticks(&s, 0, 0, "1 U2 -"));
    EXPECT(ticks(&s, 0, 0, "2 U1 H2 spent"));
    EXPECT(ticks(&s, 0, 0, "3 U1 -"));
    EXPECT(ticks(&s, 1, 0, "4 L1 H1 spent")); /* closed, rested and released in one call */
    EXPECT(ticks(&s, 2, 0, "5 U2 -"));
    EXPECT(ticks(&s, 0, 0, "6 U1 -"));
    EXPECT(ticks(&s, 0, DONE, "7 U2 H1 done"));
}

/* Table A with margins, released at once with soft work wanting every tick: D - M is 5 and 7. */
static void a_margin_promotes_earlier(void)
{
    station s = planned(table_a_with_margins, sizeof table_a_with_margins);
    EXPECT(ticks(&s, 3, SOFT, "0 U2 -"));
    EXPECT(ticks(&s, 0, SOFT, "1 U2 -"));
    EXPECT(ticks(&s, 0, SOFT, "2 U2 -"));
    EXPECT(ticks(&s, 0, SOFT, "3 U1 -"));
    EXPECT(ticks(&s, 0, SOFT, "4 U1 -"));
    EXPECT(ticks(&s, 0, SOFT, "5 U2 H1 spent"));
    EXPECT(ticks(&s, 0, SOFT, "6 U2 -"));
    EXPECT(ticks(&s, 0, SOFT, "7 S H2 spent"));
}

static void done_and_spent(void)
{
    station s = planned(empty_table, sizeof empty_table);
    EXPECT(takes(&s, 2, 2, 0) && takes(&s, 2, 4, 1) && takes(&s, 2, 6, 2));
    EXPECT(ticks(&s, 0, 0, "0 F0 -"));
    EXPECT(ticks(&s, 0, 0, "1 F0 -"));
    EXPECT(ticks(&s, 0, 0, "2 F1 F0 spent")); /* its budget is gone: not complete */
    EXPECT(ticks(&s, 0, 0, "3 F1 -"));
    EXPECT(ticks(&s, 0, DONE, "4 F2 F1 done")); /* the same ticks, and told done: complete */
    EXPECT(ticks(&s, 0, DONE, "5 I F2 done"));  /* told before its budget is gone */
    EXPECT(ticks(&s, 0, 0, "6 I -"));
}

static void complete_only_when_closed_as_done(void)
{
    station s = planned(empty_table, sizeof empty_table);
    EXPECT(takes(&s, 1, 1, 0) && takes(&s, 1, 2, 1));
    heechstjer_tick_answer a = heechstjer_tick_in(s.block, 0, 0);
    EXPECT(!heechstjer_upload_closed(a, 0) && !heechstjer_upload_complete(a, 0));
    a = heechstjer_tick_in(s.block, 0, 0);
    EXPECT(heechstjer_upload_closed(a, 0) && !heechstjer_upload_complete(a, 0) && !heechstjer_upload_closed(a, 1));
    a = heechstjer_tick_in(s.block, 0, DONE);
    EXPECT(heechstjer_upload_closed(a, 1) && heechstjer_upload_complete(a, 1));
    EXPECT(!heechstjer_upload_closed(a, 0) && !heechstjer_upload_complete(a, 0));
    s = planned(table_a, sizeof table_a);
    EXPECT(ticks(&s, 3, 0, "0 L1 -"));
    a = heechstjer_tick_in(s.block, 0, DONE); /* a hard job closed: no ticket, though closed_ticket is 0 */
    EXPECT(a.closed == HEECHSTJER_CLOSED_HARD && !heechstjer_upload_closed(a, 0) && !heechstjer_upload_complete(a, 0));
}

/* ---- The offer ---- */

static void the_offers_at_clock_2(void)
{
    station s = at_clock_2();
    EXPECT(turns_down(&s, 3, 4, 18));
    EXPECT(turns_down(&s, 3, 5, 18));
    EXPECT(takes(&s, 2, 4, 0));
    s = at_clock_2();
    EXPECT(takes(&s, 2, 3, 0));
}

static void the_offers_of_the_empty_table(void)
{
    station s = planned(empty_table, sizeof empty_table);
    EXPECT(takes(&s, 5, 5, 0));
    EXPECT(turns_down(&s, 1, 5, 18));
    EXPECT(takes(&s, 1, 6, 1));
}

/* Table A, fresh: row 1 may claim 2 ticks from 4, 12, .. on, row 2 may claim 5 from 5, 17, .. on. */
static void room_to_the_tick(void)
{
    static const struct { unsigned deadline, room; } figures[] = {
        {5, 4}, {6, 3}, {11, 4}, {12, 5}, {13, 5}, {14, 5}, {17, 8}, {18, 8},
    };
    for (size_t i = 0; i < sizeof figures / sizeof figures[0]; i++) {
        station s = planned(table_a, sizeof table_a);
        EXPECT(turns_down(&s, figures[i].room + 1, figures[i].deadline, 18));
        EXPECT(takes(&s, figures[i].room, figures[i].deadline, 0));
    }
}

static void refusals_15_and_16(void)
{
    station s = planned(table_a, sizeof table_a);
    EXPECT(turns_down(&s, 0, 0, 15));
    EXPECT(turns_down(&s, 0, 65535, 15));
    EXPECT(turns_down(&s, 1, 0, 16));
    EXPECT(turns_down(&s, 65535, 65534, 16));
}

static void refusal_17_until_the_first_closes(void)
{
    station s = planned(empty_table, sizeof empty_table);
    for (uint32_t i = 0; i < HEECHSTJER_MOST_UPLOADS; i++)
        EXPECT(takes(&s, 1, 8, i));
    EXPECT(turns_down(&s, 1, 65535, 17));
    EXPECT(turns_down(&s, 1, 1, 17)); /* before 18 */
    EXPECT(turns_down(&s, 2, 1, 16)); /* after 16 */
    EXPECT(turns_down(&s, 0, 1, 15));
    EXPECT(ticks(&s, 0, 0, "0 F0 -"));
    EXPECT(turns_down(&s, 1, 65535, 17)); /* run, but not closed: it keeps its place */
    EXPECT(ticks(&s, 0, 0, "1 F1 F0 spent"));
    EXPECT(takes(&s, 1, 65535, 8)); /* the refused offers took no ticket */
    EXPECT(turns_down(&s, 1, 65535, 17));
}

/* A ticket comes again 2^32 acceptances later: the next ticket in a fresh block (docs/block.md) is made the last. */
static void tickets_start_again_after_2_to_the_32(void)
{
    station s = planned(empty_table, sizeof empty_table);
    memset(s.block + 8, 0xff, 4);
    EXPECT(takes(&s, 1, 9, 0xffffffffu) && takes(&s, 2, 9, 0) && takes(&s, 1, 9, 1));
    EXPECT(ticks(&s, 0, 0, "0 F4294967295 -"));
    EXPECT(ticks(&s, 0, 0, "1 F0 F4294967295 spent"));
    EXPECT(ticks(&s, 0, 0, "2 F0 -"));
    EXPECT(ticks(&s, 0, 0, "3 F1 F0 spent"));
}

/* ---- The table read back ---- */

static void the_table_comes_back(void)
{
    station s = planned(table_a, sizeof table_a), none = planned(empty_table, sizeof empty_table);
    EXPECT(gives_back(&s, table_a, sizeof table_a));
    EXPECT(gives_back(&none, empty_table, sizeof empty_table));
    EXPECT(ticks(&s, 3, 0, "0 L1 -"));
    EXPECT(gives_back(&s, table_a, sizeof table_a));
    EXPECT(ticks(&s, 0, SOFT, "1 S -"));
    EXPECT(takes(&s, 2, 4, 0));
    EXPECT(ticks(&s, 0, 0, "2 F0 -"));
    EXPECT(ticks(&s, 1, 0, "3 F0 - note 14 0001"));
    EXPECT(gives_back(&s, table_a, sizeof table_a));
    EXPECT(ticks(&s, 0, 0, "4 U1 F0 spent")); /* as if nobody had asked */
}

/* What the header asks where an interrupt ticks: the bytes are copied, and the copy is read meanwhile. */
static void the_table_of_a_copy(void)
{
    station s = at_clock_2(), copy = s;
    EXPECT(ticks(&s, 0, 0, "2 L1 -"));
    EXPECT(gives_back(&copy, table_a, sizeof table_a));
    EXPECT(ticks(&s, 0, 0, "3 L2 H1 spent"));
}

/* Sixteen rows, so many of them with a margin, come back in so many bytes and not in one less. */
static void sixteen_rows_need(uint16_t margins, size_t want)
{
    uint8_t table[HEECHSTJER_MOST_TABLE_BYTES];
    uint16_t rows[16][NUMBERS];
    for (uint16_t i = 0; i < 16; i++) {
        rows[i][C] = (uint16_t)(1 + i);
        rows[i][D] = (uint16_t)(0x1000 + i);
        rows[i][T] = (uint16_t)(0xffff - i);
        rows[i][RANK] = (uint16_t)(15 - i);
        rows[i][M] = (uint16_t)(i < margins ? 0x0102 + i : 0);
    }
    size_t bytes = write_table(table, (const uint16_t(*)[NUMBERS])rows, 16);
    station s = planned(table, bytes);
    EXPECT(bytes == want && gives_back(&s, table, bytes));
    EXPECT(keeps_back(s.block, BLOCK, want - 1, 19));
}

static void sixteen_rows_need_163_bytes(void) { sixteen_rows_need(0, 163); }
static void sixteen_rows_with_margins_need_195_bytes(void) { sixteen_rows_need(16, 195); }

/* Each row in its own form: the longer one only where there is a margin. */
static void rows_of_both_lengths_come_back(void)
{
    static const uint8_t both[] = {ROW(2, 6, 8, 0), MARGIN_ROW(5, 12, 12, 1, 5), END};
    static const uint8_t turned[] = {MARGIN_ROW(2, 6, 8, 0, 4), ROW(5, 12, 12, 1), END};
    station a = planned(table_a_with_margins, sizeof table_a_with_margins);
    station b = planned(both, sizeof both), c = planned(turned, sizeof turned);
    EXPECT(gives_back(&a, table_a_with_margins, sizeof table_a_with_margins));
    EXPECT(gives_back(&b, both, sizeof both) && keeps_back(b.block, BLOCK, sizeof both - 1, 19));
    EXPECT(gives_back(&c, turned, sizeof turned) && keeps_back(c.block, BLOCK, sizeof turned - 1, 19));
    EXPECT(ticks(&a, 3, 0, "0 U2 -") && gives_back(&a, table_a_with_margins, sizeof table_a_with_margins));
    sixteen_rows_need(1, 165);
}

static void refusal_19_up_to_one_byte_short(void)
{
    station s = at_clock_2(), before = s;
    for (size_t bytes = 0; bytes < sizeof table_a; bytes++)
        EXPECT(keeps_back(s.block, BLOCK, bytes, 19));
    EXPECT(same_block(&s, &before) && gives_back(&s, table_a, sizeof table_a));
}

/* Table A with C 4 and D 8 written over those of row 1 (docs/block.md): an image, but row 2 then passes its D. */
static void refusal_10_for_a_table_that_nobody_planned(void)
{
    station s = planned(table_a, sizeof table_a);
    s.block[16] = 4;
    s.block[48] = 8;
    EXPECT(keeps_back(s.block, BLOCK, HEECHSTJER_MOST_TABLE_BYTES, 10));
    EXPECT(keeps_back(s.block, BLOCK, 0, 10)); /* before 19 */
    EXPECT(ticks(&s, 0, 0, "0 I -"));
}

/* Table A with U 0 and a margin written over those of row 2 (docs/block.md), R 7, D 12: up to 7 it is an image, but from
 * 6 on R and M together pass D. */
static void refusal_22_for_a_margin_that_nobody_planned(void)
{
    static const uint8_t fits[] = {ROW(2, 6, 8, 0), MARGIN_ROW(5, 12, 12, 1, 5), END};
    station s = planned(table_a, sizeof table_a);
    s.block[U_AT + 2] = 0;
    s.block[M_AT + 2] = 5;
    EXPECT(gives_back(&s, fits, sizeof fits));
    for (uint8_t m = 6; m <= 7; m++) {
        s.block[M_AT + 2] = m;
        EXPECT(keeps_back(s.block, BLOCK, HEECHSTJER_MOST_TABLE_BYTES, 22));
        EXPECT(keeps_back(s.block, BLOCK, 0, 22)); /* before 19 */
    }
    EXPECT(ticks(&s, 0, 0, "0 I -"));
    s.block[M_AT + 2] = 8;
    EXPECT(keeps_back(s.block, BLOCK, 0, 11)); /* C and M together pass D */
}

/* Two rows below (2,6,8): one with a margin that R leaves no room for, the other with C 12 and so no bound. Whichever
 * comes first is the refusal. */
static void refusals_10_and_22_row_by_row(void)
{
    static const uint16_t rows[3][NUMBERS] = {{2, 6, 8, 0}, {1, 12, 12, 1}, {1, 12, 12, 2}};
    station s = planned_rows(rows, 3), t = s;
    s.block[M_AT + 2] = 10; /* R 3, D 12 */
    s.block[U_AT + 2] = 0;
    s.block[C_AT + 4] = 12;
    s.block[U_AT + 4] = 0;
    EXPECT(keeps_back(s.block, BLOCK, 0, 22));
    t.block[C_AT + 2] = 12;
    t.block[U_AT + 2] = 0;
    t.block[M_AT + 4] = 11;
    t.block[U_AT + 4] = 0;
    EXPECT(keeps_back(t.block, BLOCK, 0, 10));
}

/* ---- The block ---- */

static void a_copy_is_the_same_state(void)
{
    station s = at_clock_2();
    uint8_t elsewhere[BLOCK + 2];
    EXPECT(takes(&s, 2, 4, 0));
    memcpy(elsewhere + 1, s.block, BLOCK);
    for (int i = 0; i < 30; i++) {
        heechstjer_tick_answer a = heechstjer_tick_in(s.block, 0, SOFT);
        heechstjer_tick_answer b = heechstjer_tick_in(elsewhere + 1, 0, SOFT);
        EXPECT(same_tick(a, b) && !heechstjer_noted(a) && !heechstjer_noted(b));
        EXPECT(memcmp(elsewhere + 1, s.block, BLOCK) == 0);
    }
}

static void two_blocks_know_nothing_of_each_other(void)
{
    station a = planned(table_a, sizeof table_a), b = planned(empty_table, sizeof empty_table);
    EXPECT(takes(&b, 3, 3, 0));
    EXPECT(ticks(&a, 3, 0, "0 L1 -"));
    EXPECT(ticks(&b, 0, 0, "0 F0 -"));
    EXPECT(ticks(&a, 0, SOFT, "1 S -"));
    EXPECT(ticks(&b, 0, DONE, "1 I F0 done"));
    EXPECT(takes(&a, 2, 4, 0));
    EXPECT(ticks(&a, 0, DONE, "2 F0 - note 13"));
    EXPECT(ticks(&b, 0, 0, "2 I -"));
    EXPECT(ticks(&a, 0, 0, "3 F0 -"));
}

/* ---- The promises, counted from the answers ---- */

/* Random calls on table A, whose rows have these D - M. Every row whose bit was set and not noted is named C times within
 * so many ticks or told done, and never more; every accepted upload as often as its budget within its deadline; the
 * clock counts accepted ticks, those with notes too, tickets count acceptances; done is said only when told. */
static void all_are_in_time(station s, const unsigned in[2])
{
    static const unsigned c[2] = {2, 5};
    enum { CALLS = 20000, UPLOADS = 32 };
    struct { bool live; unsigned due, left; } job[2] = {{false, 0, 0}, {false, 0, 0}}, upload[UPLOADS];
    unsigned now = 0, accepted = 0, offers_refused = 0, ticks_refused = 0, ticks_noted = 0;
    memset(upload, 0, sizeof upload);
    seed = 1;
    for (int call = 0; call < CALLS; call++) {
        if (any_below(4) == 0) {
            unsigned budget = 1 + any_below(4), deadline = budget + any_below(30);
            heechstjer_offer_answer o = heechstjer_offer_in(s.block, (uint16_t)budget, (uint16_t)deadline);
            EXPECT(o.refusal == 0 || o.refusal == 17 || o.refusal == 18);
            offers_refused += o.refusal != 0;
            if (o.refusal == 0) {
                EXPECT(o.ticket == accepted);
                upload[accepted % UPLOADS].live = true;
                upload[accepted % UPLOADS].left = budget;
                upload[accepted % UPLOADS].due = now + deadline;
                accepted++;
            }
            continue;
        }
        unsigned released = any_below(3) == 0 ? any_below(8) : 0, flags = any_below(16) == 0 ? 4 : any_below(4);
        station before = s;
        heechstjer_tick_answer a = heechstjer_tick_in(s.block, (uint16_t)released, (uint8_t)flags);
        EXPECT(well_formed(a));
        if (a.refusal != 0) {
            EXPECT(a.refusal == 20 && same_block(&s, &before));
            ticks_refused++;
            continue;
        }
        ticks_noted += heechstjer_noted(a);
        bool told = (flags & DONE) != 0 && a.none_ran == 0;
        EXPECT(a.clock == now && (a.closing == HEECHSTJER_CLOSING_DONE) == told);
        if (a.closed == HEECHSTJER_CLOSED_HARD) {
            EXPECT(job[a.closed_row - 1].live && (told || job[a.closed_row - 1].left == 0));
            job[a.closed_row - 1].live = false;
        } else if (a.closed == HEECHSTJER_CLOSED_FIRM) {
            unsigned i = a.closed_ticket % UPLOADS;
            EXPECT(upload[i].live && (told || upload[i].left == 0));
            upload[i].live = false;
        }
        for (int row = 0; row < 2; row++)
            if ((released & ~(unsigned)a.not_ready) >> row & 1) {
                EXPECT(!job[row].live);
                job[row].live = true;
                job[row].left = c[row];
                job[row].due = now + in[row];
            }
        if (a.runner == HEECHSTJER_RUNNER_HARD) {
            EXPECT(job[a.runner_row - 1].live && job[a.runner_row - 1].left > 0);
            job[a.runner_row - 1].left--;
        } else if (a.runner == HEECHSTJER_RUNNER_FIRM) {
            EXPECT(upload[a.ticket % UPLOADS].live && upload[a.ticket % UPLOADS].left > 0);
            upload[a.ticket % UPLOADS].left--;
        }
        now++;
        for (int row = 0; row < 2; row++)
            EXPECT(!job[row].live || job[row].left == 0 || now < job[row].due);
        for (int i = 0; i < UPLOADS; i++)
            EXPECT(!upload[i].live || upload[i].left == 0 || now < upload[i].due);
    }
    EXPECT(accepted > 500 && offers_refused > 500 && ticks_refused > 500 && ticks_noted > 5000 && now > 5000);
    EXPECT(guards_stand(&s));
}

static void hard_jobs_and_uploads_are_in_time(void)
{
    static const unsigned d[2] = {6, 12}, less_margin[2] = {5, 7};
    all_are_in_time(planned(table_a, sizeof table_a), d);
    all_are_in_time(planned(table_a_with_margins, sizeof table_a_with_margins), less_margin);
}

/* ---- The run ---- */

static const struct { const char *name; void (*run)(void); } tests[] = {
    {"every refusal and note has the documents' number", refusals_and_notes_have_their_numbers},
    {"the version is that of its three numbers", the_version_is_that_of_its_numbers},
    {"a row's bit is one of 16", a_row_bit_is_one_bit_of_16},
    {"rows written in C are the bytes of a file", rows_in_c_are_the_bytes_of_a_file},
    {"rows with margins written in C are, too", rows_with_margins_in_c_are_the_bytes_of_a_file},
    {"tables of 0, 1 and 16 rows are planned", tables_of_0_1_and_16_rows_are_planned},
    {"planning writes all 512 bytes, by the table alone", planning_writes_all_of_the_block},
    {"the table may be thrown away once planned", the_table_may_be_thrown_away},
    {"refusal 5: a 17th row", refusal_5_for_a_17th_row},
    {"refusal 10: the third row of document 01's figures", refusal_10_for_the_third_row},
    {"refusal 11: a block of 0 bytes", refusal_11_for_0_bytes},
    {"refusal 11: a block of 511 bytes", refusal_11_for_511_bytes},
    {"refusal 11: a block of 513 bytes", refusal_11_for_513_bytes},
    {"refusal 11: a flipped bit in the reserved part", refusal_11_for_a_flipped_bit},
    {"refusal 11: C and M and U above D, or a margin past the table", refusal_11_for_a_margin_too_large},
    {"every flipped bit is judged alike by tick, offer and table", every_flipped_bit_is_judged_once},
    {"NULL is an empty table: refusal 1", null_is_an_empty_table},
    {"NULL is a block of 0 bytes: refusal 11", null_is_a_block_of_0_bytes},
    {"NULL is an output of 0 bytes: refusal 19", null_is_an_output_of_0_bytes},
    {"document 01's listing", the_listing_of_document_01},
    {"note 12: the rows above n, and the others are released", note_12_lists_the_rows_above_n},
    {"note 12: every bit above every n", note_12_for_every_bit_above_n},
    {"note 13: done, and no job ran", note_13_where_no_job_ran},
    {"note 14: until T ticks have passed", note_14_until_t_ticks_have_passed},
    {"note 14: a release that did not happen", a_noted_release_did_not_happen},
    {"note 14: until this very call closes the job", note_14_until_this_call_closes},
    {"notes 12, 13 and 14 in one tick", all_notes_in_one_tick},
    {"refusal 20: every other flag", refusal_20_for_every_other_flag},
    {"refusals 20 and 11 note nothing", a_refused_tick_notes_nothing},
    {"a refused call is as if not made", a_refused_call_was_not_made},
    {"what is noted counts as clear", what_is_noted_counts_as_clear},
    {"the five choices, in order", the_five_choices_in_order},
    {"the smallest promoted row runs", the_smallest_promoted_row_runs},
    {"a margin promotes earlier", a_margin_promotes_earlier},
    {"done and spent", done_and_spent},
    {"an upload is complete only when closed as done", complete_only_when_closed_as_done},
    {"refusal 18: document 01's offers at clock 2", the_offers_at_clock_2},
    {"refusal 18: document 01's offers of the empty table", the_offers_of_the_empty_table},
    {"refusal 18: room to the tick", room_to_the_tick},
    {"refusals 15 and 16", refusals_15_and_16},
    {"refusal 17: eight queued, until the first closes", refusal_17_until_the_first_closes},
    {"tickets start again after 2^32", tickets_start_again_after_2_to_the_32},
    {"the table comes back byte for byte, whatever was called", the_table_comes_back},
    {"the table of a copy is read while the block ticks on", the_table_of_a_copy},
    {"sixteen rows come back in 163 bytes", sixteen_rows_need_163_bytes},
    {"sixteen rows with margins come back in 195 bytes", sixteen_rows_with_margins_need_195_bytes},
    {"rows of both lengths come back, each in its own", rows_of_both_lengths_come_back},
    {"refusal 19: an output up to one byte short", refusal_19_up_to_one_byte_short},
    {"refusal 10: the table of a block that nobody planned", refusal_10_for_a_table_that_nobody_planned},
    {"refusal 22: a margin that nobody planned", refusal_22_for_a_margin_that_nobody_planned},
    {"refusals 10 and 22: row by row", refusals_10_and_22_row_by_row},
    {"a copy of a block is the same state", a_copy_is_the_same_state},
    {"two blocks know nothing of each other", two_blocks_know_nothing_of_each_other},
    {"hard jobs and uploads are in time, counted from the answers", hard_jobs_and_uploads_are_in_time},
};

static int failures;

static void report(const char *name)
{
    if (failed)
        printf("FAILED %s: line %d: %s\n", name, failed_line, failed);
    else
        printf("ok %s\n", name);
    failures += failed != NULL;
    failed = NULL;
}

int main(void)
{
    for (size_t i = 0; i < sizeof plan_cases / sizeof plan_cases[0]; i++) {
        plan_refuses(&plan_cases[i]);
        report(plan_cases[i].name);
    }
    for (size_t i = 0; i < sizeof tests / sizeof tests[0]; i++) {
        tests[i].run();
        report(tests[i].name);
    }
    printf("%d failed\n", failures);
    return failures == 0 ? 0 : 1;
}
