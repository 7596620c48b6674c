/* main.c: one offer, the longest of its kind, for a count of its instructions.
 *
 *     offer typical   document 01's table A, the next 12 ticks
 *     offer planned   the longest on a block that was planned: a row that may claim every tick, the next 65,535
 *     offer image     the longest on any block: sixteen such rows, written where docs/block.md has C, D, T and U
 */
#include <heechstjer.h>
#include <stdio.h>
#include <string.h>

enum { AT_C = 16, AT_D = 48, AT_T = 80, AT_U = 112 };

#define ROW(rank) HEECHSTJER_ROW(1, 16, 16, rank)
#define FOUR_ROWS(rank) ROW(rank), ROW(rank + 1), ROW(rank + 2), ROW(rank + 3)

static const uint8_t table_a[] = {HEECHSTJER_ROW(2, 6, 8, 0), HEECHSTJER_ROW(5, 12, 12, 1), HEECHSTJER_END};
static const uint8_t every_tick[] = {HEECHSTJER_ROW(1, 1, 1, 0), HEECHSTJER_END};
static const uint8_t sixteen_rows[] = {FOUR_ROWS(0), FOUR_ROWS(4), FOUR_ROWS(8), FOUR_ROWS(12), HEECHSTJER_END};

static uint8_t block[HEECHSTJER_BLOCK_BYTES];

/* Whether the offer on this table is answered with this number. */
static bool offers(const uint8_t *table, size_t table_bytes, bool claim_all, uint16_t deadline, unsigned number)
{
    if (heechstjer_plan_in(block, table, table_bytes).refusal != HEECHSTJER_ACCEPTED)
        return false;
    for (int row = 0; claim_all && row < HEECHSTJER_MOST_ROWS; row++) {
        block[AT_C + 2 * row] = block[AT_D + 2 * row] = block[AT_T + 2 * row] = 1;
        block[AT_U + 2 * row] = 0;
    }
    return heechstjer_offer_in(block, 1, deadline).refusal == number;
}

int main(int count, char **words)
{
    bool answered = false;
    if (count == 2 && strcmp(words[1], "typical") == 0)
        answered = offers(table_a, sizeof table_a, false, 12, HEECHSTJER_ACCEPTED);
    else if (count == 2 && strcmp(words[1], "planned") == 0)
        answered = offers(every_tick, sizeof every_tick, false, 65535, HEECHSTJER_REFUSED_ROOM_SHORT);
    else if (count == 2 && strcmp(words[1], "image") == 0)
        answered = offers(sixteen_rows, sizeof sixteen_rows, true, 65535, HEECHSTJER_REFUSED_ROOM_SHORT);
    if (!answered)
        puts("offer: not answered as it should be");
    return answered ? 0 : 1;
}
