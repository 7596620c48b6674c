/* The library as a C program sees it, asked over pipes: requests on standard input, answers on standard output.
 *
 *     request   function, bytes of the block, bytes of the other thing lent, two arguments; block; other
 *     answer    thirteen fields, whether the bytes around what was lent stand; block and other as the call left them
 *
 * All but block and other are numbers of 64 bits in the machine's order. Each answer of heechstjer.h is copied by the
 * names of its fields, so that the asker depends on no layout and what is compared has gone through the header; fields
 * that an answer has not are 0. The other thing is plan's table, or the output that a table is read back to.
 * Answers are written when no request is left to read, so that several may be asked in one go. */
#define _POSIX_C_SOURCE 200809L
#include "heechstjer.h"
#include <stdio.h>
#include <stdlib.h>
#include <string.h>
#include <unistd.h>

enum { PLAN, TICK, OFFER, TABLE, TICKS };
enum { FIELDS = 13 };

typedef struct request {
    uint64_t function, block_bytes, other_bytes, first, second;
} request;

typedef struct answer {
    uint64_t fields[FIELDS];
    uint64_t stands;
} answer;

static void fail(const char *why)
{
    fprintf(stderr, "shim: %s\n", why);
    exit(1);
}

/* ---- The pipes ---- */

static uint8_t in[1 << 16], out[1 << 16];
static size_t in_from, in_to, out_to;

static void write_out(void)
{
    for (size_t from = 0; from < out_to;) {
        ssize_t bytes = write(STDOUT_FILENO, out + from, out_to - from);
        if (bytes <= 0)
            fail("nobody reads the answers");
        from += (size_t)bytes;
    }
    out_to = 0;
}

static void put(const void *from, size_t bytes)
{
    if (bytes > sizeof out - out_to)
        write_out();
    memcpy(out + out_to, from, bytes);
    out_to += bytes;
}

/* Whether there were as many. */
static bool take(void *to, size_t bytes)
{
    uint8_t *next = to;
    while (bytes > 0) {
        if (in_from == in_to) {
            write_out();
            ssize_t had = read(STDIN_FILENO, in, sizeof in);
            if (had <= 0)
                return false;
            in_from = 0;
            in_to = (size_t)had;
        }
        size_t part = bytes < in_to - in_from ? bytes : in_to - in_from;
        memcpy(next, in + in_from, part);
        next += part;
        in_from += part;
        bytes -= part;
    }
    return true;
}

/* ---- What is lent ---- */

/* It lies between bytes that nobody may write, at an address that is no multiple of anything. */
enum { BEFORE = 13, MOST = 1 << 15, AFTER = 16, GUARD = 0xa5 };

typedef struct lent {
    uint64_t aligned;
    uint8_t room[BEFORE + MOST + AFTER];
} lent;

static lent block, other;

static uint8_t *lend(lent *thing, uint64_t bytes)
{
    if (bytes > MOST)
        fail("more is lent than there is room for");
    memset(thing->room, GUARD, BEFORE);
    memset(thing->room + BEFORE + bytes, GUARD, AFTER);
    if (!take(thing->room + BEFORE, bytes))
        fail("the request is cut");
    return thing->room + BEFORE;
}

static bool are_guards(const uint8_t *from, size_t bytes)
{
    for (size_t i = 0; i < bytes; i++)
        if (from[i] != GUARD)
            return false;
    return true;
}

static bool stands(const lent *thing, size_t bytes)
{
    return are_guards(thing->room, BEFORE) && are_guards(thing->room + BEFORE + bytes, AFTER);
}

/* ---- The calls ---- */

static void plan(const request *asked, uint8_t *to, const uint8_t *table, uint64_t fields[FIELDS])
{
    heechstjer_plan_answer given = heechstjer_plan(to, asked->block_bytes, table, asked->other_bytes);
    fields[0] = given.refusal;
    fields[1] = given.row;
    fields[2] = given.from;
    fields[3] = given.size;
}

static void tick(const request *asked, uint8_t *on, uint64_t fields[FIELDS])
{
    heechstjer_tick_answer given =
        heechstjer_tick(on, asked->block_bytes, (uint16_t)asked->first, (uint8_t)asked->second);
    fields[0] = given.refusal;
    fields[1] = given.unknown;
    fields[2] = given.none_ran;
    fields[3] = given.not_ready;
    fields[4] = given.clock;
    fields[5] = given.runner;
    fields[6] = given.runner_row;
    fields[7] = given.band;
    fields[8] = given.ticket;
    fields[9] = given.closed;
    fields[10] = given.closed_row;
    fields[11] = given.closed_ticket;
    fields[12] = given.closing;
}

static void offer(const request *asked, uint8_t *on, uint64_t fields[FIELDS])
{
    heechstjer_offer_answer given =
        heechstjer_offer(on, asked->block_bytes, (uint16_t)asked->first, (uint16_t)asked->second);
    fields[0] = given.refusal;
    fields[1] = given.ticket;
}

static void table(const request *asked, const uint8_t *of, uint8_t *to, uint64_t fields[FIELDS])
{
    heechstjer_table_answer given = heechstjer_table(of, asked->block_bytes, to, asked->other_bytes);
    fields[0] = given.refusal;
    fields[1] = given.size;
}

/* Ticks that release nothing, the first at the clock `first`, up to `second` of them: how many were accepted, each
 * with a clock one more than the one before and nothing noted. */
static void ticks(const request *asked, uint8_t *on, uint64_t fields[FIELDS])
{
    while (fields[0] < asked->second) {
        heechstjer_tick_answer given = heechstjer_tick(on, asked->block_bytes, 0, 0);
        if (given.refusal != HEECHSTJER_ACCEPTED || given.clock != asked->first + fields[0] || heechstjer_noted(given))
            return;
        fields[0]++;
    }
}

int main(void)
{
    request asked;
    while (take(&asked, sizeof asked)) {
        answer given = {{0}, 0};
        uint8_t *on = lend(&block, asked.block_bytes), *with = lend(&other, asked.other_bytes);
        switch (asked.function) {
        case PLAN: plan(&asked, on, with, given.fields); break;
        case TICK: tick(&asked, on, given.fields); break;
        case OFFER: offer(&asked, on, given.fields); break;
        case TABLE: table(&asked, on, with, given.fields); break;
        case TICKS: ticks(&asked, on, given.fields); break;
        default: fail("no such function");
        }
        given.stands = stands(&block, asked.block_bytes) && stands(&other, asked.other_bytes);
        put(&given, sizeof given);
        put(on, asked.block_bytes);
        put(with, asked.other_bytes);
    }
    return 0;
}
