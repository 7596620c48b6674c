/* heechstjer.h: who runs, tick by tick. The C interface of the Heechstjer dispatcher.
 *
 * A kernel plans a hard table into a block of 512 bytes, then asks at every tick who runs, and between
 * ticks offers uploads; it can read the table back. Four functions, each with one answer, a struct by value.
 * "Document 01" is the rules paper, "document 02" what was asked for after it; C, D, T, M, R, U, n, rank, B and d
 * are their letters: ticks of work, deadline, period, margin, response bound, promotion time, number of rows, place
 * in the lower band, an upload's budget and its deadline. Rows count from 1.
 *
 * Of every function below:
 *
 * - Nothing is allocated, nothing is global, nothing lent is kept. Table, block and output are the caller's
 *   before, during and after the call; a table may be thrown away once it is planned.
 * - The block comes first. A pointer is followed by the number of bytes it points to, and may be NULL where that is 0.
 *   Table and block do not overlap, nor do block and output. A block needs no alignment.
 * - The first check that fails, in the order given, is the refusal. Its number stands in the field `refusal`,
 *   where 0 says accepted.
 * - A refusal writes nothing: every byte of block and output is as before the call, and the next call is answered
 *   as if the refused one had not been made. Every field of the answer that the refusal isn't said to give is 0.
 *   What a tick notes (12, 13, 14) is no refusal: such a tick is accepted.
 * - An answer may have padding, whose bytes say nothing: compare fields, not bytes.
 * - The answer and the bytes written depend on the arguments and the block's bytes alone. So a copy of a
 *   block, at any address, is the same state; and two blocks know nothing of each other.
 * - What is said of being in time holds for a block that only these functions have written since it was planned.
 * - Threads: calls on different blocks may run at the same time, calls on one block may not. Where an interrupt
 *   makes the ticks, hold it off while you make an offer on its block. Reading the table back takes as long as
 *   planning: hold the interrupt off while you copy the block's 512 bytes, and read the copy.
 *
 * A tick may be made in an interrupt handler. The code is for x86-64 and the System V convention, and
 *
 * - changes what that convention lets a function change, so save it: rax, rcx, rdx, rsi, rdi, r8 to r11, the flags,
 *   xmm0 to xmm15, the flags of mxcsr. It uses no wider vector register and no x87 or MMX register;
 * - wants every exception of mxcsr masked, as 0x1f80 has it;
 * - keeps nothing below the stack pointer: the red zone, the 128 bytes there, is free for an interrupt's frame;
 * - takes at most HEECHSTJER_STACK_BYTES of stack, return address included, beside what memcpy and memset take;
 * - needs memcpy and memset from you or your compiler's library, and no other symbol.
 *
 * The header needs C99 or C++11 and no library: its three includes are there on a board without one.
 */
#ifndef HEECHSTJER_H
#define HEECHSTJER_H

#include <stdbool.h>
#include <stddef.h>
#include <stdint.h>

#ifdef __cplusplus
extern "C" {
#endif

/* The version of header and library, which `pkg-config --modversion heechstjer` gives too. */
#define HEECHSTJER_VERSION "0.3.0"
#define HEECHSTJER_VERSION_MAJOR 0
#define HEECHSTJER_VERSION_MINOR 3
#define HEECHSTJER_VERSION_PATCH 0

/* Sizes. */
#define HEECHSTJER_BLOCK_BYTES 512 /* the state block, never more or fewer */
#define HEECHSTJER_MOST_ROWS 16    /* a table has 0 to 16 rows */
#define HEECHSTJER_MOST_UPLOADS 8  /* firm jobs queued at one time */
#define HEECHSTJER_ROW_BYTES 10    /* a row in a table file: 01 00 07, C, D, T (2 bytes each), rank (1), big-endian */
#define HEECHSTJER_MARGIN_ROW_BYTES 12 /* a row with a margin: 02 00 09, C, D, T, rank, M (2 bytes), big-endian */
#define HEECHSTJER_END_BYTES 3     /* the end field of a table file: 0f 00 00, required and last */
#define HEECHSTJER_MOST_TABLE_BYTES 195 /* the longest table that is accepted: 16 rows with margins and the end field */
#define HEECHSTJER_STACK_BYTES 2048 /* the stack that a call takes, at most */

/* A table written in C, its rows in order and then the end:
 *     static const uint8_t table[] = {
 *         HEECHSTJER_ROW(2, 6, 8, 0), HEECHSTJER_MARGIN_ROW(5, 12, 12, 1, 3), HEECHSTJER_END};
 * They are the bytes of the fields. C, D, T, rank and M are constants of an integer type; one that is below 0 or does
 * not fit its field (65,535, and 255 for rank) does not compile. M is ticks to spare before D, for a driver that takes
 * a little longer now and then; a row without it is HEECHSTJER_ROW, for M = 0 is refused (21).
 */
#define HEECHSTJER_ROW(C, D, T, rank) 0x01, 0x00, 0x07, HEECHSTJER_NUMBERS(C, D, T, rank)
#define HEECHSTJER_MARGIN_ROW(C, D, T, rank, M) \
    0x02, 0x00, 0x09, HEECHSTJER_NUMBERS(C, D, T, rank), HEECHSTJER_TWO_BYTES(M)
#define HEECHSTJER_END 0x0f, 0x00, 0x00

/* Of the two: the numbers that both have; a number big-endian; and 1 for a number within the ones, else an array of -1
 * bytes, an error.
 */
#define HEECHSTJER_NUMBERS(C, D, T, rank) \
    HEECHSTJER_TWO_BYTES(C), HEECHSTJER_TWO_BYTES(D), HEECHSTJER_TWO_BYTES(T), HEECHSTJER_FITS(rank, 0xff) * (rank)
#define HEECHSTJER_TWO_BYTES(x) HEECHSTJER_FITS(x, 0xffff) * ((x) >> 8), (x) & 0xff
#define HEECHSTJER_FITS(x, ones) sizeof(char[(x) == ((x) & (ones)) ? 1 : -1])

/* Refusals, by the documents' numbers. */
enum heechstjer_refusal {
    HEECHSTJER_ACCEPTED = 0,
    HEECHSTJER_REFUSED_CUT = 1,           /* table: fewer than 3 bytes where a field must start, or its value is cut */
    HEECHSTJER_REFUSED_UNKNOWN_TAG = 2,   /* table: a tag other than 01, 02 and 0f */
    HEECHSTJER_REFUSED_WRONG_LENGTH = 3,  /* table: a length other than 7 for tag 01, 9 for 02, 0 for 0f */
    HEECHSTJER_REFUSED_AFTER_END = 4,     /* table: bytes after the end field */
    HEECHSTJER_REFUSED_ROW_17 = 5,        /* table: a 17th row */
    HEECHSTJER_REFUSED_C_ZERO = 6,        /* row: C = 0 */
    HEECHSTJER_REFUSED_C_OVER_D = 7,      /* row: C > D */
    HEECHSTJER_REFUSED_D_OVER_T = 8,      /* row: D > T */
    HEECHSTJER_REFUSED_BAD_RANK = 9,      /* row: rank >= n, or used by an earlier row */
    HEECHSTJER_REFUSED_PASSES_D = 10,     /* row: the iteration of its response bound passes D */
    HEECHSTJER_REFUSED_NOT_IMAGE = 11,    /* block: not 512 bytes, or not the image of a state */
    HEECHSTJER_REFUSED_B_ZERO = 15,       /* offer: B = 0 */
    HEECHSTJER_REFUSED_D_UNDER_B = 16,    /* offer: d < B */
    HEECHSTJER_REFUSED_QUEUE_FULL = 17,   /* offer: 8 firm jobs are queued */
    HEECHSTJER_REFUSED_ROOM_SHORT = 18,   /* offer: the hard rows and the queue leave fewer than B of d ticks */
    HEECHSTJER_REFUSED_SMALL_OUTPUT = 19, /* table read back: the output is too small */
    HEECHSTJER_REFUSED_UNKNOWN_FLAG = 20, /* tick: a flag bit other than done and soft */
    HEECHSTJER_REFUSED_M_ZERO = 21,       /* row: tag 02 with M = 0 */
    HEECHSTJER_REFUSED_R_M_OVER_D = 22    /* row: R + M > D, the bound leaves no room for the margin */
};

/* What an accepted tick may note, by the documents' numbers. A note is no refusal. */
enum heechstjer_note {
    HEECHSTJER_NOTE_UNKNOWN_ROW = 12, /* release bits of rows above n */
    HEECHSTJER_NOTE_NONE_RAN = 13,    /* done, and the last accepted tick ran no hard or firm job */
    HEECHSTJER_NOTE_NOT_READY = 14    /* release bits of rows that aren't rested, or whose job is still open */
};

/* The flags of a tick, one number. */
enum heechstjer_flag {
    HEECHSTJER_FLAG_DONE = 1, /* the job that the last accepted tick ran has finished */
    HEECHSTJER_FLAG_SOFT = 2  /* soft work wants this tick */
};

/* Who runs. */
enum heechstjer_runner {
    HEECHSTJER_RUNNER_NONE = 0, /* only where the tick is refused */
    HEECHSTJER_RUNNER_HARD = 1, /* the job of a row */
    HEECHSTJER_RUNNER_FIRM = 2, /* an accepted upload */
    HEECHSTJER_RUNNER_SOFT = 3,
    HEECHSTJER_RUNNER_IDLE = 4
};

/* The band of a hard runner. */
enum heechstjer_band {
    HEECHSTJER_BAND_NONE = 0,  /* the runner isn't hard */
    HEECHSTJER_BAND_UPPER = 1, /* promoted: U or more ticks have passed since its release */
    HEECHSTJER_BAND_LOWER = 2  /* not promoted yet: it runs where no firm or soft work wants the tick */
};

/* What kind of job closed. */
enum heechstjer_closed {
    HEECHSTJER_CLOSED_NOTHING = 0,
    HEECHSTJER_CLOSED_HARD = 1,
    HEECHSTJER_CLOSED_FIRM = 2
};

/* How it closed. */
enum heechstjer_closing {
    HEECHSTJER_CLOSING_NONE = 0,
    HEECHSTJER_CLOSING_DONE = 1, /* the done flag said so */
    HEECHSTJER_CLOSING_SPENT = 2 /* its C or budget is run and nobody said done: an upload is then NOT complete */
};

/* The answer of planning. */
typedef struct heechstjer_plan_answer {
    size_t from;     /* refusals 1 to 10, 21, 22: where the offending bytes start in the table, else 0 */
    size_t size;     /* refusals 1 to 10, 21, 22: how many they are, else 0 */
    uint8_t refusal; /* 0, 1 to 11, 21 or 22 */
    uint8_t row;     /* refusals 6 to 10, 21, 22: the row, 1 to 16, else 0 */
} heechstjer_plan_answer;

/* The answer of a tick. */
typedef struct heechstjer_tick_answer {
    uint32_t clock;         /* this tick: the accepted ticks before it since planning, modulo 2^32; 0 if refused */
    uint32_t ticket;        /* the ticket of the runner, if firm, else 0 */
    uint32_t closed_ticket; /* the ticket of the job that closed, if firm, else 0 */
    uint16_t unknown;       /* note 12: the release bits of rows above n, else 0 */
    uint16_t not_ready;     /* note 14: the release bits of rows that could not be released, else 0 */
    uint8_t refusal;        /* 0, 11 or 20 */
    uint8_t none_ran;       /* note 13: 1 if done was said and no job had run, else 0 */
    uint8_t runner;         /* enum heechstjer_runner: 1 to 4 if accepted, 0 if refused */
    uint8_t runner_row;     /* the row of the runner, 1 to 16, if hard, else 0 */
    uint8_t band;           /* enum heechstjer_band: 1 or 2 if the runner is hard, else 0 */
    uint8_t closed;         /* enum heechstjer_closed: 0 if no job closed */
    uint8_t closed_row;     /* the row of the job that closed, 1 to 16, if hard, else 0 */
    uint8_t closing;        /* enum heechstjer_closing: 0 if no job closed */
} heechstjer_tick_answer;

/* The answer of an offer. A ticket is a number from 0 on: see `refusal` first. */
typedef struct heechstjer_offer_answer {
    uint32_t ticket; /* accepted: the acceptances before it since planning, modulo 2^32; 0 if refused */
    uint8_t refusal; /* 0, 11, or 15 to 18 */
} heechstjer_offer_answer;

/* The answer of reading the table back. */
typedef struct heechstjer_table_answer {
    size_t size;     /* accepted: how many bytes were written; 0 if refused */
    uint8_t refusal; /* 0, 10, 11, 19 or 22 */
} heechstjer_table_answer;

/* Plans the table of a file into a block, and makes it a fresh state.
 *
 * Accepted: refusal, row, from and size are 0 and all 512 bytes of the block are written. They depend on the
 * table alone, not on what the block held. The clock is 0, every row is rested, no job is open or queued,
 * and the first ticket will be 0.
 *
 * Checks, in this order:
 *   11       block_bytes is not 512. The block's content is not looked at. from and size are 0.
 *   1 2 3 5  at each field in turn: fewer than 3 bytes left (1), tag (2), length (3), a 17th row (5), then
 *            value cut (1). from is the field's start. size is 3 for 2, 3 and 5; for 1 it reaches to the
 *            end of the table and may be 0. A table of 0 bytes is refused with 1; that of 0 rows is 0f 00 00.
 *   4        bytes after the end field: from is the first of them, size is all of them.
 *   6 7 8 9  in each row in turn, then 21 in that row. row is the row, from the start of its field, size all of it:
 *            10, or 12 for tag 02.
 *   10 22    then again in each row in turn, 10 before 22. row, from and size as for 6 to 9.
 * The shown bytes lie in the table: from + size <= table_bytes. They are table[from] and on; no copy is made.
 */
heechstjer_plan_answer heechstjer_plan(uint8_t *block, size_t block_bytes, const uint8_t *table, size_t table_bytes);

/* Steps one tick. Bit 0 of released releases row 1, bit 15 row 16. flags is HEECHSTJER_FLAG_DONE,
 * HEECHSTJER_FLAG_SOFT, both or 0.
 *
 * Accepted: refusal is 0, and in this order
 *   closed   the job that the last accepted tick ran closes: as done if the done flag is set, else as spent if it
 *            has run its whole C or budget, else not at all. No other job closes. closed, closed_row or
 *            closed_ticket, and closing say so. Without the done flag, closing is never done.
 *   released each set bit that is not noted opens a job of that row.
 *   chosen   the first that exists: the promoted job of the smallest row; the upload accepted first; soft work,
 *            if its flag is set; the unpromoted job of the smallest rank; idle. A job is promoted from U
 *            ticks after its release on, that tick included. runner, with runner_row and band or ticket, says who.
 *   run      the runner has this tick; the clock advances by one.
 * The block is written back. A row that is released and not reported done is named C times in the D - M ticks from
 * its release on, whatever else is called, and never more than C times from one release to the next. The M ticks from
 * there to D are to spare.
 *
 * Noted: bits and a flag that can't be, each of them listed. They count as clear, and the tick is stepped.
 *   12  unknown has the set bits of rows above n.
 *   13  none_ran is 1 where the done flag is set, and the last accepted tick ran soft work or nothing, or there was
 *       none since planning. Refused ticks and offers in between don't count.
 *   14  not_ready has the set bits of rows 1 to n that were released fewer than T accepted ticks ago, or have a job
 *       open which this call doesn't close.
 * Time has gone on, so don't make the call again: log what was noted, and go on. A release that was noted did not
 * happen: who still wants it sets the bit again in a later tick. The promise above is about releases whose bit was
 * set and not noted, and its D - M ticks are accepted ones, with or without notes.
 *
 * Checks, in this order:
 *   20  a flag bit other than done and soft.
 *   11  block_bytes is not 512, or the block's bytes are not the image of a state.
 * Refused: the clock stands still, nothing closes, nothing is released, nobody runs, nothing is noted.
 */
heechstjer_tick_answer heechstjer_tick(uint8_t *block, size_t block_bytes, uint16_t released, uint8_t flags);

/* Offers an upload: budget ticks of work, to be had in the next deadline ticks. Made between ticks.
 *
 * Accepted: refusal is 0, ticket names the upload, and it is the last in the queue. Unless it is reported done
 * before, it is named budget times in the next deadline accepted ticks, whatever else is called, and never more
 * until its ticket is given again, 2^32 acceptances later. It is complete only when a tick's answer closes it as
 * done. It keeps its place in the queue until it closes.
 *
 * Checks, in this order:
 *   11  block_bytes is not 512, or the block's bytes are not the image of a state.
 *   15  budget is 0.
 *   16  deadline is below budget.
 *   17  8 uploads are queued.
 *   18  room is short: of the next deadline ticks, those that hard rows may claim and those that the queued uploads
 *       still have to run leave fewer than budget (document 01, "The upload offer").
 * Refused: ticket is 0, and that is no ticket. The clock doesn't move in either case.
 *
 * For 18 it adds a term for each job that a row may release in the window, so its time grows with deadline: up to
 * deadline + 16 terms on a block that was planned, up to 16 times deadline on any other.
 */
heechstjer_offer_answer heechstjer_offer(uint8_t *block, size_t block_bytes, uint16_t budget, uint16_t deadline);

/* Reads the table of a block back: writes it as its file to the front of out. The block is not written.
 *
 * Accepted: refusal is 0, and the first size bytes of out are the table's file: 10 for each row, 12 where it has a
 * margin, 3 for the end field. The bytes of out after them stay. Of a block that only these functions have written
 * since it was planned, it is the file that was planned, byte for byte, whatever has been called since.
 *
 * Checks, in this order:
 *   11  block_bytes is not 512, or the block's bytes are not the image of a state.
 *   10  in each row in turn: the iteration passes D (10), then R + M > D (22). Tick and offer don't look at
 *   22  this, so it may be met with a block that something else has written. Document 01's writer asks 5 to 9
 *       before it, and every image passes them.
 *   19  out_bytes is below the file's length. HEECHSTJER_MOST_TABLE_BYTES is always enough.
 * Refused: size is 0.
 */
heechstjer_table_answer heechstjer_table(const uint8_t *block, size_t block_bytes, uint8_t *out, size_t out_bytes);

/* The same four on a block of the right size, which the caller declares as
 *     uint8_t block[HEECHSTJER_BLOCK_BYTES];
 * gcc warns of a smaller one. 11 is then given only for its content.
 */
static inline heechstjer_plan_answer
heechstjer_plan_in(uint8_t block[HEECHSTJER_BLOCK_BYTES], const uint8_t *table, size_t table_bytes)
{
    return heechstjer_plan(block, HEECHSTJER_BLOCK_BYTES, table, table_bytes);
}

static inline heechstjer_tick_answer
heechstjer_tick_in(uint8_t block[HEECHSTJER_BLOCK_BYTES], uint16_t released, uint8_t flags)
{
    return heechstjer_tick(block, HEECHSTJER_BLOCK_BYTES, released, flags);
}

static inline heechstjer_offer_answer
heechstjer_offer_in(uint8_t block[HEECHSTJER_BLOCK_BYTES], uint16_t budget, uint16_t deadline)
{
    return heechstjer_offer(block, HEECHSTJER_BLOCK_BYTES, budget, deadline);
}

static inline heechstjer_table_answer
heechstjer_table_in(const uint8_t block[HEECHSTJER_BLOCK_BYTES], uint8_t *out, size_t out_bytes)
{
    return heechstjer_table(block, HEECHSTJER_BLOCK_BYTES, out, out_bytes);
}

/* The release bit of a row: bit row - 1 for 1 to 16, no bit for any other number. */
static inline uint16_t heechstjer_row_bit(unsigned row)
{
    const unsigned bit = row >= 1 && row <= HEECHSTJER_MOST_ROWS ? 1u << (row - 1) : 0u;
    return bit & 0xffffu;
}

/* Whether anything was noted in this tick. */
static inline bool heechstjer_noted(heechstjer_tick_answer answer)
{
    return answer.unknown != 0 || answer.none_ran != 0 || answer.not_ready != 0;
}

/* Whether this tick closed the upload of this ticket, done or spent. */
static inline bool heechstjer_upload_closed(heechstjer_tick_answer answer, uint32_t ticket)
{
    return answer.closed == HEECHSTJER_CLOSED_FIRM && answer.closed_ticket == ticket;
}

/* Whether this tick closed it as done. Only then is the upload complete. */
static inline bool heechstjer_upload_complete(heechstjer_tick_answer answer, uint32_t ticket)
{
    return heechstjer_upload_closed(answer, ticket) && answer.closing == HEECHSTJER_CLOSING_DONE;
}

#ifdef __cplusplus
}
#endif

#endif
