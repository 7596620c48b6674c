/* kernel.c: a small kernel that asks Heechstjer at every tick who runs.
 *
 * What a port supplies stands in the first half: a block, a table, a tick interrupt, and an offer where a record
 * waits for upload. Three calls, and two rules: an upload is complete only when it closed as done; and what a tick
 * notes is logged, for time has gone on. The second half plays the station: a sampling job, a storing job, a modem
 * whose line is down for one tick, and noise on the lines that say which row is due. Printed is a line a tick and
 * one a note, as `run` prints them, and at the end which upload arrived.
 */
#include <heechstjer.h>
#include <inttypes.h>
#include <stdio.h>
#include <stdlib.h>

enum { SAMPLE = 1, STORE = 2, SAMPLE_PERIOD = 8, STORE_PERIOD = 12 };

/* Document 01's table A, with a margin: the sensor's driver overruns by a tick now and then. */
static const uint8_t table[] = {
    HEECHSTJER_MARGIN_ROW(2, 6, SAMPLE_PERIOD, 0, 1), /* row 1, sample */
    HEECHSTJER_ROW(5, 12, STORE_PERIOD, 1),           /* row 2, store */
    HEECHSTJER_END,
};

enum { RUN_TICKS = 24, RECORD_READY = 2, UPLOAD_BUDGET = 3, UPLOAD_DEADLINE = 8, MOST_OFFERS = 4 };

enum fate { QUEUED, ARRIVED, NOT_ARRIVED };

static uint8_t block[HEECHSTJER_BLOCK_BYTES]; /* the whole state of the dispatcher */
static bool finished;                         /* the job that ran in the last tick has finished its work */
static bool record_waits;                     /* a record is to be uploaded and no offer of it is queued */
static unsigned offers;
static struct { uint32_t ticket; enum fate fate; } upload[MOST_OFFERS];

static void tick_interrupt(unsigned now);
static void offer_record(void);
static void record_closing(heechstjer_tick_answer answer);
static void log_notes(heechstjer_tick_answer answer);
static uint16_t rows_due(unsigned now);
static bool soft_work_waits(unsigned now);
static bool run_for_one_tick(heechstjer_tick_answer answer);
static void print_tick(heechstjer_tick_answer answer);
static void print_note(unsigned number, unsigned bits);
static void print_uploads(void);
static void stop(const char *call, unsigned refusal);

int main(void)
{
    heechstjer_plan_answer plan = heechstjer_plan_in(block, table, sizeof table);
    if (plan.refusal != HEECHSTJER_ACCEPTED)
        stop("plan", plan.refusal);
    for (unsigned now = 0; now < RUN_TICKS; now++) {
        if (now == RECORD_READY)
            record_waits = true;
        offer_record();
        tick_interrupt(now);
    }
    print_uploads();
    return 0;
}

/* The timer's interrupt. On a board `now` is its count and the runner is switched to, not called. */
static void tick_interrupt(unsigned now)
{
    uint8_t flags = 0;
    if (finished)
        flags |= HEECHSTJER_FLAG_DONE;
    if (soft_work_waits(now))
        flags |= HEECHSTJER_FLAG_SOFT;
    heechstjer_tick_answer answer = heechstjer_tick_in(block, rows_due(now), flags);
    if (answer.refusal != HEECHSTJER_ACCEPTED)
        stop("tick", answer.refusal);
    print_tick(answer);
    if (heechstjer_noted(answer))
        log_notes(answer);
    record_closing(answer);
    finished = run_for_one_tick(answer);
}

/* Between ticks; on a board the tick interrupt is held off meanwhile. An offer that is refused changed nothing, and
 * is made again after the next tick. */
static void offer_record(void)
{
    if (!record_waits || offers == MOST_OFFERS)
        return;
    heechstjer_offer_answer answer = heechstjer_offer_in(block, UPLOAD_BUDGET, UPLOAD_DEADLINE);
    if (answer.refusal != HEECHSTJER_ACCEPTED) {
        printf("refused %u\n", answer.refusal);
        return;
    }
    printf("offer F%" PRIu32 "\n", answer.ticket);
    upload[offers].ticket = answer.ticket;
    upload[offers].fate = QUEUED;
    offers++;
    record_waits = false;
}

/* The first rule. Closed as done, the record is there. Closed as spent, its ticks are gone and nobody said that the
 * last byte arrived: it has not, and the record is offered again. */
static void record_closing(heechstjer_tick_answer answer)
{
    if (offers == 0 || !heechstjer_upload_closed(answer, upload[offers - 1].ticket))
        return;
    if (heechstjer_upload_complete(answer, upload[offers - 1].ticket)) {
        upload[offers - 1].fate = ARRIVED;
    } else {
        upload[offers - 1].fate = NOT_ARRIVED;
        record_waits = true;
    }
}

/* The second rule. The tick was stepped without what it noted. A release that is still wanted would be asked for again
 * in a later tick; here it was noise, and nobody wants it. */
static void log_notes(heechstjer_tick_answer answer)
{
    if (answer.unknown != 0)
        print_note(HEECHSTJER_NOTE_UNKNOWN_ROW, answer.unknown);
    if (answer.none_ran != 0)
        print_note(HEECHSTJER_NOTE_NONE_RAN, 0);
    if (answer.not_ready != 0)
        print_note(HEECHSTJER_NOTE_NOT_READY, answer.not_ready);
}

/* ---- The station that is played ---- */

enum { SAMPLE_WORK = 2, STORE_WORK = 4, RECORD_PARTS = 3, LINE_DOWN = 3, NO_ROW = 16 };

static bool noise_on_the_lines(unsigned now)
{
    return now % 9 == 6;
}

/* With noise on the lines also a row that isn't there, and one that is released already: in tick 15 a tick too early. */
static uint16_t rows_due(unsigned now)
{
    uint16_t due = 0;
    if (now % SAMPLE_PERIOD == 0)
        due |= heechstjer_row_bit(SAMPLE);
    if (now % STORE_PERIOD == 0)
        due |= heechstjer_row_bit(STORE);
    if (noise_on_the_lines(now)) {
        due |= heechstjer_row_bit(SAMPLE);
        due |= heechstjer_row_bit(NO_ROW);
    }
    return due;
}

static bool soft_work_waits(unsigned now)
{
    return now % 6 == 1;
}

/* One tick's work more on something that takes `whole` of them; whether that was the last. */
static bool advance(unsigned *done, unsigned whole)
{
    *done = (*done + 1) % whole;
    return *done == 0;
}

/* One part of the record goes out; whether the modem says that the last one arrived. A part that is sent while the line
 * is down is lost. A new upload sends the record from its start. */
static bool send_part(uint32_t ticket, uint32_t now)
{
    static uint32_t sending;
    static unsigned arrived;
    if (ticket != sending)
        arrived = 0;
    sending = ticket;
    return now != LINE_DOWN && advance(&arrived, RECORD_PARTS);
}

/* Whether the runner's job finished its work in this tick. Soft work and idling are no jobs. */
static bool run_for_one_tick(heechstjer_tick_answer answer)
{
    static unsigned sampled, stored;
    if (answer.runner == HEECHSTJER_RUNNER_FIRM)
        return send_part(answer.ticket, answer.clock);
    if (answer.runner == HEECHSTJER_RUNNER_HARD && answer.runner_row == SAMPLE)
        return advance(&sampled, SAMPLE_WORK);
    if (answer.runner == HEECHSTJER_RUNNER_HARD && answer.runner_row == STORE)
        return advance(&stored, STORE_WORK);
    return false;
}

/* ---- What is printed ---- */

static void print_tick(heechstjer_tick_answer answer)
{
    printf("%" PRIu32 " ", answer.clock);
    if (answer.runner == HEECHSTJER_RUNNER_HARD)
        printf("%c%u", answer.band == HEECHSTJER_BAND_UPPER ? 'U' : 'L', answer.runner_row);
    else if (answer.runner == HEECHSTJER_RUNNER_FIRM)
        printf("F%" PRIu32, answer.ticket);
    else
        printf("%c", answer.runner == HEECHSTJER_RUNNER_SOFT ? 'S' : 'I');
    if (answer.closed == HEECHSTJER_CLOSED_HARD)
        printf(" H%u", answer.closed_row);
    else if (answer.closed == HEECHSTJER_CLOSED_FIRM)
        printf(" F%" PRIu32, answer.closed_ticket);
    else
        printf(" -");
    if (answer.closing != HEECHSTJER_CLOSING_NONE)
        printf(" %s", answer.closing == HEECHSTJER_CLOSING_DONE ? "done" : "spent");
    printf("\n");
}

static void print_note(unsigned number, unsigned bits)
{
    printf("note %u", number);
    if (bits != 0)
        printf(" %04x", bits);
    printf("\n");
}

static void print_uploads(void)
{
    static const char *const words[] = {"still queued", "arrived", "not arrived, its ticks were spent"};
    for (unsigned i = 0; i < offers; i++)
        printf("upload F%" PRIu32 ": %s\n", upload[i].ticket, words[upload[i].fate]);
}

static void stop(const char *call, unsigned refusal)
{
    printf("stopped: %s refused %u\n", call, refusal);
    exit(1);
}
