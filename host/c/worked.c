/* Document 01's worked run from C, the other calls, the fence, the timer, a bench, steps back, and buffers of length 0 that come as null pointers.
 * Prints the runner's eight lines; worked.txt holds what they must be. */
#include <inttypes.h>
#include <stdio.h>
#include <stdlib.h>
#include <string.h>

#include "z33.h"

enum { CELLS = 2048, QUEUE = 256, OUTPUT = 4096, ROW = Z33_ROW_LENGTH, BUDGET = 100000, NUMBERS = Z33_CELL_LENGTH * CELLS };

static int64_t cells[NUMBERS];
static uint8_t queue[QUEUE];
static uint8_t output[OUTPUT];
static int64_t row[ROW];

static void due(int met, const char *what) {
    if (!met) {
        fprintf(stderr, "worked.c: %s\n", what);
        exit(1);
    }
}

static void is_done(z33_done done, const char *what) {
    due(done.refusal == 0 && done.place == 0, what);
}

/* start,0,0,0 and the two cells: add 5 to a, reset. */
static void start(void) {
    static const int64_t image[] = {202, 5, 0, 20702, 0, 0};
    is_done(z33_fresh(cells, NUMBERS, row, ROW), "fresh was refused");
    is_done(z33_load(cells, NUMBERS, image, 6, 0), "load was refused");
    is_done(z33_set_register(row, ROW, Z33_PC, 0), "pc was refused");
    is_done(z33_set_register(row, ROW, Z33_SP, 0), "sp was refused");
}

static void worked_run(void) {
    start();
    z33_ran ran = z33_run(cells, NUMBERS, queue, QUEUE, output, OUTPUT, row, ROW, BUDGET);
    due(ran.refusal == 0 && ran.place == 0, "run was refused");
    printf("stop,%" PRIu64 ",%" PRIu64 "\n", ran.stop, ran.detail);
    printf("steps,%" PRIu64 "\n", ran.steps);
    printf("cycles,%" PRId64 "\n", row[Z33_ROW_CYCLES]);
    printf("regs,%" PRId64 ",%" PRId64 ",%" PRId64 "\n", row[Z33_ROW_PC], row[Z33_ROW_SP], row[Z33_ROW_SR]);
    printf("a,%" PRId64 ",%" PRId64 ",%" PRId64 "\n", row[Z33_ROW_A], row[Z33_ROW_A + Z33_FIRST], row[Z33_ROW_A + Z33_SECOND]);
    printf("b,%" PRId64 ",%" PRId64 ",%" PRId64 "\n", row[Z33_ROW_B], row[Z33_ROW_B + Z33_FIRST], row[Z33_ROW_B + Z33_SECOND]);
    printf("out,%" PRId64 "\n", row[Z33_ROW_OUTPUT_COUNT]);
    printf("empty,%" PRIu64 "\n", ran.empty);
}

/* The other calls once each: a byte in, a cell out, an exception without handler, nothing to drain. */
static void other_calls(void) {
    static const uint8_t bytes[] = {65};
    start();
    is_done(z33_deliver(queue, QUEUE, row, ROW, bytes, 1), "deliver was refused");
    due(queue[0] == 65 && row[Z33_ROW_QUEUE_COUNT] == 1, "the byte is not in the queue");
    z33_cell cell = z33_read_cell(cells, NUMBERS, 1);
    due(cell.refusal == 0 && cell.tag == 20702 && cell.first == 0 && cell.second == 0, "cell 1 is not the reset");
    z33_raised raised = z33_raise(cells, NUMBERS, row, ROW, Z33_TRAP);
    due(raised.refusal == 0 && raised.stop == Z33_STOP_NO_HANDLER && raised.detail == Z33_TRAP, "raise found a handler");
    uint8_t buffer[1] = {7};
    z33_drained drained = z33_drain(output, OUTPUT, row, ROW, buffer, 1);
    due(drained.refusal == 0 && drained.count == 0 && buffer[0] == 7, "drain gave something");
    int64_t made[6];
    z33_counted counted = z33_exercise(made, 6, 0);
    due(counted.refusal == 0 && counted.count == 2 && made[0] == 2572 && made[1] == 14370 && made[3] == 17602,
        "the exercise load of seed 0 is another");
    is_done(z33_load(cells, 3 * CELLS, made, 6, 0), "the exercise load was refused");
    due(z33_exercise(made, 5, 0).refusal == 9, "five numbers were taken for cells");
}

/* On 2^32 steps, whose lower 32 bits are 0, and on as many as there can be. */
static void long_budgets(void) {
    static const uint64_t budgets[] = {UINT64_C(1) << 32, UINT64_MAX};
    for (int i = 0; i < 2; i++) {
        start();
        z33_ran ran = z33_run(cells, NUMBERS, queue, QUEUE, output, OUTPUT, row, ROW, budgets[i]);
        due(ran.refusal == 0 && ran.stop == Z33_STOP_RESET && ran.steps == 1, "a budget of more than 32 bits");
    }
}

/* A store by a step begun in user mode, below the fence and on it; and a fence that is none. */
static void fence(void) {
    static const int64_t image[] = {25577, 0, 300}; /* st %a,[300] */
    start();
    is_done(z33_load(cells, NUMBERS, image, 3, 0), "the store was refused");
    row[Z33_ROW_FENCE] = 301;
    z33_ran ran = z33_run(cells, NUMBERS, queue, QUEUE, output, OUTPUT, row, ROW, 1);
    due(ran.refusal == 0 && ran.stop == Z33_STOP_NO_HANDLER && ran.detail == Z33_INVALID_MEMORY_ACCESS, "a store below the fence");
    due(cells[3 * 300] == Z33_TAG_EMPTY && row[Z33_ROW_FENCE] == 301, "the cell below the fence, or the fence, has changed");
    is_done(z33_set_register(row, ROW, Z33_PC, 0), "pc was refused");
    row[Z33_ROW_FENCE] = 300;
    ran = z33_run(cells, NUMBERS, queue, QUEUE, output, OUTPUT, row, ROW, 1);
    due(ran.refusal == 0 && ran.steps == 1 && cells[3 * 300] == Z33_TAG_WORD, "a store on the fence");
    row[Z33_ROW_FENCE] = CELLS + 1;
    ran = z33_run(cells, NUMBERS, queue, QUEUE, output, OUTPUT, row, ROW, 1);
    due(ran.refusal == Z33_REFUSAL_ROW && ran.place == Z33_ROW_FENCE + 1, "a fence behind the cells");
    due(z33_set_register(row, ROW, Z33_A, 1).refusal == 0, "where the cells are not lent there are 10,000");
    row[Z33_ROW_FENCE] = Z33_CELLS_MOST + 1;
    due(z33_set_register(row, ROW, Z33_A, 1).place == Z33_ROW_FENCE + 1, "a fence behind the last cell that there can be");
}

/* The kernel turns the timer on, and a loop in user mode is interrupted; and what remains is no more than the interval. */
static void timer(void) {
    static const int64_t image[] = {18227, 3, 120, 6452, 1, 0}; /* out 3,[120]; jmp 1 */
    static const int64_t nop[] = {15302, 0, 0};
    start();
    is_done(z33_load(cells, NUMBERS, image, 6, 0), "the loop was refused");
    is_done(z33_load(cells, NUMBERS, nop, 3, Z33_INTERRUPT_HANDLER), "the handler was refused");
    row[Z33_ROW_SR] = Z33_SR_SUPERVISOR;
    z33_ran ran = z33_run(cells, NUMBERS, queue, QUEUE, output, OUTPUT, row, ROW, 1);
    due(ran.steps == 1 && row[Z33_ROW_TIMER_INTERVAL] == 3 && row[Z33_ROW_TIMER_REMAINING] == 3, "port 120 was written");
    row[Z33_ROW_SR] = Z33_SR_INTERRUPT_ENABLE;
    ran = z33_run(cells, NUMBERS, queue, QUEUE, output, OUTPUT, row, ROW, 3);
    due(ran.steps == 3 && row[Z33_ROW_PC] == Z33_INTERRUPT_HANDLER && row[Z33_ROW_TIMER_MARK] == 0, "the loop was not interrupted");
    due(cells[3 * Z33_INTERRUPT_EXCEPTION + Z33_FIRST] == Z33_HARDWARE_INTERRUPT && row[Z33_ROW_TIMER_REMAINING] == 3, "it did not start afresh");
    row[Z33_ROW_TIMER_REMAINING] = 4;
    due(z33_set_register(row, ROW, Z33_A, 1).place == Z33_ROW_TIMER_REMAINING + 1, "more remains than there is");
}

/* The worked run's two cells, written as text. */
static void as_text(void) {
    static const char text[] = "add 5, %a\nreset\n";
    int64_t image[9] = {7, 7, 7, 7, 7, 7, 7, 7, 7};
    z33_counted counted = z33_assemble((const uint8_t *)text, sizeof text - 1, image, 9);
    due(counted.refusal == 0 && counted.place == 0 && counted.count == 2, "the text was refused");
    due(image[0] == 202 && image[1] == 5 && image[2] == 0, "the first line is not add 5, %a");
    due(image[3] == 20702 && image[4] == 0 && image[5] == 0, "the second line is not reset");
    due(image[6] == 7 && image[7] == 7 && image[8] == 7, "the room behind has changed");
    counted = z33_assemble((const uint8_t *)text, sizeof text - 1, image, 3);
    due(counted.refusal == Z33_REFUSAL_TEXT && counted.place == 2 && counted.count == 0 && image[0] == 202, "one cell for two lines");
    due(z33_assemble(NULL, 0, NULL, 0).refusal == 0, "nothing into nothing");
    uint8_t listed[sizeof text];
    memset(listed, 7, sizeof listed);
    counted = z33_list(image, 6, listed, sizeof listed, 0);
    due(counted.refusal == 0 && counted.place == 0 && counted.count == sizeof text - 1, "the image was not listed");
    due(memcmp(listed, text, sizeof text - 1) == 0 && listed[sizeof text - 1] == 7, "the listing is another text, or the room behind has changed");
    due(z33_list(image, 6, listed, sizeof text - 2, 0).refusal == Z33_REFUSAL_TEXT_ROOM, "a buffer one byte short");
    due(z33_list(NULL, 0, NULL, 0, 0).refusal == 0, "nothing listed into nothing");
}

/* Two seats, one that loops and one that stops at once; then a cell of the second that is damaged. */
static void bench(void) {
    enum { SEATS = 2, PART = Z33_CELL_LENGTH * Z33_CELLS_LEAST };
    static const int64_t jump[] = {6452, 0, 0}, reset[] = {20702, 0, 0};
    static int64_t parts[SEATS * PART], rows[SEATS * ROW];
    static uint8_t queues[SEATS * Z33_QUEUE_LEAST];
    z33_seat list[SEATS] = {{250, 0, 0}, z33_take_over(1000, 7, 0)};
    for (int i = 0; i < SEATS; i++) {
        is_done(z33_fresh(parts + i * PART, PART, rows + i * ROW, ROW), "a seat was refused");
        is_done(z33_load(parts + i * PART, PART, i == 0 ? jump : reset, 3, 0), "a seat's program was refused");
    }
    z33_benched benched = z33_bench(list, SEATS, parts, SEATS * PART, queues, sizeof queues, NULL, 0, rows, SEATS * ROW, SEATS, 120);
    due(benched.refusal == 0 && benched.place == 0 && benched.seat == 0 && benched.left == 0, "a total of 120 was not spent");
    due(list[0].limit == 250 && list[0].used == 120 && list[0].stop == Z33_STOP_BUDGET_SPENT, "the first seat has not two turns, of 100 and 20");
    due(list[1].limit == 1000 && list[1].used == 7 && list[1].stop == Z33_STOP_RESET, "the second seat has not stopped by reset");
    due(rows[Z33_ROW_CYCLES] == 120 && rows[ROW + Z33_ROW_CYCLES] == 0, "the rows are not those of 120 steps and of none");
    benched = z33_bench(list, SEATS, parts, SEATS * PART, queues, sizeof queues, NULL, 0, rows, SEATS * ROW, SEATS, 1000);
    due(benched.refusal == 0 && benched.left == 870 && list[0].used == 250, "the first seat has not come to its limit");
    parts[PART + 3 * 9] = -1;
    benched = z33_bench(list, SEATS, parts, SEATS * PART, queues, sizeof queues, NULL, 0, rows, SEATS * ROW, SEATS, 0);
    due(benched.refusal == Z33_REFUSAL_DAMAGED_CELL && benched.place == 9 && benched.seat == 2 && benched.left == 0, "a damaged cell of seat 2");
    benched = z33_bench(list, SEATS, parts, SEATS * PART, queues, 1, NULL, 0, rows, SEATS * ROW, SEATS, 0);
    due(benched.refusal == Z33_REFUSAL_SEATS && benched.place == 0 && benched.seat == 0, "one byte for two queues");
}

/* Two steps with a journal and back again; what empties it, and what it is refused for. */
static void step_back(void) {
    enum { RECORDS = 3, LENGTH = Z33_JOURNAL_LENGTH(RECORDS) };
    static int64_t journal[LENGTH], before[ROW];
    static const int64_t image[] = {25577, 0, 300, 19952, 7, 0}; /* st %a,[300]; push 7 */
    memset(journal, 7, sizeof journal);
    is_done(z33_fresh_journal(cells, NUMBERS, row, ROW, journal, LENGTH), "fresh with a journal was refused");
    due(journal[Z33_JOURNAL_START] == 0 && journal[Z33_JOURNAL_COUNT] == 0 && journal[Z33_JOURNAL_HEAD] != 0, "the journal is not a new one");
    is_done(z33_load_journal(cells, NUMBERS, journal, LENGTH, image, 6, 0), "load with a journal was refused");
    is_done(z33_set_register_journal(row, ROW, journal, LENGTH, Z33_SP, 301), "sp was refused");
    memcpy(before, row, sizeof before);
    z33_ran ran = z33_run_journal(cells, NUMBERS, queue, QUEUE, output, OUTPUT, row, ROW, journal, LENGTH, 2);
    due(ran.refusal == 0 && ran.steps == 2 && ran.empty == 1 && cells[3 * 300 + Z33_FIRST] == 7, "two steps with a journal");
    const int64_t *record = journal + Z33_JOURNAL_HEAD;
    due(journal[Z33_JOURNAL_COUNT] == 2 && memcmp(record, before, sizeof before) == 0, "the first record has not the row before");
    record += Z33_RECORD_LENGTH;
    due(record[Z33_RECORD_CELLS] == 1 && record[Z33_RECORD_FIRST_CELL] == 300, "the second record is not of the push");
    due(record[Z33_RECORD_FIRST_CELL + 1] == Z33_TAG_WORD && record[Z33_RECORD_FIRST_CELL + 2] == 0, "it held word 0 before");
    is_done(z33_back(cells, NUMBERS, row, ROW, journal, LENGTH), "going back was refused");
    due(cells[3 * 300] == Z33_TAG_WORD && cells[3 * 300 + Z33_FIRST] == 0 && row[Z33_ROW_SP] == 301, "the push is still there");
    is_done(z33_back(cells, NUMBERS, row, ROW, journal, LENGTH), "going back once more was refused");
    due(cells[3 * 300] == Z33_TAG_EMPTY && memcmp(row, before, sizeof before) == 0, "the store is still there");
    due(z33_back(cells, NUMBERS, row, ROW, journal, LENGTH).refusal == Z33_REFUSAL_NOTHING_KEPT, "there was nothing to go back to");
    ran = z33_run_journal(cells, NUMBERS, queue, QUEUE, output, OUTPUT, row, ROW, journal, LENGTH, 2);
    is_done(z33_deliver_journal(queue, QUEUE, row, ROW, journal, LENGTH, NULL, 0), "no bytes were refused");
    due(ran.steps == 2 && journal[Z33_JOURNAL_COUNT] == 0, "a delivery leaves something kept");
    z33_raised raised = z33_raise_journal(cells, NUMBERS, row, ROW, journal, LENGTH, Z33_TRAP);
    due(raised.refusal == 0 && raised.stop == Z33_STOP_NO_HANDLER, "raise found a handler");
    due(z33_drain_journal(output, OUTPUT, row, ROW, journal, LENGTH, NULL, 0).refusal == 0, "drain with a journal was refused");
    journal[Z33_JOURNAL_START] = RECORDS;
    due(z33_back(cells, NUMBERS, row, ROW, journal, LENGTH).refusal == Z33_REFUSAL_JOURNAL, "there is no such place");
    due(z33_drain_journal(output, OUTPUT, row, ROW, journal, LENGTH - 1, NULL, 0).refusal == Z33_REFUSAL_JOURNAL, "one number is missing");
}

static void null_is_refused(void) {
    due(z33_fresh(NULL, 0, NULL, 0).refusal == Z33_REFUSAL_CELLS, "fresh without cells");
    due(z33_fresh(cells, NUMBERS, NULL, 0).refusal == Z33_REFUSAL_ROW, "fresh without a row");
    due(z33_run(NULL, 0, NULL, 0, NULL, 0, NULL, 0, 1).refusal == Z33_REFUSAL_CELLS, "run without anything");
    due(z33_run(cells, NUMBERS, NULL, 0, NULL, 0, NULL, 0, 1).refusal == Z33_REFUSAL_QUEUE, "run without a queue");
    z33_ran ran = z33_run(cells, NUMBERS, queue, QUEUE, NULL, 0, NULL, 0, 1);
    due(ran.refusal == Z33_REFUSAL_ROW && ran.steps == 0 && ran.empty == 0, "run without a row");
    due(z33_deliver(NULL, 0, row, ROW, NULL, 0).refusal == Z33_REFUSAL_QUEUE, "deliver without a queue");
    due(z33_deliver(queue, QUEUE, NULL, 0, NULL, 0).refusal == Z33_REFUSAL_ROW, "deliver without a row");
    due(z33_drain(NULL, 0, NULL, 0, NULL, 0).refusal == Z33_REFUSAL_ROW, "drain without a row");
    due(z33_read_cell(NULL, 0, 0).refusal == Z33_REFUSAL_CELLS, "read without cells");
    due(z33_load(NULL, 0, NULL, 0, 0).refusal == Z33_REFUSAL_CELLS, "load without cells");
    due(z33_set_register(NULL, 0, 0, 0).refusal == Z33_REFUSAL_ROW, "set register without a row");
    due(z33_raise(NULL, 0, NULL, 0, 0).refusal == Z33_REFUSAL_CELLS, "raise without cells");
    due(z33_raise(cells, NUMBERS, NULL, 0, 0).refusal == Z33_REFUSAL_ROW, "raise without a row");
    due(z33_bench(NULL, 0, NULL, 0, NULL, 0, NULL, 0, NULL, 0, 0, 1).refusal == Z33_REFUSAL_SEATS, "a bench without seats");
    due(z33_back(NULL, 0, NULL, 0, NULL, 0).refusal == Z33_REFUSAL_CELLS, "going back without cells");
    due(z33_run_journal(NULL, 0, NULL, 0, NULL, 0, NULL, 0, NULL, 0, 1).refusal == Z33_REFUSAL_CELLS, "run without anything, a journal too");
    start();
    due(z33_load_journal(cells, NUMBERS, NULL, 0, NULL, 0, 0).refusal == Z33_REFUSAL_JOURNAL, "load without a journal");
    due(z33_set_register_journal(row, ROW, NULL, 0, Z33_A, 1).refusal == Z33_REFUSAL_JOURNAL, "set register without a journal");
    z33_seat seat = {1, 0, 0};
    due(z33_bench(&seat, 1, NULL, 0, NULL, 0, NULL, 0, NULL, 0, 1, 1).refusal == Z33_REFUSAL_CELLS, "a seat without anything");
}

/* An output record, a drain buffer, an image and bytes to deliver may be empty. */
static void null_is_taken(void) {
    start();
    due(z33_run(cells, NUMBERS, queue, QUEUE, NULL, 0, row, ROW, 1).steps == 1, "run without an output record");
    is_done(z33_deliver(queue, QUEUE, row, ROW, NULL, 0), "no bytes were refused");
    due(z33_drain(NULL, 0, row, ROW, NULL, 0).refusal == 0, "drain without an output record");
    is_done(z33_load(cells, NUMBERS, NULL, 0, CELLS - 1), "an empty image was refused");
    due(z33_exercise(NULL, 0, 1).refusal == 0, "an empty image was not filled");
}

int main(void) {
    worked_run();
    other_calls();
    long_budgets();
    fence();
    timer();
    as_text();
    bench();
    step_back();
    null_is_refused();
    null_is_taken();
    return 0;
}
