/* The proved Z33 for C and C++: its calls over memory that the caller owns and lends for the length of a call.
 *
 * Lent are: cells, three numbers each (tag, first, second); the row of 20 numbers (a, b, pc, sp, sr, cycles, the console's marks and
 * counts, the fence, the timer); the input queue and the output record, as bytes; a journal, for whoever wants to step back. Each comes as a
 * pointer and a count of elements (numbers or bytes, not cells); where the count is 0 the pointer may be null. Buffers of one call must not
 * overlap.
 *
 * An answer begins with refusal and place. refusal 0: the call was done. Otherwise it is the number of what was wrong (below), place
 * says where, every other field is 0 (but z33_bench names the seat) and nothing that was lent has changed.
 *
 * How a machine is booted. z33_fresh leaves a row of zeros, so the machine is in user mode, and z33_set_register sets a, b, pc and sp but
 * not sr. Whoever boots a kernel writes sr into the row, as here: supervisor mode, a stack from cell 1,000 down, an image from cell 0 on
 * (add 5 to a; reset). A kernel that keeps cells from its users has its fence written there too: a store below it by a step begun in user
 * mode raises Z33_INVALID_MEMORY_ACCESS. docs/MANUAL.md has the tags of the instructions.
 *
 *     static int64_t cells[Z33_CELL_LENGTH * 2048], row[Z33_ROW_LENGTH];
 *     static uint8_t queue[256], output[4096];
 *     static const int64_t image[] = {202, 5, 0, 20702, 0, 0};
 *
 *     z33_fresh(cells, Z33_CELL_LENGTH * 2048, row, Z33_ROW_LENGTH);
 *     z33_load(cells, Z33_CELL_LENGTH * 2048, image, 6, 0);
 *     z33_set_register(row, Z33_ROW_LENGTH, Z33_PC, 0);
 *     z33_set_register(row, Z33_ROW_LENGTH, Z33_SP, 1000);
 *     row[Z33_ROW_SR] = Z33_SR_SUPERVISOR;
 *     z33_ran ran = z33_run(cells, Z33_CELL_LENGTH * 2048, queue, 256, output, 4096, row, Z33_ROW_LENGTH, 100000);
 *     if (ran.refusal == 0 && ran.stop == Z33_STOP_RESET)
 *         printf("reset after %" PRIu64 " steps, a is %" PRId64 "\n", ran.steps, row[Z33_ROW_A + Z33_FIRST]);
 */
#ifndef Z33_H
#define Z33_H

#include <stddef.h>
#include <stdint.h>

#define Z33_VERSION "0.1.0"

#ifdef __cplusplus
extern "C" {
#endif

/* ---- what is lent */

/* A cell's numbers, and the tags: any other tag that is not damaged is an instruction's. */
enum { Z33_TAG = 0, Z33_FIRST = 1, Z33_SECOND = 2, Z33_CELL_LENGTH = 3 };
enum { Z33_TAG_EMPTY = 0, Z33_TAG_WORD = 1, Z33_TAG_LEAST_INSTRUCTION = 2 };

/* Places in the row, from 0 as C counts (a refusal's place counts from 1). a and b are cells, from their tag on. */
enum {
    Z33_ROW_A = 0,
    Z33_ROW_B = 3,
    Z33_ROW_PC = 6,
    Z33_ROW_SP = 7,
    Z33_ROW_SR = 8,
    Z33_ROW_CYCLES = 9,
    Z33_ROW_ENABLE = 10,
    Z33_ROW_FLAG = 11,
    Z33_ROW_PENDING = 12,
    Z33_ROW_QUEUE_START = 13,
    Z33_ROW_QUEUE_COUNT = 14,
    Z33_ROW_OUTPUT_COUNT = 15,
    Z33_ROW_FENCE = 16, /* 0 to the count of cells; 10,000 where a call is not lent them */
    Z33_ROW_TIMER_INTERVAL = 17,  /* 0: the timer is off */
    Z33_ROW_TIMER_REMAINING = 18, /* 0 to the interval */
    Z33_ROW_TIMER_MARK = 19,      /* 0 or 1 */
    Z33_ROW_LENGTH = 20
};

/* Bits of sr. */
enum {
    Z33_SR_ZERO = 1 << 1,
    Z33_SR_NEGATIVE = 1 << 2,
    Z33_SR_OVERFLOW = 1 << 3,
    Z33_SR_INTERRUPT_ENABLE = 1 << 8,
    Z33_SR_SUPERVISOR = 1 << 9
};

/* Limits: counts of cells and of bytes. */
enum {
    Z33_CELLS_LEAST = 256,
    Z33_CELLS_MOST = 10000,
    Z33_QUEUE_LEAST = 1,
    Z33_QUEUE_MOST = 4096,
    Z33_OUTPUT_MOST = 65536
};

/* A bench: its seats, and the steps of a turn. */
enum { Z33_SEATS_LEAST = 1, Z33_SEATS_MOST = 16, Z33_TURN_MOST = 100 };

/* A journal: start (the place of its oldest record in the ring, from 0), count (how many records are kept), then a ring of 1 to 4,096 records.
 * A record is of one step: the row before it, how many cells it wrote (0 to 4), and four times the address of such a cell and what it held, in
 * order of writing; those unused are 0. */
enum {
    Z33_JOURNAL_START = 0,
    Z33_JOURNAL_COUNT = 1,
    Z33_JOURNAL_HEAD = 2, /* the ring begins here */
    Z33_RECORD_CELLS = Z33_ROW_LENGTH,
    Z33_RECORD_FIRST_CELL = Z33_RECORD_CELLS + 1, /* its address, and behind that the cell */
    Z33_WRITES_MOST = 4,
    Z33_RECORD_LENGTH = Z33_RECORD_FIRST_CELL + Z33_WRITES_MOST * (1 + Z33_CELL_LENGTH),
    Z33_RECORDS_LEAST = 1,
    Z33_RECORDS_MOST = 4096
};
/* The numbers of a journal with room for so many steps. */
#define Z33_JOURNAL_LENGTH(records) (Z33_JOURNAL_HEAD + Z33_RECORD_LENGTH * (records))

/* Cells and ports with a meaning of their own. */
enum {
    Z33_INTERRUPT_PC_SAVE = 100,
    Z33_INTERRUPT_SR_SAVE = 101,
    Z33_INTERRUPT_EXCEPTION = 102,
    Z33_INTERRUPT_HANDLER = 200,
    Z33_SERIAL_STATUS_PORT = 110,
    Z33_SERIAL_DATA_PORT = 111,
    Z33_TIMER_INTERVAL_PORT = 120,
    Z33_TIMER_REMAINING_PORT = 121
};

/* Registers: for z33_set_register, and the detail of Z33_STOP_INVALID_REGISTER. */
enum { Z33_A = 0, Z33_B = 1, Z33_PC = 2, Z33_SP = 3, Z33_SR = 4 };

/* Codes of exceptions: for z33_raise, and the detail of Z33_STOP_NO_HANDLER. */
enum {
    Z33_HARDWARE_INTERRUPT = 0,
    Z33_DIV_BY_ZERO = 1,
    Z33_INVALID_INSTRUCTION = 2,
    Z33_PRIVILEGED_INSTRUCTION = 3,
    Z33_TRAP = 4,
    Z33_INVALID_MEMORY_ACCESS = 5
};

/* ---- what is answered */

/* Why a run ended. 1 to 5 end in the step that they name, 6 and 7 before it. */
enum {
    Z33_STOP_BUDGET_SPENT = 0,
    Z33_STOP_RESET = 1,
    Z33_STOP_NO_HANDLER = 2,       /* an exception, and cell 200 is no instruction; detail: its code */
    Z33_STOP_CELL_ERROR = 3,       /* a word or address that rti, rtn, or a store cannot take */
    Z33_STOP_EXTRACT = 4,          /* an operand, register or jump target that cannot be taken */
    Z33_STOP_INVALID_REGISTER = 5, /* pc, sp or sr cannot take the value; detail: the register */
    Z33_STOP_OUTPUT_FULL = 6,
    Z33_STOP_CYCLES_FULL = 7
};

/* Why a call was refused, in checking order. place is 0 but where it is named. */
enum {
    Z33_REFUSAL_NONE = 0,
    Z33_REFUSAL_CELLS = 1,        /* not 3 numbers each for 256 to 10,000 cells */
    Z33_REFUSAL_QUEUE = 2,        /* not 1 to 4,096 bytes */
    Z33_REFUSAL_OUTPUT = 3,       /* over 65,536 bytes */
    Z33_REFUSAL_ROW = 4,          /* not 20 numbers; or the lowest place, from 1, with a number out of its range */
    Z33_REFUSAL_DAMAGED_CELL = 5, /* place: its address, the lowest one */
    Z33_REFUSAL_DELIVERY = 6,     /* more bytes than the queue has free places */
    Z33_REFUSAL_DRAIN = 7,        /* the buffer is shorter than the output count */
    Z33_REFUSAL_ADDRESS = 8,      /* the cell, or the image's start, is outside the cells */
    Z33_REFUSAL_IMAGE = 9,        /* no whole cells, past the end, or with a damaged cell */
    Z33_REFUSAL_REGISTER = 10,    /* not a, b, pc or sp; or no address for pc or sp */
    Z33_REFUSAL_CODE = 11,        /* not 0 to 5 */
    Z33_REFUSAL_TEXT = 13,        /* place: the line outside the grammar, with round brackets over 32 deep, or past the image */
    Z33_REFUSAL_LABEL = 14,       /* place: the line whose label is missing, set again or beyond 256 */
    Z33_REFUSAL_VALUE = 15,       /* place: the line with a value out of range */
    Z33_REFUSAL_EMPTY_CELL = 16,  /* the image has an empty cell, and a listing was not allowed it */
    Z33_REFUSAL_TEXT_ROOM = 17,   /* the text buffer is too short */
    Z33_REFUSAL_SEATS = 19,       /* seats not 1 to 16, the list not one record a seat, or a buffer not divisible by seats; before 1 */
    Z33_REFUSAL_JOURNAL = 20,     /* no whole records, 1 to 4,096, behind start and count; start or count out of range; or z33_back's record is none */
    Z33_REFUSAL_NOTHING_KEPT = 21 /* the journal has nothing to go back to */
};

typedef struct { uint64_t refusal, place; } z33_done;
typedef struct { uint64_t refusal, place, stop, detail, steps, empty; } z33_ran; /* empty: words that its steps took from empty cells */
typedef struct { uint64_t refusal, place, count; } z33_drained;
typedef struct { uint64_t refusal, place, count; } z33_counted;
typedef struct { uint64_t refusal, place; int64_t tag, first, second; } z33_cell;
typedef struct { uint64_t refusal, place, stop, detail; } z33_raised; /* stop 0: the exception was entered */
typedef struct { uint64_t refusal, place, seat, left; } z33_benched;  /* seat: that of refusals 1 to 5, from 1; left: of the total */

/* A seat's record in a bench list: its step limit, the steps that it has used, and its last stop (0: it may go on). */
typedef struct { uint64_t limit, used; uint32_t stop; } z33_seat;

/* ---- the calls */

/* Makes all cells empty and the row 0, whatever they held. */
z33_done z33_fresh(int64_t *cells, size_t cells_len, int64_t *row, size_t row_len);

/* Takes steps until one does not complete (stop 1 to 7) or budget of them have (stop 0). An empty cell, in memory or in a or b, reads as
 * word 0; empty tells how often the completed steps took such a word, each time that one did, and stops at 2^64 - 1. A run
 * may be paused: one on m steps that ends with stop 0, then one on n, leave and answer what one on m + n does, steps and empty summed. */
z33_ran z33_run(int64_t *cells, size_t cells_len, uint8_t *queue, size_t queue_len,
                uint8_t *output, size_t output_len, int64_t *row, size_t row_len, uint64_t budget);

/* Puts bytes behind the unread ones in the queue. */
z33_done z33_deliver(uint8_t *queue, size_t queue_len, int64_t *row, size_t row_len,
                     const uint8_t *bytes, size_t bytes_len);

/* Copies the bytes written so far to the front of the buffer and sets their count to 0. */
z33_drained z33_drain(const uint8_t *output, size_t output_len, int64_t *row, size_t row_len,
                      uint8_t *buffer, size_t buffer_len);

/* The cell at an address. */
z33_cell z33_read_cell(const int64_t *cells, size_t cells_len, uint64_t address);

/* Copies an image of whole cells over the cells from start on. */
z33_done z33_load(int64_t *cells, size_t cells_len, const int64_t *image, size_t image_len, uint64_t start);

/* Sets a, b, pc or sp to a word; sr is written in the row. */
z33_done z33_set_register(int64_t *row, size_t row_len, uint64_t reg, int64_t word);

/* Enters the exception of a code 0 to 5, for one cycle; or stop 2 or 7, and then nothing has changed. */
z33_raised z33_raise(int64_t *cells, size_t cells_len, int64_t *row, size_t row_len, uint64_t code);

/* A program written as text, into the front of the image: one cell a line, the room behind is kept. count is of cells; place is the line,
 * from 1. Refusals: 9 the image is no whole number of cells, then 13 to 15, each with its lowest line. */
z33_counted z33_assemble(const uint8_t *text, size_t text_len, int64_t *image, size_t image_len);

/* An image as text that z33_assemble takes, one line a cell, into the front of the buffer: the room behind is kept. count is of bytes. An
 * empty cell is written `.word 0`, which reads back as word 0, and only where allow_empty is not 0. Refusals, all with place 0: 9 the image
 * is no whole number of cells or holds a damaged one, then 16 and 17. */
z33_counted z33_list(const int64_t *image, size_t image_len, uint8_t *text, size_t text_len, uint64_t allow_empty);

/* Fills an image with sound instructions drawn from a seed; count is of cells. Refusal 9: the image is no whole number of cells. */
z33_counted z33_exercise(int64_t *image, size_t image_len, uint64_t seed);

/* A class of 1 to 16 machines under one step total. Each of the four buffers holds the parts of all seats, equally long, seat 1 first; the
 * list has one record a seat. Turns go round from seat 1. A turn is a run on the least of 100 steps, what is left of the seat's limit and what is
 * left of the total; a seat whose last stop is not 0, or that has used its limit, is passed over. It ends where the total is spent or no seat can
 * go on. used grows by the steps taken, stop is that of the last turn, and left is what is left of the total. No number of the list is refused.
 * Refusals: 19; then 1 to 5 as z33_run has them, the lowest seat first, place within that seat, with total 0 and for seats passed over too. */
z33_benched z33_bench(z33_seat *list, size_t list_len, int64_t *cells, size_t cells_len, uint8_t *queues, size_t queues_len,
                      uint8_t *outputs, size_t outputs_len, int64_t *rows, size_t rows_len, uint64_t seats, uint64_t total);

/* The record of one that was stored in 32 bits, every number equal. */
z33_seat z33_take_over(uint32_t limit, uint32_t used, uint32_t stop);

/* ---- stepping back: the same calls with a journal lent behind the row, or behind the cells where there is none */

/* What all of them do, answer and refuse is what they do without a journal; where they are not refused by that, they are by 20 where the journal
 * is none. What a record holds is looked at by z33_back alone. The journal serves one machine, and is lent to every call that changes it: a
 * change that it missed, as one written into row or cells, is not gone back over. */

/* Leaves the journal with nothing kept and start 0, whatever its numbers were: only its length is tested. So a new one is made. */
z33_done z33_fresh_journal(int64_t *cells, size_t cells_len, int64_t *row, size_t row_len, int64_t *journal, size_t journal_len);

/* Answers and leaves what z33_run does, and keeps a record of every step that is begun: of one that stops by 1 to 5 too, not of one that 6 or
 * 7 stop before. Where there is no room the oldest record is forgotten. On budget 0 the journal stays as it is. */
z33_ran z33_run_journal(int64_t *cells, size_t cells_len, uint8_t *queue, size_t queue_len, uint8_t *output, size_t output_len,
                        int64_t *row, size_t row_len, int64_t *journal, size_t journal_len, uint64_t budget);

/* Each of these sets the journal's count to 0 unless it is refused, even where it changes nothing else, and keeps the rest of it. */
z33_done z33_deliver_journal(uint8_t *queue, size_t queue_len, int64_t *row, size_t row_len, int64_t *journal, size_t journal_len,
                             const uint8_t *bytes, size_t bytes_len);
z33_drained z33_drain_journal(const uint8_t *output, size_t output_len, int64_t *row, size_t row_len,
                              int64_t *journal, size_t journal_len, uint8_t *buffer, size_t buffer_len);
z33_done z33_load_journal(int64_t *cells, size_t cells_len, int64_t *journal, size_t journal_len,
                          const int64_t *image, size_t image_len, uint64_t start);
z33_done z33_set_register_journal(int64_t *row, size_t row_len, int64_t *journal, size_t journal_len, uint64_t reg, int64_t word);
z33_raised z33_raise_journal(int64_t *cells, size_t cells_len, int64_t *row, size_t row_len,
                             int64_t *journal, size_t journal_len, uint64_t code);

/* Goes back one step: the newest record's cells and row are as they were before its step, and the count is one less. What the queue's unread
 * bytes and the counted bytes of the output record were, they are again: bytes read stay in the queue, and those written later are no longer
 * counted. Refusals, in this order: 1, 4, 20, 21; the cells are not tested for damage. */
z33_done z33_back(int64_t *cells, size_t cells_len, int64_t *row, size_t row_len, int64_t *journal, size_t journal_len);

#ifdef __cplusplus
}
#endif

#endif
