/* The header's sizes and constants against the numbers of document 01 (docs/RULES.md leads to their definitions), for C and C++ alike.
 * definition.h holds those that are constants of the definition, written from it by host/check-header. */
#include "z33.h"

#ifdef __cplusplus
#define IS(what, number) static_assert((what) == (number), #what " is not " #number)
#else
#define IS(what, number) _Static_assert((what) == (number), #what " is not " #number)
#endif

/* "A cell is three signed 64-bit numbers: tag, first, second. Empty is 0,0,0; word w is 1,w,0. An instruction's tag is 2 + [...]" */
IS(Z33_TAG, 0);
IS(Z33_FIRST, 1);
IS(Z33_SECOND, 2);
IS(Z33_CELL_LENGTH, 3);
IS(Z33_TAG_EMPTY, 0);
IS(Z33_TAG_WORD, 1);
IS(Z33_TAG_LEAST_INSTRUCTION, 2);

/* "registers: 0 a, 1 b, 2 pc, 3 sp, 4 sr" */
IS(Z33_A, 0);
IS(Z33_B, 1);
IS(Z33_PC, 2);
IS(Z33_SP, 3);
IS(Z33_SR, 4);

/* "Row of 16 numbers", "a seventeenth number, the fence", "interval [...], remaining [...] and mark": a place from 1 is one more than the
 * constant. */
IS(Z33_ROW_A + 1, 1);
IS(Z33_ROW_B + 1, 4);
IS(Z33_ROW_PC + 1, 7);
IS(Z33_ROW_SP + 1, 8);
IS(Z33_ROW_SR + 1, 9);
IS(Z33_ROW_CYCLES + 1, 10);
IS(Z33_ROW_ENABLE + 1, 11);
IS(Z33_ROW_FLAG + 1, 12);
IS(Z33_ROW_PENDING + 1, 13);
IS(Z33_ROW_QUEUE_START + 1, 14);
IS(Z33_ROW_QUEUE_COUNT + 1, 15);
IS(Z33_ROW_OUTPUT_COUNT + 1, 16);
IS(Z33_ROW_FENCE + 1, 17);
IS(Z33_ROW_TIMER_INTERVAL + 1, 18);
IS(Z33_ROW_TIMER_REMAINING + 1, 19);
IS(Z33_ROW_TIMER_MARK + 1, 20);
IS(Z33_ROW_LENGTH, Z33_ROW_TIMER_MARK + 1);

/* "A timer on ports 120 and 121." */
IS(Z33_TIMER_INTERVAL_PORT, 120);
IS(Z33_TIMER_REMAINING_PORT, 121);

/* "exceptions with codes 0 to 5" */
IS(Z33_HARDWARE_INTERRUPT, 0);
IS(Z33_DIV_BY_ZERO, 1);
IS(Z33_INVALID_INSTRUCTION, 2);
IS(Z33_PRIVILEGED_INSTRUCTION, 3);
IS(Z33_TRAP, 4);
IS(Z33_INVALID_MEMORY_ACCESS, 5);

/* The flags are "five different single bits". */
IS(Z33_SR_ZERO, 2);
IS(Z33_SR_NEGATIVE, 4);
IS(Z33_SR_OVERFLOW, 8);
IS(Z33_SR_INTERRUPT_ENABLE, 256);
IS(Z33_SR_SUPERVISOR, 512);

/* "The queue is not 1 to 4,096 bytes." */
IS(Z33_QUEUE_LEAST, 1);

/* "Turned back, in checking order" */
IS(Z33_REFUSAL_NONE, 0);
IS(Z33_REFUSAL_CELLS, 1);
IS(Z33_REFUSAL_QUEUE, 2);
IS(Z33_REFUSAL_OUTPUT, 3);
IS(Z33_REFUSAL_ROW, 4);
IS(Z33_REFUSAL_DAMAGED_CELL, 5);
IS(Z33_REFUSAL_DELIVERY, 6);
IS(Z33_REFUSAL_DRAIN, 7);
IS(Z33_REFUSAL_ADDRESS, 8);
IS(Z33_REFUSAL_IMAGE, 9);
IS(Z33_REFUSAL_REGISTER, 10);
IS(Z33_REFUSAL_CODE, 11);
IS(Z33_REFUSAL_TEXT, 13);
IS(Z33_REFUSAL_LABEL, 14);
IS(Z33_REFUSAL_VALUE, 15);
IS(Z33_REFUSAL_EMPTY_CELL, 16);
IS(Z33_REFUSAL_TEXT_ROOM, 17);
IS(Z33_REFUSAL_SEATS, 19);
IS(Z33_REFUSAL_JOURNAL, 20);
IS(Z33_REFUSAL_NOTHING_KEPT, 21);

/* "1 to 16 seats", "the least of 100, [...]" */
IS(Z33_SEATS_LEAST, 1);
IS(Z33_SEATS_MOST, 16);
IS(Z33_TURN_MOST, 100);

/* "start (the oldest record, from 0), count, then a ring of records, each the row, the number of cells and four times address and cell" */
IS(Z33_JOURNAL_START, 0);
IS(Z33_JOURNAL_COUNT, 1);
IS(Z33_RECORD_CELLS, 20);
IS(Z33_RECORD_FIRST_CELL, 21);
IS(Z33_RECORDS_LEAST, 1);
IS(Z33_JOURNAL_LENGTH(1), 2 + 20 + 1 + 4 * 4);
IS(Z33_JOURNAL_LENGTH(4096), 2 + 4096 * 37);

/* The answers: numbers of 64 bits one behind the other. */
IS(sizeof(z33_done), 2 * 8);
IS(sizeof(z33_ran), 6 * 8);
IS(sizeof(z33_drained), 3 * 8);
IS(sizeof(z33_counted), 3 * 8);
IS(sizeof(z33_cell), 5 * 8);
IS(sizeof(z33_raised), 4 * 8);
IS(sizeof(z33_benched), 4 * 8);
IS(offsetof(z33_ran, stop), 2 * 8);
IS(offsetof(z33_ran, detail), 3 * 8);
IS(offsetof(z33_ran, steps), 4 * 8);
IS(offsetof(z33_ran, empty), 5 * 8);
IS(offsetof(z33_drained, count), 2 * 8);
IS(offsetof(z33_counted, count), 2 * 8);
IS(offsetof(z33_cell, tag), 2 * 8);
IS(offsetof(z33_cell, second), 4 * 8);
IS(offsetof(z33_raised, stop), 2 * 8);
IS(offsetof(z33_raised, detail), 3 * 8);
IS(offsetof(z33_benched, seat), 2 * 8);
IS(offsetof(z33_benched, left), 3 * 8);

/* A record of a bench list: two numbers of 64 bits, one of 32 and as much room behind it. */
IS(sizeof(z33_seat), 3 * 8);
IS(offsetof(z33_seat, used), 8);
IS(offsetof(z33_seat, stop), 2 * 8);

#include "definition.h"
