/* The library broken on purpose. host/mutants renames the functions of a scratch copy of libz33.a to whole_z33_* and puts this
 * file, compiled with MUTANT, before them; the host must notice each. WHOLE breaks nothing. */
#include <string.h>

#include "z33.h"

enum {
    WHOLE,
    PLACE_OF_DAMAGE,          /* run: a damaged cell's place is one too high */
    PLACE_OF_ROW,             /* set register: sp out of range is told as pc */
    QUEUE_BEFORE_CELLS,       /* run: two checks in the wrong order */
    CODE_BEFORE_ROW,          /* raise: two checks in the wrong order */
    WRITE_BEFORE_REFUSAL,     /* deliver: the first byte is written before the rest is refused */
    ROW_BEFORE_REFUSAL,       /* run: the pending mark is cleared though a cell is damaged */
    LEAST_CELLS,              /* run: 256 cells are refused */
    MOST_CELLS,               /* fresh: 10,001 cells are taken */
    MOST_QUEUE,               /* deliver: a queue of 4,096 is refused */
    LAST_FREE_PLACE,          /* deliver: the last free place is not used */
    DRAIN_CLEARS,             /* drain: the rest of the buffer is cleared */
    DRAIN_KEEPS_COUNT,        /* drain: the count is not set to 0 */
    DRAIN_PAST_END,           /* drain: a byte behind the buffer is written */
    NO_WRAP,                  /* deliver: bytes past the queue's end are dropped */
    NO_MARK,                  /* deliver: the pending mark is not set */
    DAMAGED_IMAGE,            /* load: a damaged image is taken */
    EMPTY_IMAGE_AT_END,       /* load: an empty image is taken behind the last cell */
    DAMAGED_CELL,             /* read: a damaged cell is given */
    SET_SR,                   /* set register: sr may be set */
    CUT_REGISTER,             /* set register: only 8 bits of the register count */
    CUT_CODE,                 /* raise: only 32 bits of the code count */
    CUT_ADDRESS,              /* read: only 32 bits of the address count */
    CUT_LENGTH,               /* set register: only 32 bits of the row's length count */
    CUT_BUDGET,               /* run: only 32 bits of the budget count */
    BUDGET_LESS_ONE,          /* run: one step too few */
    NO_STEP,                  /* run: stop 0 before any step */
    STEPS_NEVER_TAKEN,        /* run: the steps are told, the machine is unmoved */
    FIRST_THEN_COUNTS,        /* run: one step, and the rest are only counted */
    ALWAYS_RESET,             /* run: every answer is reset */
    REFUSES_ALL,              /* run: every machine is refused */
    COUNTS_STOPPED,           /* run: the step that stops is counted */
    NO_CYCLES,                /* run: cycles are not added */
    DETAIL_OF_STOP_5,         /* run: stop 5 without its register */
    POLL_AFTER_EXCEPTION,     /* run: an exception step polls */
    POLL_AT_START,            /* run: it polls before its first step too */
    MARK_WITH_I_CLEAR,        /* run: the pending mark is taken with I clear */
    SP_UNDONE,                /* run: a stop 5 puts sp back */
    OUTSIDE_STOPS,            /* run: ld of a cell outside is still stop 4 */
    NEGATIVE_TRAPS,           /* run: ld through a word that is no address is code 5 */
    CALL_UNPUSHED,            /* run: call with an operand outside has not pushed */
    EMPTY_UNCOUNTED,          /* run: words from empty cells are not counted */
    EMPTY_OF_STOPPED,         /* run: a step that stops counts one */
    EMPTY_CARRIED,            /* run: an empty cell that ld carries counts */
    EMPTY_ONCE,               /* run: swap's address counts once */
    EMPTY_BEFORE_ENTRY,       /* run: what a step took before an exception does not count */
    EMPTY_STARTS_AGAIN,       /* run: the count of empty cells starts again behind the first step */
    FENCE_LESS_ONE,           /* run: the cell just below the fence may be written */
    FENCE_MORE_ONE,           /* run: the cell on the fence may not be written */
    FENCE_ALL,                /* run: the supervisor is fenced too */
    FENCE_NONE,               /* run: nobody is fenced */
    FENCE_AFTER,              /* run: S is looked at after the instruction: a swap that clears it is fenced */
    FENCE_FAS_SETS,           /* run: a fas that the fence stopped has set its register */
    FENCE_SP_UNDONE,          /* run: a push that the fence stopped puts sp back */
    FENCE_ENTRY,              /* run: entry does not write a saved cell below the fence */
    FENCE_READS,              /* run: ld of a cell below the fence is code 5 */
    FENCE_OUT_OF_RANGE,       /* run: a fence one behind the count of cells is taken */
    FENCE_NOT_FRESH,          /* fresh: the fence stays */
    FENCE_LOST,               /* set register: the fence is 0 afterwards */
    FENCE_UNTESTED,           /* set register: a fence of 10,001 is taken */
    RAISE_FENCED,             /* raise: a saved cell below the fence is not written */
    TIMER_ENTRY_TAKES,        /* run: an entry by code 0 takes a cycle off what remains */
    TIMER_WRITE_TAKES,        /* run: a write of port 120 takes its cost off */
    TIMER_FIRST,              /* run: the timer's mark is polled before the console's */
    TIMER_NOT_AFRESH,         /* run: nothing remains after the mark is set */
    TIMER_EXCEPTION_FREE,     /* run: an exception step takes nothing off */
    TIMER_UNHANDLED_TAKES,    /* run: an exception without handler takes a cycle off */
    TIMER_OFF_WAITS,          /* run: a mark is not polled while the timer is off */
    TIMER_OFF_CLEARS,         /* run: turning the timer off clears its mark */
    TIMER_READ_AFTER,         /* run: port 121 reads what remains behind the step's own cost */
    TIMER_READ_CUT,           /* run: only 32 bits of the interval are read */
    TIMER_NOT_FRESH,          /* fresh: the timer stays */
    TIMER_LOST,               /* set register: the timer's mark is 0 afterwards */
    TIMER_UNTESTED,           /* set register: one cycle more than the interval may remain */
    RAISE_TAKES,              /* raise: a cycle is taken off what remains */
    RAISE_NO_CYCLE,           /* raise: no cycle is added */
    RAISE_KEEPS_I,            /* raise: code 0 leaves I set */
    EXERCISE_NEXT_SEED,       /* exercise: the cells of the next seed */
    EXERCISE_LAST_CELL,       /* exercise: the last cell is left as it was */
    EXERCISE_RAGGED,          /* exercise: an image that is no whole number of cells is taken */
    EXERCISE_EMPTY,           /* exercise: an empty image is refused */
    BENCH_TURN_101,           /* bench: a turn has 101 steps */
    BENCH_WHOLE_LIMIT,        /* bench: a turn has all that is left of the seat's limit */
    BENCH_LIMIT_PASSED,       /* bench: a turn passes the seat's limit */
    BENCH_TOTAL_PASSED,       /* bench: the last turn passes the total */
    BENCH_REVERSED,           /* bench: turns go round from the last seat */
    BENCH_ONE_ROUND,          /* bench: there is one round */
    BENCH_ALL_STOP,           /* bench: nobody goes on after one has stopped */
    BENCH_STOPPED_GOES_ON,    /* bench: a seat that had stopped before goes on */
    BENCH_OVER_LIMIT,         /* bench: a seat that has used more than its limit has a turn */
    BENCH_USED_NOT_ADDED,     /* bench: the steps of a turn that stops are not added */
    BENCH_USED_REPLACED,      /* bench: used is what this call took */
    BENCH_STOP_LOST,          /* bench: the last stop is not written */
    BENCH_STOP_COSTS,         /* bench: a step that stops is taken off the total too */
    BENCH_LEFT_SPENT,         /* bench: the answer is what was spent */
    BENCH_CUT_SEATS,          /* bench: only 32 bits of the seats count */
    BENCH_CUT_TOTAL,          /* bench: only 32 bits of the total count */
    BENCH_CUT_LIMIT,          /* bench: only 32 bits of limit and steps used count */
    BENCH_17_SEATS,           /* bench: 17 seats are taken */
    BENCH_LONG_LIST,          /* bench: a list with one record too many is taken */
    BENCH_RAGGED_CELLS,       /* bench: cells that are not divisible by seats are taken */
    BENCH_RAGGED_QUEUES,      /* bench: queues that are not divisible by seats are taken */
    BENCH_RAGGED_OUTPUTS,     /* bench: outputs that are not divisible by seats are taken */
    BENCH_RAGGED_ROWS,        /* bench: rows that are not divisible by seats are taken */
    BENCH_CELLS_BEFORE_SEATS, /* bench: 1 comes before 19 */
    BENCH_STOP_REFUSED,       /* bench: a last stop over 7 is refused */
    BENCH_SEAT_FROM_0,        /* bench: the refused seat is counted from 0 */
    BENCH_HIGHEST_SEAT,       /* bench: of several refused seats the highest is told */
    BENCH_PLACE_IN_BUFFER,    /* bench: a damaged cell's place is that in the whole buffer */
    BENCH_PASSED_UNTESTED,    /* bench: a seat that cannot go on is not tested */
    BENCH_TOTAL_0_UNTESTED,   /* bench: with total 0 no seat is tested */
    BENCH_TESTED_IN_TURN,     /* bench: a seat is tested at its turn, when others have run */
    BENCH_USED_AT_REFUSAL,    /* bench: a refused bench's list has changed */
    TAKE_OVER_SIGNED,         /* take over: 32 bits are read as a signed number */
    TAKE_OVER_SWAPPED,        /* take over: limit and steps used are exchanged */
    TAKE_OVER_STOP_LOST,      /* take over: the stop is 0 */
    KEEP_ROW_AFTER,           /* run, journal: a record has the row behind its step */
    KEEP_NEW_CELLS,           /* run, journal: a record has what the first written cell holds behind the step */
    KEEP_OLDER_CELLS,         /* run, journal: of a cell written twice both entries have what it held before the step */
    KEEP_CHANGES_ALONE,       /* run, journal: a cell written with what it held is not kept */
    KEEP_ENTRY_FIRST,         /* run, journal: what entry wrote stands before what the instruction wrote */
    KEEP_UNUSED,              /* run, journal: unused places keep what stood there */
    KEEP_STOPPED_NOT,         /* run, journal: a step that stops is not kept */
    KEEP_STOP_6,              /* run, journal: stop 6 is kept as a step */
    KEEP_STOP_7,              /* run, journal: stop 7 is kept as a step */
    KEEP_FORGETS_EARLY,       /* run, journal: the oldest is forgotten where there is room for one more */
    KEEP_UNTIL_FULL,          /* run, journal: a full journal keeps no further step */
    KEEP_START_STAYS,         /* run, journal: the start stays though the oldest is forgotten */
    KEEP_BUDGET_0_EMPTIES,    /* run, journal: budget 0 empties it */
    KEEP_EMPTY_UNCOUNTED,     /* run, journal: words from empty cells are not counted */
    KEEP_CUT_BUDGET,          /* run, journal: only 32 bits of the budget count */
    KEEP_20_BEFORE_5,         /* run, journal: 20 comes before a damaged cell */
    BACK_LAST_CELL_LAST,      /* back: the first written cell is put back first */
    BACK_KEEPS_COUNT,         /* back: the count stays */
    BACK_EMPTIES,             /* back: the count becomes 0 */
    BACK_TO_OLDEST,           /* back: the oldest record is put back */
    BACK_KEEPS_CYCLES,        /* back: the cycles stay */
    BACK_CLEARS_RECORD,       /* back: the record's numbers become 0 */
    BACK_5_CELLS,             /* back: a record of 5 cells is taken */
    BACK_DAMAGED_CELL,        /* back: a record's damaged cell is put back */
    BACK_OUTSIDE,             /* back: a record's last address outside the cells is passed over */
    BACK_FENCE_UNTESTED,      /* back: a record's fence behind the cells is taken */
    BACK_UNUSED_TESTED,       /* back: a record's unused places are tested */
    BACK_NEWEST_OF_NONE,      /* back: with nothing kept a record is tested all the same */
    BACK_21_FIRST,            /* back: 21 comes before 20 */
    BACK_20_FIRST,            /* back: 20 comes before 4 */
    BACK_CELLS_TESTED,        /* back: a damaged cell is refused */
    FRESH_KEEPS_START,        /* fresh, journal: the start stays */
    FRESH_KEEPS_COUNT,        /* fresh, journal: the count stays */
    FRESH_TESTS_START,        /* fresh, journal: a start that is no place is refused */
    DELIVER_KEEPS_COUNT,      /* deliver, journal: the count stays */
    DELIVER_NONE_KEEPS,       /* deliver, journal: the count stays where nothing is delivered */
    DELIVER_SETS_START,       /* deliver, journal: the start becomes 0 */
    DELIVER_20_FIRST,         /* deliver, journal: 20 comes before 6 */
    DELIVER_PLACE_BEHIND,     /* deliver, journal: a start one behind the ring is taken */
    DRAIN_JOURNAL_KEEPS,      /* drain, journal: the count stays */
    DRAIN_NONE_KEEPS,         /* drain, journal: the count stays where nothing is drained */
    LOAD_KEEPS_COUNT,         /* load, journal: the count stays */
    LOAD_NONE_KEEPS,          /* load, journal: the count stays where the image is empty */
    LOAD_CLEARS_RING,         /* load, journal: the newest record's numbers become 0 */
    SET_KEEPS_COUNT,          /* set register, journal: the count stays */
    SET_REFUSED_EMPTIES,      /* set register, journal: the count becomes 0 though the register is refused */
    SET_4097_RECORDS,         /* set register, journal: 4,097 records are taken */
    SET_CUT_JOURNAL,          /* set register, journal: only 32 bits of the journal's length count */
    RAISE_KEEPS_COUNT,        /* raise, journal: the count stays */
    RAISE_STOPPED_KEEPS       /* raise, journal: the count stays where it stops */
};

enum {
    PC = Z33_ROW_PC,
    SP = Z33_ROW_SP,
    SR = Z33_ROW_SR,
    CYCLES = Z33_ROW_CYCLES,
    ENABLE = Z33_ROW_ENABLE,
    PENDING = Z33_ROW_PENDING,
    START = Z33_ROW_QUEUE_START,
    COUNT = Z33_ROW_QUEUE_COUNT,
    WRITTEN = Z33_ROW_OUTPUT_COUNT,
    FENCE = Z33_ROW_FENCE,
    INTERVAL = Z33_ROW_TIMER_INTERVAL,
    REMAINING = Z33_ROW_TIMER_REMAINING,
    MARK = Z33_ROW_TIMER_MARK,
    ROW = Z33_ROW_LENGTH
};
enum { I = Z33_SR_INTERRUPT_ENABLE, S = Z33_SR_SUPERVISOR, HANDLER = Z33_INTERRUPT_HANDLER };
/* op * 36 + m1 * 6 + m2 */
enum {
    CALL_DIRECT = 2 * 36 + 3 * 6,
    IN_DIRECT = 6 * 36 + 3 * 6 + 2,
    OUT_DIRECT = 20 * 36 + 1 * 6 + 3,
    FAS_DIRECT = 5 * 36 + 3 * 6 + 2,
    PUSH_IMMEDIATE = 22 * 36 + 1 * 6,
    SWAP_DIRECT = 30 * 36 + 3 * 6 + 2,
    LD_REGISTER = 14 * 36 + 2 * 6 + 2,
    LD_DIRECT = 14 * 36 + 3 * 6 + 2,
    LD_INDIRECT = 14 * 36 + 4 * 6 + 2,
    SWAP_INDIRECT = 30 * 36 + 4 * 6 + 2
};

z33_done whole_z33_fresh(int64_t *, size_t, int64_t *, size_t);
z33_ran whole_z33_run(int64_t *, size_t, uint8_t *, size_t, uint8_t *, size_t, int64_t *, size_t, uint64_t);
z33_done whole_z33_deliver(uint8_t *, size_t, int64_t *, size_t, const uint8_t *, size_t);
z33_drained whole_z33_drain(const uint8_t *, size_t, int64_t *, size_t, uint8_t *, size_t);
z33_cell whole_z33_read_cell(const int64_t *, size_t, uint64_t);
z33_done whole_z33_load(int64_t *, size_t, const int64_t *, size_t, uint64_t);
z33_done whole_z33_set_register(int64_t *, size_t, uint64_t, int64_t);
z33_raised whole_z33_raise(int64_t *, size_t, int64_t *, size_t, uint64_t);

z33_counted whole_z33_exercise(int64_t *, size_t, uint64_t);
z33_benched whole_z33_bench(z33_seat *, size_t, int64_t *, size_t, uint8_t *, size_t, uint8_t *, size_t, int64_t *, size_t, uint64_t, uint64_t);
z33_seat whole_z33_take_over(uint32_t, uint32_t, uint32_t);

z33_done whole_z33_fresh_journal(int64_t *, size_t, int64_t *, size_t, int64_t *, size_t);
z33_ran whole_z33_run_journal(int64_t *, size_t, uint8_t *, size_t, uint8_t *, size_t, int64_t *, size_t, int64_t *, size_t, uint64_t);
z33_done whole_z33_deliver_journal(uint8_t *, size_t, int64_t *, size_t, int64_t *, size_t, const uint8_t *, size_t);
z33_drained whole_z33_drain_journal(const uint8_t *, size_t, int64_t *, size_t, int64_t *, size_t, uint8_t *, size_t);
z33_done whole_z33_load_journal(int64_t *, size_t, int64_t *, size_t, const int64_t *, size_t, uint64_t);
z33_done whole_z33_set_register_journal(int64_t *, size_t, int64_t *, size_t, uint64_t, int64_t);
z33_raised whole_z33_raise_journal(int64_t *, size_t, int64_t *, size_t, int64_t *, size_t, uint64_t);
z33_done whole_z33_back(int64_t *, size_t, int64_t *, size_t, int64_t *, size_t);

z33_done z33_fresh(int64_t *cells, size_t cells_len, int64_t *row, size_t row_len) {
    if (MUTANT == MOST_CELLS && cells_len == 30003) {
        cells_len = 30000;
    }
    int place = MUTANT == TIMER_NOT_FRESH ? INTERVAL : FENCE;
    int64_t kept = row_len == ROW ? row[place] : 0;
    z33_done done = whole_z33_fresh(cells, cells_len, row, row_len);
    if ((MUTANT == FENCE_NOT_FRESH || MUTANT == TIMER_NOT_FRESH) && done.refusal == 0) {
        row[place] = kept;
    }
    return done;
}

/* A budget or a refusal given instead of the caller's own. */
static int answered_before(z33_ran *ran, size_t cells_len, size_t queue_len) {
    *ran = (z33_ran){0};
    if (MUTANT == QUEUE_BEFORE_CELLS && (queue_len == 0 || queue_len > 4096)) {
        ran->refusal = 2;
    } else if (MUTANT == REFUSES_ALL || (MUTANT == LEAST_CELLS && cells_len == 768)) {
        ran->refusal = 1;
    }
    return ran->refusal != 0;
}

static uint64_t other_budget(uint64_t budget) {
    switch (MUTANT) {
    case BUDGET_LESS_ONE: return budget > 0 ? budget - 1 : 0;
    case NO_STEP: case STEPS_NEVER_TAKEN: return 0;
    case FIRST_THEN_COUNTS: return budget > 0 ? 1 : 0;
    case CUT_BUDGET: return (uint32_t)budget;
    default: return budget;
    }
}

/* The form of the instruction at pc, or -1. */
static int64_t form_at(const int64_t *cells, size_t cells_len, int64_t pc) {
    return pc < (int64_t)(cells_len / 3) && cells[3 * pc] >= 2 ? (cells[3 * pc] - 2) / 25 : -1;
}

static void raise_5(int64_t *cells, size_t cells_len, int64_t *row, z33_ran *ran) {
    z33_raised raised = whole_z33_raise(cells, cells_len, row, ROW, 5);
    ran->stop = raised.stop;
    ran->detail = raised.detail;
    ran->steps = raised.stop == 0;
}

/* A step of an accepted machine that is not left to the library: an operand outside the cells, read otherwise. */
static int read_otherwise(int64_t *cells, size_t cells_len, int64_t *row, z33_ran *ran) {
    int64_t form = form_at(cells, cells_len, row[PC]);
    int64_t wrong = MUTANT == OUTSIDE_STOPS ? LD_DIRECT : MUTANT == CALL_UNPUSHED ? CALL_DIRECT : -2;
    if (form != wrong || cells[3 * row[PC] + 1] < (int64_t)(cells_len / 3)) {
        return 0;
    }
    row[PC]++;
    if (MUTANT == OUTSIDE_STOPS) {
        ran->stop = 4;
    } else {
        raise_5(cells, cells_len, row, ran);
    }
    return 1;
}

/* A fence that an accepted machine is run with instead of its own. */
static int64_t other_fence(int64_t fence, int64_t count) {
    switch (MUTANT) {
    case FENCE_LESS_ONE: return fence > 0 ? fence - 1 : 0;
    case FENCE_MORE_ONE: return fence > 0 && fence < count ? fence + 1 : fence;
    case FENCE_NONE: return 0;
    default: return fence;
    }
}

/* A step of an accepted machine that is not left to the library: a push of the supervisor's, or a read, below the fence. */
static int fenced_otherwise(int64_t form, int64_t *cells, size_t cells_len, int64_t *row, z33_ran *ran) {
    int supervisor = (row[SR] & S) != 0;
    int pushes = MUTANT == FENCE_ALL && form == PUSH_IMMEDIATE && supervisor && row[SP] > 0 && row[SP] <= row[FENCE];
    int reads = MUTANT == FENCE_READS && form == LD_DIRECT && !supervisor && cells[3 * row[PC] + 1] < row[FENCE];
    if (!pushes && !reads) {
        return 0;
    }
    row[PC]++;
    row[SP] -= pushes;
    raise_5(cells, cells_len, row, ran);
    return 1;
}

/* A step under a fence, changed: the instruction's cell, the row and cell 100 as they were before. */
static void fence_after(const int64_t *instruction, const int64_t *before, const int64_t *saved,
                        int64_t *cells, size_t cells_len, int64_t *row, z33_ran *ran) {
    int64_t form = (instruction[0] - 2) / 25, to = instruction[1], reg = (instruction[0] - 2) % 5;
    int supervisor = (before[SR] & S) != 0;
    int entered = ran->steps == 1 && row[PC] == HANDLER && cells[3 * 102 + 1] == 5;
    if (MUTANT == FENCE_AFTER && form == SWAP_DIRECT && reg == 4 && supervisor && ran->steps == 1 && !(row[SR] & S) && to < row[FENCE]) {
        cells[3 * to + 1] = row[SR];
        row[CYCLES] = before[CYCLES];
        raise_5(cells, cells_len, row, ran);
    }
    if (MUTANT == FENCE_FAS_SETS && form == FAS_DIRECT && reg == 0 && !supervisor && entered && to < row[FENCE]) {
        memcpy(row + Z33_ROW_A, cells + 3 * to, 3 * sizeof *row);
    }
    if (MUTANT == FENCE_SP_UNDONE && form == PUSH_IMMEDIATE && !supervisor && entered && row[SP] < row[FENCE]) {
        row[SP] = before[SP];
    }
    if (MUTANT == FENCE_ENTRY && !supervisor && entered && row[FENCE] > 100) {
        memcpy(cells + 3 * 100, saved, 3 * sizeof *cells);
    }
}

/* Whether the poll of a step with these marks takes the other one, and which is put back afterwards. */
static int polls_otherwise(int64_t *row) {
    int first = MUTANT == TIMER_FIRST && row[PENDING] == 1;
    int waits = MUTANT == TIMER_OFF_WAITS && row[INTERVAL] == 0;
    if (!(first || waits) || row[MARK] == 0 || !(row[SR] & I)) {
        return 0;
    }
    row[first ? PENDING : MARK] = 0;
    return first ? PENDING : MARK;
}

/* A step with the timer, changed: the instruction's cell and the row as they were before. */
static void timer_after(const int64_t *instruction, const int64_t *before, const int64_t *cells, int64_t *row, const z33_ran *ran) {
    int64_t form = (instruction[0] - 2) / 25, port = form == OUT_DIRECT ? instruction[2] : instruction[1];
    int entered = ran->steps == 1 && row[PC] == HANDLER && row[CYCLES] > before[CYCLES];
    int writes = form == OUT_DIRECT && port == 120 && ran->steps == 1 && (before[SR] & S);
    int reads = form == IN_DIRECT && ran->steps == 1 && (before[SR] & S) && (instruction[0] - 2) % 5 == 0;
    int code_0 = entered && cells[3 * 102 + 1] == 0 && row[CYCLES] - before[CYCLES] > 1;
    int by_code = entered && cells[3 * 102 + 1] != 0;
    switch (MUTANT) {
    case TIMER_ENTRY_TAKES: if (code_0 && row[REMAINING] > 1) row[REMAINING]--; break;
    case TIMER_WRITE_TAKES: if (writes && row[REMAINING] > 2) row[REMAINING] -= 2; break;
    case TIMER_NOT_AFRESH: if (!writes && row[INTERVAL] > 0 && row[REMAINING] > before[REMAINING]) row[REMAINING] = 0; break;
    case TIMER_EXCEPTION_FREE: if (by_code && form != OUT_DIRECT) row[REMAINING] = before[REMAINING]; break;
    case TIMER_UNHANDLED_TAKES: if (ran->stop == 2 && ran->detail > 0 && row[REMAINING] > 1) row[REMAINING]--; break;
    case TIMER_OFF_CLEARS: if (writes && row[INTERVAL] == 0) row[MARK] = 0; break;
    case TIMER_READ_AFTER: if (reads && port == 121 && before[REMAINING] > 2) row[Z33_ROW_A + 1] -= 2; break;
    case TIMER_READ_CUT: if (reads && port == 120) row[Z33_ROW_A + 1] = (uint32_t)row[Z33_ROW_A + 1]; break;
    default: break;
    }
}

/* The machine after one step that was taken, changed. */
static void step_after(int64_t *cells, size_t cells_len, int64_t *row, z33_ran *ran) {
    int entered = ran->steps == 1 && row[PC] == HANDLER && cells[3 * 102 + 1] != 0;
    if (MUTANT == POLL_AFTER_EXCEPTION && entered && (row[SR] & I) && row[PENDING]) {
        row[PENDING] = 0;
        whole_z33_raise(cells, cells_len, row, ROW, 0);
    }
    if (MUTANT == MARK_WITH_I_CLEAR && ran->steps == 1 && !(row[SR] & I)) {
        row[PENDING] = 0;
    }
}

/* The count of one step, changed; the form is that of its instruction. */
static void count_otherwise(int64_t form, const int64_t *cells, const int64_t *row, z33_ran *ran) {
    int entered = ran->steps == 1 && row[PC] == HANDLER && cells[3 * 102 + 1] != 0;
    int carried = form == LD_REGISTER && (row[Z33_ROW_A] == 0 || row[Z33_ROW_B] == 0);
    switch (MUTANT) {
    case EMPTY_UNCOUNTED: ran->empty = 0; break;
    case EMPTY_OF_STOPPED: ran->empty += ran->stop >= 2 && ran->stop <= 5; break;
    case EMPTY_CARRIED: ran->empty += ran->steps == 1 && carried; break;
    case EMPTY_ONCE: ran->empty -= form == SWAP_INDIRECT && ran->empty > 1; break;
    case EMPTY_BEFORE_ENTRY: if (entered) ran->empty = 0; break;
    default: break;
    }
}

z33_ran z33_run(int64_t *cells, size_t cells_len, uint8_t *queue, size_t queue_len,
                uint8_t *output, size_t output_len, int64_t *row, size_t row_len, uint64_t budget) {
    z33_ran ran;
    if (answered_before(&ran, cells_len, queue_len)) {
        return ran;
    }
    int64_t before[ROW] = {0};
    if (row_len == ROW) {
        memcpy(before, row, sizeof before);
    }
    ran = whole_z33_run(cells, cells_len, queue, queue_len, output, output_len, row, row_len, 0);
    int64_t form = ran.refusal == 0 ? form_at(cells, cells_len, before[PC]) : -1;
    if (ran.refusal == 0 && budget == 1 && (read_otherwise(cells, cells_len, row, &ran) || fenced_otherwise(form, cells, cells_len, row, &ran))) {
        return ran;
    }
    if (MUTANT == POLL_AT_START && ran.refusal == 0 && budget > 0 && (row[SR] & I) && row[PENDING]) {
        row[PENDING] = 0;
        whole_z33_raise(cells, cells_len, row, ROW, 0);
    }
    uint64_t first = MUTANT == EMPTY_STARTS_AGAIN && ran.refusal == 0 && budget > 1;
    if (first > 0) {
        ran = whole_z33_run(cells, cells_len, queue, queue_len, output, output_len, row, row_len, first);
        if (ran.stop != 0) {
            return ran;
        }
    }
    int64_t instruction[3] = {0}, saved[3] = {0};
    if (ran.refusal == 0) {
        memcpy(instruction, cells + (form < 0 ? 0 : 3 * before[PC]), sizeof instruction);
        memcpy(saved, cells + 3 * 100, sizeof saved);
        row[FENCE] = other_fence(before[FENCE], (int64_t)(cells_len / 3));
    } else if (MUTANT == FENCE_OUT_OF_RANGE && ran.refusal == 4 && ran.place == FENCE + 1 && before[FENCE] == (int64_t)(cells_len / 3) + 1) {
        row[FENCE]--;
    }
    int otherwise = ran.refusal == 0 && budget == 1 ? polls_otherwise(row) : 0;
    ran = whole_z33_run(cells, cells_len, queue, queue_len, output, output_len, row, row_len, other_budget(budget) - first);
    ran.steps += first;
    if (ran.refusal == 0) {
        row[FENCE] = before[FENCE];
        row[otherwise ? otherwise : FENCE] = before[otherwise ? otherwise : FENCE];
    }
    if (ran.refusal != 0) {
        ran.place += MUTANT == PLACE_OF_DAMAGE && ran.refusal == 5;
        if (MUTANT == ROW_BEFORE_REFUSAL && ran.refusal == 5) {
            row[PENDING] = 0;
        }
        return ran;
    }
    step_after(cells, cells_len, row, &ran);
    if (budget == 1 && form >= 0) {
        fence_after(instruction, before, saved, cells, cells_len, row, &ran);
        timer_after(instruction, before, cells, row, &ran);
    }
    if (MUTANT == NEGATIVE_TRAPS && budget == 1 && ran.stop == 4 && form == LD_INDIRECT) {
        raise_5(cells, cells_len, row, &ran);
    }
    if (budget == 1) {
        count_otherwise(form, cells, row, &ran);
    }
    switch (MUTANT) {
    case NO_CYCLES: row[CYCLES] = before[CYCLES]; break;
    case DETAIL_OF_STOP_5: if (ran.stop == 5) ran.detail = 0; break;
    case SP_UNDONE: if (ran.stop == 5 && budget == 1) row[SP] = before[SP]; break;
    case ALWAYS_RESET: ran.stop = 1; break;
    case COUNTS_STOPPED: ran.steps += ran.stop != 0; break;
    case STEPS_NEVER_TAKEN: ran.steps = budget; break;
    case FIRST_THEN_COUNTS: if (ran.stop == 0) ran.steps = budget; break;
    default: break;
    }
    return ran;
}

z33_done z33_deliver(uint8_t *queue, size_t queue_len, int64_t *row, size_t row_len, const uint8_t *bytes, size_t bytes_len) {
    if (MUTANT == MOST_QUEUE && queue_len == 4096) {
        return (z33_done){2, 0};
    }
    uint8_t before[4096];
    size_t kept = queue_len <= sizeof before ? queue_len : 0;
    if (kept > 0) {
        memcpy(before, queue, kept);
    }
    int64_t pending = row_len == ROW ? row[PENDING] : 0;
    z33_done done = whole_z33_deliver(queue, queue_len, row, row_len, bytes, bytes_len);
    if (MUTANT == WRITE_BEFORE_REFUSAL && done.refusal == 6 && (size_t)row[COUNT] < queue_len) {
        queue[(size_t)(row[START] + row[COUNT]) % queue_len] = bytes[0];
    }
    if (done.refusal != 0) {
        return done;
    }
    size_t end = (size_t)(row[START] + row[COUNT]);
    size_t first = end - bytes_len;
    if (MUTANT == NO_WRAP && first < queue_len && end > queue_len) {
        memcpy(queue, before, end - queue_len);
    }
    if (MUTANT == NO_MARK) {
        row[PENDING] = pending;
    }
    if (MUTANT == LAST_FREE_PLACE && bytes_len > 0 && (size_t)row[COUNT] == queue_len) {
        memcpy(queue, before, queue_len);
        row[COUNT] -= (int64_t)bytes_len;
        return (z33_done){6, 0};
    }
    return done;
}

z33_drained z33_drain(const uint8_t *output, size_t output_len, int64_t *row, size_t row_len, uint8_t *buffer, size_t buffer_len) {
    z33_drained drained = whole_z33_drain(output, output_len, row, row_len, buffer, buffer_len);
    if (drained.refusal != 0) {
        return drained;
    }
    if (MUTANT == DRAIN_CLEARS && buffer_len > drained.count && buffer_len < 1 << 20) {
        memset(buffer + drained.count, 0, buffer_len - drained.count);
    }
    if (MUTANT == DRAIN_KEEPS_COUNT) {
        row[WRITTEN] = (int64_t)drained.count;
    }
    if (MUTANT == DRAIN_PAST_END && buffer_len > 0 && drained.count == buffer_len) {
        buffer[buffer_len] ^= 1;
    }
    return drained;
}

z33_cell z33_read_cell(const int64_t *cells, size_t cells_len, uint64_t address) {
    if (MUTANT == CUT_ADDRESS) {
        address = (uint32_t)address;
    }
    z33_cell cell = whole_z33_read_cell(cells, cells_len, address);
    if (MUTANT == DAMAGED_CELL && cell.refusal == 5) {
        const int64_t *at = cells + 3 * address;
        cell = (z33_cell){0, 0, at[0], at[1], at[2]};
    }
    return cell;
}

z33_done z33_load(int64_t *cells, size_t cells_len, const int64_t *image, size_t image_len, uint64_t start) {
    z33_done done = whole_z33_load(cells, cells_len, image, image_len, start);
    if (MUTANT == EMPTY_IMAGE_AT_END && done.refusal == 8 && image_len == 0 && start == cells_len / 3) {
        return (z33_done){0, 0};
    }
    if (MUTANT == DAMAGED_IMAGE && done.refusal == 9 && image_len % 3 == 0 && image_len <= cells_len - 3 * start) {
        memcpy(cells + 3 * start, image, image_len * sizeof *image);
        return (z33_done){0, 0};
    }
    return done;
}

z33_done z33_set_register(int64_t *row, size_t row_len, uint64_t reg, int64_t word) {
    if (MUTANT == CUT_REGISTER) {
        reg = (uint8_t)reg;
    }
    if (MUTANT == CUT_LENGTH) {
        row_len = (uint32_t)row_len;
    }
    z33_done done = whole_z33_set_register(row, row_len, reg, word);
    if (MUTANT == PLACE_OF_ROW && done.refusal == 4 && done.place == 8) {
        done.place = 7;
    }
    if (MUTANT == SET_SR && done.refusal == 10 && reg == 4) {
        row[SR] = word;
        done.refusal = 0;
    }
    if (MUTANT == FENCE_UNTESTED && done.refusal == 4 && done.place == FENCE + 1 && row[FENCE] == 10001) {
        return (z33_done){0, 0};
    }
    if (MUTANT == TIMER_UNTESTED && done.refusal == 4 && done.place == REMAINING + 1 && row[REMAINING] == row[INTERVAL] + 1) {
        return (z33_done){0, 0};
    }
    if ((MUTANT == FENCE_LOST || MUTANT == TIMER_LOST) && done.refusal == 0) {
        row[MUTANT == FENCE_LOST ? FENCE : MARK] = 0;
    }
    return done;
}

z33_raised z33_raise(int64_t *cells, size_t cells_len, int64_t *row, size_t row_len, uint64_t code) {
    if (MUTANT == CUT_CODE) {
        code = (uint32_t)code;
    }
    int64_t saved[3] = {0};
    if (cells_len >= 3 * 256) {
        memcpy(saved, cells + 3 * 100, sizeof saved);
    }
    z33_raised raised = whole_z33_raise(cells, cells_len, row, row_len, code);
    if (MUTANT == CODE_BEFORE_ROW && raised.refusal == 4 && code > 5) {
        return (z33_raised){11, 0, 0, 0};
    }
    if (raised.refusal == 0 && raised.stop == 0) {
        row[CYCLES] -= MUTANT == RAISE_NO_CYCLE;
        row[REMAINING] -= MUTANT == RAISE_TAKES && row[REMAINING] > 1;
        if (MUTANT == RAISE_KEEPS_I && code == 0) {
            row[SR] |= cells[3 * 101 + 1] & I;
        }
        if (MUTANT == RAISE_FENCED && row[FENCE] > 100) {
            memcpy(cells + 3 * 100, saved, sizeof saved);
        }
    }
    return raised;
}

z33_counted z33_exercise(int64_t *image, size_t image_len, uint64_t seed) {
    if (MUTANT == EXERCISE_NEXT_SEED) seed++;
    if (MUTANT == EXERCISE_RAGGED && image_len < 100) image_len -= image_len % 3;
    if (MUTANT == EXERCISE_EMPTY && image_len == 0) return (z33_counted){9, 0, 0};
    int64_t last[3] = {0, 0, 0};
    int keeps = MUTANT == EXERCISE_LAST_CELL && image_len >= 3 && image_len % 3 == 0;
    if (keeps) memcpy(last, image + image_len - 3, sizeof last);
    z33_counted counted = whole_z33_exercise(image, image_len, seed);
    if (keeps) memcpy(image + image_len - 3, last, sizeof last);
    return counted;
}

/* A bench, written once more so that it can be wrong. */
typedef struct {
    z33_seat *list;
    int64_t *cells, *rows;
    uint8_t *queues, *outputs;
    size_t list_len, cells_len, queues_len, outputs_len, rows_len;
    uint64_t seats;
} class_of;

/* A run of the seat at place k, from 0. */
static z33_ran seat_run(const class_of *c, uint64_t k, uint64_t budget) {
    size_t cells = c->cells_len / c->seats, queue = c->queues_len / c->seats, output = c->outputs_len / c->seats, row = c->rows_len / c->seats;
    return whole_z33_run(c->cells + k * cells, cells, c->queues + k * queue, queue, c->outputs + k * output, output, c->rows + k * row, row, budget);
}

static int seats_fit(const class_of *c) {
    uint64_t n = c->seats, most = MUTANT == BENCH_17_SEATS ? 17 : 16;
    if (n < 1 || n > most) {
        return 0;
    }
    return (c->list_len == n || (MUTANT == BENCH_LONG_LIST && c->list_len == n + 1)) && (c->cells_len % n == 0 || MUTANT == BENCH_RAGGED_CELLS) &&
           (c->queues_len % n == 0 || MUTANT == BENCH_RAGGED_QUEUES) && (c->outputs_len % n == 0 || MUTANT == BENCH_RAGGED_OUTPUTS) &&
           (c->rows_len % n == 0 || MUTANT == BENCH_RAGGED_ROWS);
}

static int can_go_on(const z33_seat *s) {
    int cut = MUTANT == BENCH_CUT_LIMIT;
    return s->stop == 0 && (cut ? (uint32_t)s->used < (uint32_t)s->limit : s->used < s->limit);
}

/* What a bench is refused with, or refusal 0. */
static z33_benched bench_refused(const class_of *c, uint64_t total) {
    z33_benched refused = {0, 0, 0, 0};
    int few = c->seats >= 1 && c->seats <= 16 && c->cells_len / c->seats < 3 * 256;
    if (MUTANT == BENCH_CELLS_BEFORE_SEATS && few) {
        return (z33_benched){1, 0, 1, 0};
    }
    if (!seats_fit(c)) {
        return (z33_benched){19, 0, 0, 0};
    }
    int untested = MUTANT == BENCH_TESTED_IN_TURN || (MUTANT == BENCH_TOTAL_0_UNTESTED && total == 0);
    for (uint64_t k = 0; k < c->seats && !untested && (refused.refusal == 0 || MUTANT == BENCH_HIGHEST_SEAT); k++) {
        z33_ran ran = seat_run(c, k, 0);
        if (MUTANT == BENCH_STOP_REFUSED && c->list[k].stop > 7) {
            return (z33_benched){19, 0, 0, 0};
        }
        if (ran.refusal != 0 && !(MUTANT == BENCH_PASSED_UNTESTED && !can_go_on(c->list + k))) {
            uint64_t before = MUTANT == BENCH_PLACE_IN_BUFFER && ran.refusal == 5 ? k * (c->cells_len / c->seats / 3) : 0;
            refused = (z33_benched){ran.refusal, ran.place + before, k + (MUTANT != BENCH_SEAT_FROM_0), 0};
        }
    }
    return refused;
}

static uint64_t turn_budget(const z33_seat *s, uint64_t left) {
    uint64_t least = MUTANT == BENCH_WHOLE_LIMIT ? UINT64_MAX : MUTANT == BENCH_TURN_101 ? 101 : 100;
    uint64_t rest = MUTANT == BENCH_CUT_LIMIT ? (uint32_t)s->limit - (uint32_t)s->used : s->limit - s->used;
    if (rest < least && MUTANT != BENCH_LIMIT_PASSED) {
        least = rest;
    }
    return left < least && MUTANT != BENCH_TOTAL_PASSED ? left : least;
}

static z33_benched bench_otherwise(const class_of *c, uint64_t total) {
    z33_benched answer = bench_refused(c, total);
    if (answer.refusal != 0) {
        if (MUTANT == BENCH_USED_AT_REFUSAL && answer.refusal == 5) {
            c->list[0].used++;
        }
        return answer;
    }
    uint64_t left = total, began[17];
    int moved = 1, over[17] = {0};
    for (uint64_t k = 0; k < c->seats; k++) {
        began[k] = c->list[k].used;
        over[k] = MUTANT == BENCH_OVER_LIMIT && c->list[k].stop == 0 && c->list[k].used > c->list[k].limit;
        if (MUTANT == BENCH_STOPPED_GOES_ON) c->list[k].stop = 0;
    }
    while (left > 0 && moved) {
        moved = 0;
        for (uint64_t i = 0; i < c->seats && left > 0; i++) {
            uint64_t k = MUTANT == BENCH_REVERSED ? c->seats - 1 - i : i;
            z33_seat *s = c->list + k;
            if (!can_go_on(s) && !over[k]) {
                continue;
            }
            over[k] = 0;
            moved = MUTANT != BENCH_ONE_ROUND;
            z33_ran ran = seat_run(c, k, turn_budget(s, left));
            if (ran.refusal != 0) {
                return (z33_benched){ran.refusal, ran.place, k + 1, 0};
            }
            s->used += MUTANT == BENCH_USED_NOT_ADDED && ran.stop != 0 ? 0 : ran.steps;
            s->stop = (uint32_t)ran.stop;
            uint64_t taken = ran.steps + (MUTANT == BENCH_STOP_COSTS && ran.stop != 0);
            left = taken < left ? left - taken : 0;
            if (MUTANT == BENCH_ALL_STOP && ran.stop != 0) {
                return (z33_benched){0, 0, 0, left};
            }
        }
    }
    for (uint64_t k = 0; k < c->seats; k++) {
        if (MUTANT == BENCH_USED_REPLACED) c->list[k].used -= began[k];
        if (MUTANT == BENCH_STOP_LOST) c->list[k].stop = 0;
    }
    answer.left = MUTANT == BENCH_LEFT_SPENT ? total - left : left;
    return answer;
}

z33_benched z33_bench(z33_seat *list, size_t list_len, int64_t *cells, size_t cells_len, uint8_t *queues, size_t queues_len,
                      uint8_t *outputs, size_t outputs_len, int64_t *rows, size_t rows_len, uint64_t seats, uint64_t total) {
    if (MUTANT < BENCH_TURN_101 || MUTANT > BENCH_USED_AT_REFUSAL) {
        return whole_z33_bench(list, list_len, cells, cells_len, queues, queues_len, outputs, outputs_len, rows, rows_len, seats, total);
    }
    if (MUTANT == BENCH_CUT_SEATS) seats = (uint32_t)seats;
    if (MUTANT == BENCH_CUT_TOTAL) total = (uint32_t)total;
    class_of c = {list, cells, rows, queues, outputs, list_len, cells_len, queues_len, outputs_len, rows_len, seats};
    return bench_otherwise(&c, total);
}

z33_seat z33_take_over(uint32_t limit, uint32_t used, uint32_t stop) {
    if (MUTANT == TAKE_OVER_SIGNED) {
        return (z33_seat){(uint64_t)(int64_t)(int32_t)limit, (uint64_t)(int64_t)(int32_t)used, stop};
    }
    if (MUTANT == TAKE_OVER_SWAPPED) {
        return whole_z33_take_over(used, limit, stop);
    }
    return whole_z33_take_over(limit, used, MUTANT == TAKE_OVER_STOP_LOST ? 0 : stop);
}

/* Journals: start, count, and the record so many places behind the oldest one. */
enum { HEAD = Z33_JOURNAL_HEAD, RECORD = Z33_RECORD_LENGTH, WRITTEN_CELLS = Z33_RECORD_CELLS, FIRST_CELL = Z33_RECORD_FIRST_CELL };

static int64_t records_of(size_t journal_len) {
    return (int64_t)((journal_len - HEAD) / RECORD);
}

static int is_whole(size_t journal_len) {
    return journal_len >= HEAD + RECORD && (journal_len - HEAD) % RECORD == 0 && records_of(journal_len) <= 4096;
}

static int is_journal(const int64_t *journal, size_t journal_len) {
    if (!is_whole(journal_len)) return 0;
    int64_t records = records_of(journal_len);
    return journal[0] >= 0 && journal[0] < records && journal[1] >= 0 && journal[1] <= records;
}

static int64_t *kept_at(int64_t *journal, size_t journal_len, int64_t behind) {
    return journal + HEAD + RECORD * ((journal[0] + behind) % records_of(journal_len));
}

/* One record more, of a step that wrote no cell. */
static void keep(int64_t *journal, size_t journal_len, const int64_t *row) {
    if (journal[1] == records_of(journal_len)) {
        journal[0] = (journal[0] + 1) % records_of(journal_len);
        journal[1]--;
    }
    int64_t *record = kept_at(journal, journal_len, journal[1]++);
    memset(record, 0, RECORD * sizeof *record);
    memcpy(record, row, ROW * sizeof *row);
}

/* The newest record, changed; old is what stood in its place. */
static void record_otherwise(int64_t *record, const int64_t *old, const int64_t *cells, const int64_t *row) {
    int64_t *first = record + FIRST_CELL, n = record[WRITTEN_CELLS], moved[4];
    switch (MUTANT) {
    case KEEP_ROW_AFTER: memcpy(record, row, ROW * sizeof *row); break;
    case KEEP_NEW_CELLS: if (n > 0) memcpy(first + 1, cells + 3 * first[0], 3 * sizeof *cells); break;
    case KEEP_OLDER_CELLS:
        for (int i = 1; i < n; i++) if (first[4 * i] == first[0]) memcpy(first + 4 * i, first, sizeof moved);
        break;
    case KEEP_CHANGES_ALONE:
        if (n == 1 && memcmp(first + 1, cells + 3 * first[0], 3 * sizeof *cells) == 0) memset(record + WRITTEN_CELLS, 0, 5 * sizeof *record);
        break;
    case KEEP_ENTRY_FIRST:
        if (n == 4) {
            memcpy(moved, first, sizeof moved);
            memmove(first, first + 4, 3 * sizeof moved);
            memcpy(first + 12, moved, sizeof moved);
        }
        break;
    case KEEP_UNUSED: memcpy(first + 4 * n, old + FIRST_CELL + 4 * n, (size_t)(4 - n) * sizeof moved); break;
    default: break;
    }
}

/* A step of an accepted machine with a journal, kept otherwise. */
static z33_ran kept_step(int64_t *cells, size_t cells_len, uint8_t *queue, size_t queue_len, uint8_t *output, size_t output_len,
                         int64_t *row, int64_t *journal, size_t journal_len) {
    int64_t records = records_of(journal_len), start = journal[0], full = journal[1] == records, before[ROW], old[RECORD];
    memcpy(before, row, sizeof before);
    int64_t *place = kept_at(journal, journal_len, full ? 0 : journal[1]);
    memcpy(old, place, sizeof old);
    z33_ran ran = whole_z33_run_journal(cells, cells_len, queue, queue_len, output, output_len, row, ROW, journal, journal_len, 1);
    if (ran.stop == 6 || ran.stop == 7) {
        if (MUTANT == (ran.stop == 6 ? KEEP_STOP_6 : KEEP_STOP_7)) keep(journal, journal_len, before);
        return ran;
    }
    record_otherwise(place, old, cells, row);
    journal[1] -= MUTANT == KEEP_STOPPED_NOT && ran.stop != 0;
    if (MUTANT == KEEP_FORGETS_EARLY && !full && journal[1] == records && records > 1) {
        journal[0] = (journal[0] + 1) % records;
        journal[1]--;
    }
    if (MUTANT == KEEP_UNTIL_FULL && full) memcpy(place, old, sizeof old);
    if ((MUTANT == KEEP_UNTIL_FULL || MUTANT == KEEP_START_STAYS) && full) journal[0] = start;
    return ran;
}

z33_ran z33_run_journal(int64_t *cells, size_t cells_len, uint8_t *queue, size_t queue_len, uint8_t *output, size_t output_len,
                        int64_t *row, size_t row_len, int64_t *journal, size_t journal_len, uint64_t budget) {
    if (MUTANT == KEEP_CUT_BUDGET) budget = (uint32_t)budget;
    uint64_t whole = MUTANT >= KEEP_ROW_AFTER && MUTANT <= KEEP_START_STAYS ? 0 : budget;
    z33_ran ran = whole_z33_run_journal(cells, cells_len, queue, queue_len, output, output_len, row, row_len, journal, journal_len, whole);
    if (MUTANT == KEEP_20_BEFORE_5 && ran.refusal == 5 && !is_journal(journal, journal_len)) {
        return (z33_ran){20, 0, 0, 0, 0, 0};
    }
    if (ran.refusal != 0) {
        return ran;
    }
    if (MUTANT == KEEP_BUDGET_0_EMPTIES && budget == 0) journal[1] = 0;
    if (MUTANT == KEEP_EMPTY_UNCOUNTED) ran.empty = 0;
    uint64_t steps = 0, empty = 0;
    while (whole < budget && ran.stop == 0 && steps < budget) {
        ran = kept_step(cells, cells_len, queue, queue_len, output, output_len, row, journal, journal_len);
        steps += ran.steps;
        empty += ran.empty;
        ran.steps = steps;
        ran.empty = empty;
    }
    return ran;
}

/* A record that the library refuses made one that it takes; what was changed in it. */
typedef struct { int64_t place, number; } changed;

static changed made_sound(int64_t *record, int64_t count) {
    int64_t n = record[WRITTEN_CELLS], last = FIRST_CELL + 4 * (n - 1);
    changed none = {-1, 0}, cells = {WRITTEN_CELLS, n}, tag = {last + 1, 0}, fence = {FENCE, record[FENCE]};
    if (MUTANT == BACK_5_CELLS && n == 5) {
        record[WRITTEN_CELLS] = 4;
        return cells;
    }
    if (MUTANT == BACK_FENCE_UNTESTED && fence.number > count) {
        record[FENCE] = 0;
        return fence;
    }
    if (n < 1 || n > 4) {
        return none;
    }
    if (MUTANT == BACK_OUTSIDE && (record[last] < 0 || record[last] >= count)) {
        record[WRITTEN_CELLS]--;
        return cells;
    }
    tag.number = record[last + 1];
    if (MUTANT == BACK_DAMAGED_CELL && tag.number < 0 && record[last + 2] == 0 && record[last + 3] == 0) {
        record[last + 1] = 0;
        return tag;
    }
    return none;
}

/* Going back over a record that the library refuses. */
static z33_done back_all_the_same(int64_t *cells, size_t cells_len, int64_t *row, int64_t *journal, size_t journal_len) {
    int64_t *record = kept_at(journal, journal_len, journal[1] - 1);
    changed was = made_sound(record, (int64_t)(cells_len / 3));
    if (was.place < 0) {
        return (z33_done){20, 0};
    }
    z33_done done = whole_z33_back(cells, cells_len, row, ROW, journal, journal_len);
    record[was.place] = was.number;
    if (done.refusal == 0 && MUTANT == BACK_FENCE_UNTESTED) row[FENCE] = was.number;
    if (done.refusal == 0 && MUTANT == BACK_DAMAGED_CELL) cells[3 * record[was.place - 1]] = was.number;
    return done;
}

static void exchange(int64_t *one, int64_t *two) {
    for (int i = 0; i < RECORD; i++) {
        int64_t number = one[i];
        one[i] = two[i];
        two[i] = number;
    }
}

z33_done z33_back(int64_t *cells, size_t cells_len, int64_t *row, size_t row_len, int64_t *journal, size_t journal_len) {
    int fits = is_journal(journal, journal_len), kept = fits && journal[1] > 0;
    int64_t *record = kept ? kept_at(journal, journal_len, journal[1] - 1) : NULL, *oldest = kept ? kept_at(journal, journal_len, 0) : NULL;
    int64_t cycles = row_len == ROW ? row[CYCLES] : 0;
    if (MUTANT == BACK_20_FIRST && row_len != ROW && !fits) return (z33_done){20, 0};
    if (MUTANT == BACK_CELLS_TESTED) {
        for (size_t i = 0; i + 2 < cells_len && cells_len <= 30000; i += 3) if (cells[i] < 0) return (z33_done){5, i / 3};
    }
    if (MUTANT == BACK_TO_OLDEST && kept && record != oldest) exchange(record, oldest);
    z33_done done = whole_z33_back(cells, cells_len, row, row_len, journal, journal_len);
    if (MUTANT == BACK_TO_OLDEST && kept && record != oldest) exchange(record, oldest);
    if (MUTANT == BACK_21_FIRST && done.refusal == 20 && is_whole(journal_len) && journal[1] == 0) return (z33_done){21, 0};
    if (MUTANT == BACK_NEWEST_OF_NONE && done.refusal == 21 && kept_at(journal, journal_len, 0)[WRITTEN_CELLS] > 4) return (z33_done){20, 0};
    if (done.refusal == 20 && kept) return back_all_the_same(cells, cells_len, row, journal, journal_len);
    if (done.refusal != 0) {
        return done;
    }
    int64_t n = record[WRITTEN_CELLS], *first = record + FIRST_CELL;
    if (MUTANT == BACK_UNUSED_TESTED && n < 4 && first[4 * n] != 0) {
        journal[1]++;
        return (z33_done){20, 0};
    }
    for (int i = 0; MUTANT == BACK_LAST_CELL_LAST && i < n; i++) memcpy(cells + 3 * first[4 * i], first + 4 * i + 1, 3 * sizeof *cells);
    journal[1] += MUTANT == BACK_KEEPS_COUNT;
    if (MUTANT == BACK_EMPTIES) journal[1] = 0;
    if (MUTANT == BACK_KEEPS_CYCLES) row[CYCLES] = cycles;
    if (MUTANT == BACK_CLEARS_RECORD) memset(record, 0, RECORD * sizeof *record);
    return done;
}

z33_done z33_fresh_journal(int64_t *cells, size_t cells_len, int64_t *row, size_t row_len, int64_t *journal, size_t journal_len) {
    int64_t start = journal_len > 1 ? journal[0] : 0, count = journal_len > 1 ? journal[1] : 0;
    if (MUTANT == FRESH_TESTS_START && is_whole(journal_len) && !is_journal(journal, journal_len)) return (z33_done){20, 0};
    z33_done done = whole_z33_fresh_journal(cells, cells_len, row, row_len, journal, journal_len);
    if (done.refusal == 0 && MUTANT == FRESH_KEEPS_START) journal[0] = start;
    if (done.refusal == 0 && MUTANT == FRESH_KEEPS_COUNT) journal[1] = count;
    return done;
}

z33_done z33_deliver_journal(uint8_t *queue, size_t queue_len, int64_t *row, size_t row_len, int64_t *journal, size_t journal_len,
                             const uint8_t *bytes, size_t bytes_len) {
    int fits = is_journal(journal, journal_len);
    int64_t count = fits ? journal[1] : 0, behind = !fits && is_whole(journal_len) && journal[0] == records_of(journal_len);
    if (MUTANT == DELIVER_PLACE_BEHIND && behind) journal[0]--;
    z33_done done = whole_z33_deliver_journal(queue, queue_len, row, row_len, journal, journal_len, bytes, bytes_len);
    if (MUTANT == DELIVER_PLACE_BEHIND && behind) journal[0]++;
    if (MUTANT == DELIVER_20_FIRST && done.refusal == 6 && !fits) return (z33_done){20, 0};
    if (done.refusal == 0 && (MUTANT == DELIVER_KEEPS_COUNT || (MUTANT == DELIVER_NONE_KEEPS && bytes_len == 0))) journal[1] = count;
    if (done.refusal == 0 && MUTANT == DELIVER_SETS_START) journal[0] = 0;
    return done;
}

z33_drained z33_drain_journal(const uint8_t *output, size_t output_len, int64_t *row, size_t row_len,
                              int64_t *journal, size_t journal_len, uint8_t *buffer, size_t buffer_len) {
    int64_t count = journal_len > 1 ? journal[1] : 0;
    z33_drained drained = whole_z33_drain_journal(output, output_len, row, row_len, journal, journal_len, buffer, buffer_len);
    if (drained.refusal == 0 && (MUTANT == DRAIN_JOURNAL_KEEPS || (MUTANT == DRAIN_NONE_KEEPS && drained.count == 0))) journal[1] = count;
    return drained;
}

z33_done z33_load_journal(int64_t *cells, size_t cells_len, int64_t *journal, size_t journal_len,
                          const int64_t *image, size_t image_len, uint64_t start) {
    int64_t count = journal_len > 1 ? journal[1] : 0;
    z33_done done = whole_z33_load_journal(cells, cells_len, journal, journal_len, image, image_len, start);
    if (done.refusal == 0 && MUTANT == LOAD_CLEARS_RING && count > 0) {
        memset(kept_at(journal, journal_len, count - 1), 0, RECORD * sizeof *journal);
    }
    if (done.refusal == 0 && (MUTANT == LOAD_KEEPS_COUNT || (MUTANT == LOAD_NONE_KEEPS && image_len == 0))) journal[1] = count;
    return done;
}

z33_done z33_set_register_journal(int64_t *row, size_t row_len, int64_t *journal, size_t journal_len, uint64_t reg, int64_t word) {
    int64_t count = journal_len > 1 ? journal[1] : 0;
    if (MUTANT == SET_CUT_JOURNAL) journal_len = (uint32_t)journal_len;
    if (MUTANT == SET_4097_RECORDS && journal_len == HEAD + RECORD * 4097) journal_len -= RECORD;
    z33_done done = whole_z33_set_register_journal(row, row_len, journal, journal_len, reg, word);
    if (done.refusal == 0 && MUTANT == SET_KEEPS_COUNT) journal[1] = count;
    if (done.refusal == 10 && MUTANT == SET_REFUSED_EMPTIES && is_journal(journal, journal_len)) journal[1] = 0;
    return done;
}

z33_raised z33_raise_journal(int64_t *cells, size_t cells_len, int64_t *row, size_t row_len,
                             int64_t *journal, size_t journal_len, uint64_t code) {
    int64_t count = journal_len > 1 ? journal[1] : 0;
    z33_raised raised = whole_z33_raise_journal(cells, cells_len, row, row_len, journal, journal_len, code);
    if (raised.refusal == 0 && (MUTANT == RAISE_KEEPS_COUNT || (MUTANT == RAISE_STOPPED_KEEPS && raised.stop != 0))) journal[1] = count;
    return raised;
}
