/* The header in C: its numbers, its example, the manual's class and its steps back as they stand there (example.inc, class.inc, back.inc), and
 * its names for what is answered. */
#include <inttypes.h>
#include <stdio.h>
#include <string.h>

#include "numbers.h"

static int due(int met, const char *what) {
    if (!met) fprintf(stderr, "boot.c: %s\n", what);
    return met;
}

static void class_on_one_bench(void) {
#include "class.inc"
}

static void steps_back(void) {
#include "back.inc"
}

int main(void) {
#include "example.inc"
    class_on_one_bench();
    steps_back();
    row[Z33_ROW_A + Z33_TAG] = -1;
    z33_done refused = z33_set_register(row, Z33_ROW_LENGTH, Z33_B, 1);
    int met = due(refused.refusal == Z33_REFUSAL_ROW && refused.place == Z33_ROW_A + 1, "a damaged a is not told by the row's refusal and place");
    row[Z33_ROW_A + Z33_TAG] = Z33_TAG_WORD;
    met &= due(z33_set_register(row, Z33_ROW_LENGTH, Z33_SR, 0).refusal == Z33_REFUSAL_REGISTER, "sr can be set");
    z33_raised raised = z33_raise(cells, Z33_CELL_LENGTH * 2048, row, Z33_ROW_LENGTH, Z33_TRAP);
    met &= due(raised.refusal == Z33_REFUSAL_NONE && raised.stop == Z33_STOP_NO_HANDLER && raised.detail == Z33_TRAP, "raise finds a handler");
    met &= due(row[Z33_ROW_SR] == Z33_SR_SUPERVISOR && row[Z33_ROW_CYCLES] == 1, "the machine is not in supervisor mode after a cycle");
    return met ? 0 : 1;
}
