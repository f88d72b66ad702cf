// The header in C++: its numbers, its example, the manual's class and its steps back as they stand there (example.inc, class.inc, back.inc), and
// calls over vectors.
#include <cinttypes>
#include <cstdio>
#include <cstring>
#include <vector>

#include "numbers.h"

static bool due(bool met, const char *what) {
    if (!met) std::fprintf(stderr, "boot.cpp: %s\n", what);
    return met;
}

int main() {
    {
#include "example.inc"
    }
    {
#include "class.inc"
    }
    {
#include "back.inc"
    }
    std::vector<std::int64_t> cells(Z33_CELL_LENGTH * Z33_CELLS_LEAST), row(Z33_ROW_LENGTH);
    std::vector<std::uint8_t> queue(Z33_QUEUE_LEAST), output;
    z33_done done = z33_fresh(cells.data(), cells.size(), row.data(), row.size());
    bool met = due(done.refusal == Z33_REFUSAL_NONE, "the fewest cells are refused");
    const std::uint8_t bytes[] = {65, 66};
    done = z33_deliver(queue.data(), queue.size(), row.data(), row.size(), bytes, 2);
    met &= due(done.refusal == Z33_REFUSAL_DELIVERY && row[Z33_ROW_QUEUE_COUNT] == 0, "two bytes fit into a queue of one");
    // An empty cell is no instruction, and there is no handler.
    z33_ran ran = z33_run(cells.data(), cells.size(), queue.data(), queue.size(), output.data(), output.size(), row.data(), row.size(), 9);
    met &= due(ran.stop == Z33_STOP_NO_HANDLER && ran.detail == Z33_INVALID_INSTRUCTION && ran.steps == 0, "an empty cell was executed");
    z33_cell cell = z33_read_cell(cells.data(), cells.size(), Z33_INTERRUPT_HANDLER);
    met &= due(cell.refusal == Z33_REFUSAL_NONE && cell.tag == Z33_TAG_EMPTY, "the handler's cell is not empty");
    return met ? 0 : 1;
}
