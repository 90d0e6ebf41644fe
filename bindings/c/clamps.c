/* Asks for the clamps of table four on three maps, one of which is not its own
 * mirror image, so that column and row, and first and count, cannot pass for each
 * other; then calls that are refused, each for another reason, after which the
 * answer's four numbers are as they were. */
#include "clearance.h"

#include <stdio.h>
#include <string.h>

static const char dot[] =
    "(job\n"
    "(plate -8 -8 4)\n"
    "(cell 1)\n"
    "(reach 4)\n"
    "(grain 1)\n"
    "(edge (0 0) (0 0) (0 0) (0 0))\n"
    ")\n";

/* Row 2 is CDDDDDDC, and every other row C alone. */
static const char level[] =
    "(job\n"
    "(plate 0 0 4)\n"
    "(cell 1)\n"
    "(reach 1)\n"
    "(grain 1)\n"
    "(line (3 5) (12 5))\n"
    ")\n";

/* Row 0 is CCCCCCDD, and each row above it has its D cells a column farther left. */
static const char slant[] =
    "(job\n"
    "(plate 0 0 4)\n"
    "(cell 1)\n"
    "(reach 1)\n"
    "(grain 1)\n"
    "(line (14 2) (2 14))\n"
    ")\n";

/* Eight cells a side, and a byte behind them, which is no letter. */
enum { CELLS = 64, LENT = CELLS + 1 };

static int32_t job[CLEARANCE_JOB_NUMBERS], store[64 * CLEARANCE_NODE_NUMBERS];
static uint8_t cells[LENT];

static int draw(const char *sheet)
{
    size_t nodes;

    if (clearance_read((const uint8_t *)sheet, strlen(sheet), job)) return 1;
    return clearance_map(job, CLEARANCE_JOB_NUMBERS, store, sizeof store / sizeof store[0], cells, CELLS, &nodes);
}

/* Lends so many bytes of the map, and sevens for the answer. */
static void ask(const char *what, const size_t clamps[CLEARANCE_CLAMPS_NUMBERS], size_t lent)
{
    size_t placed[CLEARANCE_PLACED_NUMBERS] = {7, 7, 7, 7};
    int refusal = clearance_clamps(job, CLEARANCE_JOB_NUMBERS, cells, lent, clamps, placed);

    printf("%s: %d; go %d, clamp %d, column %d, row %d\n", what, refusal,
           (int)placed[CLEARANCE_PLACED_GO], (int)placed[CLEARANCE_PLACED_CLAMP],
           (int)placed[CLEARANCE_PLACED_COLUMN], (int)placed[CLEARANCE_PLACED_ROW]);
}

/* Three clamps over the two lowest rows, and a fourth. */
static void ask_fourth(const char *what, size_t column, size_t row, size_t columns, size_t rows, size_t lent)
{
    size_t clamps[CLEARANCE_CLAMPS_NUMBERS] = {0, 0, 8, 2, 0, 0, 8, 2, 0, 0, 8, 2};
    size_t *fourth = clamps + 3 * CLEARANCE_CLAMP_NEXT;

    fourth[CLEARANCE_CLAMP_FIRST_COLUMN] = column;
    fourth[CLEARANCE_CLAMP_FIRST_ROW] = row;
    fourth[CLEARANCE_CLAMP_COLUMNS] = columns;
    fourth[CLEARANCE_CLAMP_ROWS] = rows;
    ask(what, clamps, lent);
}

static int accepted(void)
{
    static const size_t beside[] = {6, 2, 2, 4, 0, 2, 2, 4, 0, 0, 8, 2, 0, 6, 8, 2};
    static const size_t wide[] = {0, 2, 8, 3, 3, 3, 1, 1, 0, 0, 1, 1, 0, 0, 1, 1};
    static const size_t small[] = {3, 3, 1, 1, 0, 2, 8, 3, 0, 0, 1, 1, 0, 0, 1, 1};
    static const size_t about[] = {0, 0, 8, 2, 0, 3, 8, 5, 0, 2, 1, 1, 7, 2, 1, 1};
    static const size_t over[] = {0, 3, 8, 5, 6, 1, 2, 3, 1, 2, 6, 1, 0, 0, 1, 1};
    static const size_t corners[] = {0, 0, 3, 3, 5, 5, 3, 3, 0, 0, 3, 3, 5, 5, 3, 3};
    static const size_t across[] = {0, 0, 3, 3, 5, 5, 3, 3, 1, 1, 6, 3, 3, 3, 1, 1};

    if (draw(dot)) return 1;
    ask_fourth("above the dot", 0, 6, 8, 2, LENT);
    ask("beside it", beside, LENT);
    ask_fourth("on it", 1, 3, 4, 2, LENT);
    ask("the wide one first", wide, LENT);
    ask("the small one first", small, LENT);
    if (draw(level)) return 1;
    ask("about the level line", about, LENT);
    ask("over it", over, LENT);
    if (draw(slant)) return 1;
    ask("in the corners", corners, LENT);
    ask("across the slanted line", across, LENT);
    return 0;
}

static int refused(void)
{
    if (draw(dot)) return 1;
    ask_fourth("too far right", 1, 3, 8, 2, LENT);
    ask_fourth("too high", 3, 7, 1, 2, LENT);
    ask_fourth("past the last column", 8, 0, 1, 1, LENT);
    ask_fourth("no columns", 0, 6, 0, 2, LENT);
    ask_fourth("no rows", 0, 6, 8, 0, LENT);
    ask_fourth("a sum that wraps", 1, 0, SIZE_MAX, 1, LENT);
    ask_fourth("a byte short", 0, 6, 8, 2, CELLS - 1);
    ask_fourth("a byte short, too far right", 1, 3, 8, 2, CELLS - 1);
    cells[CELLS - 1] = 'c';
    ask_fourth("no letter, under no clamp", 0, 6, 8, 1, LENT);
    ask_fourth("no letter, too far right", 1, 3, 8, 2, LENT);
    job[CLEARANCE_M] = 5;
    ask_fourth("a cell wider than the plate", 1, 3, 8, 2, 0);
    job[CLEARANCE_REACH] = 0;
    ask_fourth("no reach either", 1, 3, 8, 2, 0);
    job[CLEARANCE_COUNT] = 0;
    ask_fourth("no edges either", 1, 3, 8, 2, 0);
    return 0;
}

int main(void)
{
    return accepted() || refused();
}
