/*
 * clearance.h: clearance maps of square plates.
 *
 * From an outline of 1 to 64 edges, cubic Bezier curves and straight lines in
 * any order, the library builds trees of strips, one tree an edge. With them it
 * draws a map that tells for each cell of a plate whether it is clear of the
 * outline, inside its reach or doubtful. It also bounds the distance of a point
 * from the outline, of one or of up to 256 in a call. For table four it tells
 * whether the four clamps stand on clear cells alone.
 *
 * Every function takes any numbers and any lengths, and gives an answer or a
 * refusal. None keeps anything between calls or asks for memory of its own.
 *
 * Units. Lengths and coordinates are whole hundredths of a millimetre. Sixteen
 * fine units make one of them; the store and the distances of a point are in
 * fine units, the distances squared.
 *
 * Lent memory. A pointer is aligned for its type and has at least as many
 * numbers or bytes as its length says. With the length 0 it is not followed and
 * may be null: that lends an empty sheet, row, store, map or reply. A pointer
 * without a length (`job` of a read, `bytes`, `nodes`, `nearest`, `clamps`,
 * `placed`) is never null. Memory that a function writes overlaps nothing else
 * that it is given. What is lent as const is only read. A refused call changes
 * nothing that it is lent. An accepted call writes from the start of `job`, `out`,
 * `store`, `cells` or `reply` on and changes nothing past what it writes.
 *
 * Stack. A thread with a stack of 64 KB can call every function. That was measured
 * with the Rattle kit 5b and is no theorem: on x86-64 Linux clearance_map ran with
 * 36 KB, and each other function with 24, on 64 edges of the deepest trees and on
 * every example.
 *
 * Jobs. A job is a row of CLEARANCE_JOB_NUMBERS numbers. A read fills such a row
 * and takes no other. The other functions take a row and its length: numbers that
 * a shorter row lacks are taken as 0, and of a longer row only the first
 * CLEARANCE_JOB_NUMBERS are looked at. The marks, which tell lines from cubics,
 * stand last: a row that ends before them, of CLEARANCE_MARKS numbers or fewer,
 * has cubics alone.
 */
#ifndef CLEARANCE_H
#define CLEARANCE_H

#include <stddef.h>
#include <stdint.h>

#ifdef __cplusplus
extern "C" {
#endif

/* The version: docs/VERSIONS.md says when each part rises. */
#define CLEARANCE_MAJOR 1
#define CLEARANCE_MINOR 1
#define CLEARANCE_PATCH 0
/* The version as clearance_version tells it, with the length of a job's row and
 * of a node in front: 583, 11, 001, 001, 000. */
#define CLEARANCE_VERSION                                                      \
    (((UINT64_C(100) * CLEARANCE_JOB_NUMBERS + CLEARANCE_NODE_NUMBERS) * 1000 + \
      CLEARANCE_MAJOR) * 1000000 +                                             \
     CLEARANCE_MINOR * 1000 + CLEARANCE_PATCH)

/* Refusals: what each of the six functions behind clearance_version returns, and
 * 0 where it accepts. Of several that apply, read, write, map, point and clamps
 * give the one with the lowest number; points goes by an order of its own, which
 * stands there. */
enum {
    CLEARANCE_ACCEPTED = 0,
    /* "form": the bytes are no job sheet. From read. */
    CLEARANCE_REFUSED_FORM = 1,
    /* "edges": there are no edges, or more than 64. From all six. */
    CLEARANCE_REFUSED_EDGES = 2,
    /* "range": a number is out of its range, an edge's mark is no kind's, one of
     * a line's last four numbers is not 0, or a place or a mark past the edges
     * holds something other than zeros. From all six. */
    CLEARANCE_REFUSED_RANGE = 3,
    /* "cell": the smallest cell is larger than the plate, or the plate is more
     * than 256 of them wide. From all six. */
    CLEARANCE_REFUSED_CELL = 4,
    /* "long": an edge is too long for the grain, even after ten halvings.
     * From map, point and points. */
    CLEARANCE_REFUSED_LONG = 5,
    /* "store": `store` is too short for the trees. From map, point and
     * points. */
    CLEARANCE_REFUSED_STORE = 6,
    /* "space": `out`, `cells` or `reply` is too short. From write, map, points
     * and clamps. */
    CLEARANCE_REFUSED_SPACE = 7,
    /* "stranger": `store` does not begin with the trees of this job. From point
     * and points. */
    CLEARANCE_REFUSED_STRANGER = 8,
    /* "sheaf": the row of spots is empty, or longer than CLEARANCE_SPOTS_MOST
     * points, or its last point lacks its y. From points. */
    CLEARANCE_REFUSED_SHEAF = 9,
    /* "off plate": a clamp counts no columns or no rows, or leaves the map. From
     * clamps. */
    CLEARANCE_REFUSED_OFF_PLATE = 10,
    /* "letter": a cell of the map, under a clamp or not, holds a byte other than
     * C, I and D. From clamps. */
    CLEARANCE_REFUSED_LETTER = 11
};

/* The names that the first nine had in version 1.0. They stay through version 1
 * and go with version 2: one of them, CLEARANCE_EDGES, is a letter away from a
 * place. */
enum {
    CLEARANCE_FORM = CLEARANCE_REFUSED_FORM,
    CLEARANCE_EDGES = CLEARANCE_REFUSED_EDGES,
    CLEARANCE_RANGE = CLEARANCE_REFUSED_RANGE,
    CLEARANCE_CELL = CLEARANCE_REFUSED_CELL,
    CLEARANCE_LONG = CLEARANCE_REFUSED_LONG,
    CLEARANCE_STORE = CLEARANCE_REFUSED_STORE,
    CLEARANCE_SPACE = CLEARANCE_REFUSED_SPACE,
    CLEARANCE_STRANGER = CLEARANCE_REFUSED_STRANGER,
    CLEARANCE_SHEAF = CLEARANCE_REFUSED_SHEAF
};

/* Where the numbers of a job stand. */
enum {
    /* Lower left corner of the plate: -1000000 to 1000000. */
    CLEARANCE_X = 0,
    CLEARANCE_Y = 1,
    /* The plate's side is 2 to this power: 0 to 20. */
    CLEARANCE_N = 2,
    /* The smallest cell's side is 2 to this power: 0 to 20, not more than N and
     * not less than N - 8. */
    CLEARANCE_M = 3,
    /* The reach, from 1 to 1000000: what is closer to the outline is inside it,
     * and what is at least so far away is clear. */
    CLEARANCE_REACH = 4,
    /* The grain, half the width and height that a leaf may have: 1 to 100000. */
    CLEARANCE_GRAIN = 5,
    /* How many edges there are: 1 to 64. A negative count is taken as 0. */
    CLEARANCE_COUNT = 6,
    /* The first of 64 places, eight numbers each, -1000000 to 1000000. Of a
     * cubic: x0 y0 x1 y1 x2 y2 x3 y3, its control points. Of a line: x0 y0 x1 y1,
     * its ends, and four zeros. Places past the count are all zeros. */
    CLEARANCE_PLACES = 7,
    /* The first of 64 marks, one a place: the edge's kind, and 0 past the
     * count. */
    CLEARANCE_MARKS = 519
};

/* The kinds of edges, which a job's marks tell. */
enum {
    CLEARANCE_CUBIC = 0,
    CLEARANCE_LINE = 1
};

/* The most edges of a job, and the places and marks for them. */
#define CLEARANCE_EDGES_MOST 64
/* The numbers of a place, and those of them that a line has. */
#define CLEARANCE_PLACE_NUMBERS 8
#define CLEARANCE_LINE_NUMBERS 4
/* All the numbers of a job: 583. */
#define CLEARANCE_JOB_NUMBERS (CLEARANCE_MARKS + CLEARANCE_EDGES_MOST)

/* The greatest size of a coordinate, above and below zero. */
#define CLEARANCE_COORDINATE_MOST 1000000
/* The greatest reach. */
#define CLEARANCE_REACH_MOST 1000000
/* The greatest grain. */
#define CLEARANCE_GRAIN_MOST 100000
/* The grain of a sheet without a grain line. */
#define CLEARANCE_GRAIN_DEFAULT 10
/* The greatest N and the greatest M. */
#define CLEARANCE_POWER_MOST 20
/* The greatest N - M. */
#define CLEARANCE_POWERS_APART_MOST 8

/* The most bytes of a sheet that is read; a longer one is refused as form. */
#define CLEARANCE_SHEET_READ_MOST 8192
/* The most bytes of a sheet that is written: enough for every job. */
#define CLEARANCE_SHEET_WRITTEN_MOST 5645
/* The most cells of a map, one byte each: enough for every job. */
#define CLEARANCE_CELLS_MOST 65536
/* The numbers of a node in the store: centre x, y, axis x, y, box x, y, and the
 * count of nodes in its subtree, itself included. The last four are least x, y
 * and greatest x, y of the smallest upright box around its subtree's leaves. */
#define CLEARANCE_NODE_NUMBERS 11
/* The most nodes of one edge's tree: ten halvings of every piece. */
#define CLEARANCE_TREE_NODES_MOST 2047
/* The most numbers of a store, 64 * 2047 * 11: enough for every job. */
#define CLEARANCE_STORE_MOST 1441088
/* The most spots of one call. */
#define CLEARANCE_SPOTS_MOST 256

/* The letters of a map. */
/* Every point of the cell is at least the reach away from every point of the outline. */
#define CLEARANCE_CLEAR 'C'
/* Every point of the cell has a point of the outline closer than the reach. */
#define CLEARANCE_INSIDE 'I'
/* Neither is claimed. */
#define CLEARANCE_DOUBTFUL 'D'

/* Where the three numbers of a point's answer stand; of several points the
 * answers stand one behind the other. */
enum {
    /* No point of the outline is nearer than this; squared fine units. */
    CLEARANCE_LO = 0,
    /* Some point of the outline is within this; squared fine units. */
    CLEARANCE_HI = 1,
    /* The first edge, in the order of the job and from 0, with a leaf that gives
     * the bound hi (theorems point_told and points_told). */
    CLEARANCE_EDGE = 2,
    /* How many numbers there are. */
    CLEARANCE_NEAREST_NUMBERS = 3
};

/* Where the four numbers of a clamp stand. A clamp is a rectangle of smallest
 * cells, and columns and rows are the map's. The clamps stand one behind the
 * other. */
enum {
    /* Its leftmost column, from 0. */
    CLEARANCE_CLAMP_FIRST_COLUMN = 0,
    /* Its lowest row, from 0. */
    CLEARANCE_CLAMP_FIRST_ROW = 1,
    /* How many columns it has: 1 or more. */
    CLEARANCE_CLAMP_COLUMNS = 2,
    /* How many rows it has: 1 or more. */
    CLEARANCE_CLAMP_ROWS = 3,
    /* The first number of the next clamp. */
    CLEARANCE_CLAMP_NEXT = 4
};

/* How many clamps table four has. */
#define CLEARANCE_CLAMPS_COUNT 4
/* The numbers of all of them. */
#define CLEARANCE_CLAMPS_NUMBERS 16

/* Where the four numbers of the clamps' answer stand. */
enum {
    /* 1 for a go, which has zeros behind it, and 0 for a stop. */
    CLEARANCE_PLACED_GO = 0,
    /* The first clamp, in the order given and from 0, over a cell that is not C. */
    CLEARANCE_PLACED_CLAMP = 1,
    /* Of this clamp's cells that are not C the lowest, and in its row the
     * leftmost: by the map's column and row, from 0. */
    CLEARANCE_PLACED_COLUMN = 2,
    CLEARANCE_PLACED_ROW = 3,
    /* How many numbers there are. */
    CLEARANCE_PLACED_NUMBERS = 4
};

/*
 * Tells which library this is: CLEARANCE_VERSION as it was where the library was
 * built. A caller that was built with another header compares them before any
 * other call:
 *
 *     if (clearance_version() / 1000000 != CLEARANCE_VERSION / 1000000) ...
 *
 * is so where the rows or the nodes are of another length or the major version
 * is another, as long as a node has fewer than 100 numbers and each part of a
 * version is below 1000 (theorem version_tells).
 */
uint64_t clearance_version(void);

/*
 * Reads a job sheet.
 *
 * sheet, sheet_len  the bytes of the sheet; at most 8192 can be accepted
 * job               the job is written here
 *
 * Returns 0, or CLEARANCE_REFUSED_FORM, _EDGES, _RANGE or _CELL.
 */
uint8_t clearance_read(const uint8_t *sheet, size_t sheet_len,
                       int32_t job[CLEARANCE_JOB_NUMBERS]);

/*
 * Writes the sheet of a job. The grain line is left out where the grain is 10.
 *
 * job, job_len  any numbers
 * out, out_len  the sheet is written to the start; 5645 bytes are always enough
 * bytes         the sheet's length is written here
 *
 * Returns 0, or CLEARANCE_REFUSED_EDGES, _RANGE, _CELL or _SPACE.
 */
uint8_t clearance_write(const int32_t *job, size_t job_len,
                        uint8_t *out, size_t out_len, size_t *bytes);

/*
 * Builds the trees of a job and draws its map. The map is square with
 * 2^(N - M) cells a side, one letter a cell: rows from the lowest y upward, in a
 * row from the lowest x on, nothing between rows.
 *
 * job, job_len      any numbers
 * store, store_len  the trees are written to the start, eleven numbers a node:
 *                   a node, its left half's subtree, its right half's; the
 *                   edges in the order of the job. 1441088 numbers are always
 *                   enough
 * cells, cells_len  the map is written to the start; 65536 bytes are always
 *                   enough
 * nodes             how many nodes are in the store is written here
 *
 * Returns 0, or CLEARANCE_REFUSED_EDGES, _RANGE, _CELL, _LONG, _STORE or _SPACE.
 */
uint8_t clearance_map(const int32_t *job, size_t job_len,
                      int32_t *store, size_t store_len,
                      uint8_t *cells, size_t cells_len, size_t *nodes);

/*
 * Bounds the distance of a point from the outline.
 *
 * job, job_len      any numbers
 * x, y              the point; out of -1000000 to 1000000 it is refused as range
 * store, store_len  begins with the trees of this job, as a map call left them;
 *                   what follows the trees does not matter
 * nearest           lo, hi and edge are written here
 *
 * Returns 0, or CLEARANCE_REFUSED_EDGES, _RANGE, _CELL, _LONG, _STORE or _STRANGER.
 */
uint8_t clearance_point(const int32_t *job, size_t job_len,
                        int32_t x, int32_t y,
                        const int32_t *store, size_t store_len,
                        int64_t nearest[CLEARANCE_NEAREST_NUMBERS]);

/*
 * Bounds the distances of several points from the outline. Each point's three
 * numbers are those that clearance_point gives for it alone (theorem
 * points_alone), and their order only orders the answers (points_order). The
 * store is compared with the trees once for all of them; that is how the code is
 * written, and no theorem.
 *
 * job, job_len      any numbers
 * spots, spots_len  x, y, x, y, ... of 1 to CLEARANCE_SPOTS_MOST points; a number
 *                   out of -1000000 to 1000000 is refused as range, wherever it
 *                   stands in the row: an odd last one, or one past the most
 *                   points, too
 * store, store_len  begins with the trees of this job, as a map call left them;
 *                   what follows the trees does not matter
 * reply, reply_len  lo, hi and edge of each point are written to the start, in the
 *                   order of the spots: CLEARANCE_NEAREST_NUMBERS numbers a point.
 *                   CLEARANCE_SPOTS_MOST times as many are enough for every row
 *                   (theorem reply_room)
 *
 * Returns 0, or of CLEARANCE_REFUSED_EDGES, _RANGE, _CELL, _SHEAF, _LONG, _STORE,
 * _SPACE and _STRANGER the first in this order that applies: 2, 3, 4, 9, 5, 6, 7,
 * 8 (theorem points_earliest).
 */
uint8_t clearance_points(const int32_t *job, size_t job_len,
                         const int32_t *spots, size_t spots_len,
                         const int32_t *store, size_t store_len,
                         int64_t *reply, size_t reply_len);

/*
 * Looks at the cells of a map under the four clamps of table four. It is a go
 * exactly if every cell under every clamp is C, else a stop, which names the first
 * clamp with another letter and its first such cell. A stop is no refusal: the
 * call is accepted, and `placed` tells a stop from a go.
 *
 * If the map is the one that clearance_map drew for this job, a go means that
 * whatever lies under a clamp, over all fractions, keeps at least the reach from
 * the outline (theorems go_true and drawn_go; with a sheet that is read, drawn and
 * asked about, clamps_told). Whether the map is this job's
 * is not checked.
 *
 * job, job_len      any numbers
 * cells, cells_len  the map, as a map call left it; a byte other than C, I and D is
 *                   refused as letter in any cell, and what follows the cells does
 *                   not matter
 * clamps            any numbers: first column, first row, columns and rows of each
 *                   clamp in turn
 * placed            go, clamp, column and row are written here
 *
 * Returns 0, or CLEARANCE_REFUSED_EDGES, _RANGE, _CELL, _SPACE, _OFF_PLATE or
 * _LETTER.
 */
uint8_t clearance_clamps(const int32_t *job, size_t job_len,
                         const uint8_t *cells, size_t cells_len,
                         const size_t clamps[CLEARANCE_CLAMPS_NUMBERS],
                         size_t placed[CLEARANCE_PLACED_NUMBERS]);

#ifdef __cplusplus
}
#endif

#endif
