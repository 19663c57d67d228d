/* The planner of a hopper on a production line, for C: what a panel calls, on the bytes of a line file and on numbers.
 *
 * WHAT EACH CALL ANSWERS. A hopper_fault. Its number is 0 where the call accepts; layer and spot are then 0 too. Else it is a refusal: its
 * number (HOPPER_ below), the layer that it comes from, and its spot. The first check that fails decides; the order of the checks stands at
 * each call. A call that takes a file reads it first, and passes on refusals 1 to 13 of reading whole. No call ends the program, and
 * every input has its answer.
 *
 * POINTERS. A slice is a pointer and a number of elements. A pointer is never null and is aligned for its type; for a slice of no elements
 * any other pointer that is not null will do. What a pointer without `const` points to, in a slice or alone, no other argument of the same
 * call shares. Slices that are only read may be the same.
 *
 * AFTER A CALL. Where a call refuses, all that it could have written is as it was, with one exception: hopper_least with refusal 20.
 * Where it accepts, it has written what stands at the call, and nothing past it: what a slice has beyond is as it was.
 *
 * NOTHING IS KEPT from one call to the next, nor any pointer. Calls may run at the same time, on memory that none of the others writes.
 * Calls may take memory from malloc for as long as they run, and answer the same where it has none.
 */
#ifndef HOPPER_H
#define HOPPER_H

#include <stddef.h>
#include <stdint.h>

#ifdef __cplusplus
extern "C" {
#endif

/* No such number: a fill that there is not, a mark of a fill that holds for ever. */
#define HOPPER_NEVER UINT32_C(4294967295)

/* The most places of a line, and the entries of the longest marks: enough for every line that can be marked. */
#define HOPPER_MOST_PLACES 256
#define HOPPER_MOST_MARKS 65537

/* The length of the longest file in bytes. */
#define HOPPER_LONGEST_FILE 25616

/* Owners of a place. */
#define HOPPER_OURS 0
#define HOPPER_THEIRS 1

/* Layers. */
#define HOPPER_BYTES 1 /* how many bytes a file has, and where in it its parts would lie */
#define HOPPER_FILE 2  /* the fields of a file */
#define HOPPER_LINE 3  /* the records of a line */
#define HOPPER_REST 4  /* everything else */

/* Refusals of these calls; in brackets the spot. */
#define HOPPER_ACCEPTED 0
#define HOPPER_FILE_TOO_LONG 1         /* [25,616] */
#define HOPPER_FILE_TOO_SHORT 2        /* [the length] */
#define HOPPER_UNKNOWN_VERSION 3       /* [offset] */
#define HOPPER_UNKNOWN_KIND 4          /* [offset; of hopper_least the kind] */
#define HOPPER_PLACES_OUT_OF_RANGE 5   /* [offset] */
#define HOPPER_MOVES_OUT_OF_RANGE 6    /* [offset] */
#define HOPPER_VESSEL_OUT_OF_RANGE 7   /* [offset] */
#define HOPPER_WRONG_DISTANCE 8        /* [offset] */
#define HOPPER_DISTANCE_PAST_START 9   /* [offset of the trailer] */
#define HOPPER_BAD_PLACE_RECORD 10     /* [the place] */
#define HOPPER_TOTALS_DIFFER 11        /* [the number of places] */
#define HOPPER_BAD_NAME_BYTE 12        /* [offset] */
#define HOPPER_BAD_MOVE_RECORD 13      /* [the move's number in the file] */
#define HOPPER_TABLE_TOO_SHORT 14      /* [entries needed] */
#define HOPPER_TOO_MANY_FILLS 16       /* [the top] */
#define HOPPER_MARKS_TOO_SHORT 17      /* [entries needed] */
#define HOPPER_NO_SUCH_PLACE 18        /* [the place asked for] */
#define HOPPER_ROW_TOO_SHORT 19        /* [entries needed] */
#define HOPPER_ROWS_KEEP_CHANGING 20   /* [the budget] */
#define HOPPER_FILL_ABOVE_TOP 23       /* [the fill] */
#define HOPPER_FILL_NOT_GOOD 27        /* [the place] */
#define HOPPER_ORDER_STILL_OPEN 28     /* [the shift's place] */
#define HOPPER_NOT_ON_BOARD 29         /* [the shift's place] */
#define HOPPER_PLACE_IS_THEIRS 30      /* [the shift's place] */
#define HOPPER_NO_GOOD_MOVE 31         /* [the shift's place] */
#define HOPPER_NOT_THE_OPEN_ORDER 32   /* [the shift's place] */
#define HOPPER_VESSEL_REFUSES 33       /* [the shift's place] */
#define HOPPER_PLACE_IS_OURS 34        /* [the shift's place] */
#define HOPPER_NO_SUCH_MOVE 35         /* [the move] */

/* The answer of a call. */
typedef struct hopper_fault {
    uint32_t number; /* of the refusal, or 0: accepted */
    uint32_t layer;
    uint64_t spot;
} hopper_fault;

/* What a plan sheet says of one place. */
typedef struct hopper_row {
    uint32_t place;  /* its number */
    uint32_t owner;  /* HOPPER_OURS or HOPPER_THEIRS */
    uint32_t fill;   /* the least good fill in litres, HOPPER_NEVER where there is none */
    uint32_t height; /* its height in millimetres, HOPPER_NEVER where there is no fill or the gauge does not go so high */
    uint32_t move;   /* our move from that fill, HOPPER_NEVER at a place of theirs and where there is no fill */
} hopper_row;

/* A shift: plain numbers, which the caller keeps from call to call and may store and bring back. */
typedef struct hopper_shift {
    uint32_t number;  /* chosen by whoever opens it */
    uint32_t place;   /* where it stands */
    uint32_t level;   /* litres in the hopper */
    uint32_t ordered; /* 1 while an order is out, else 0; a call takes every number but 0 for 1 */
    uint32_t move;    /* the move that is ordered; without an order it says nothing, and a call that wrote the shift left 0 */
} hopper_shift;

/* Whether the file is accepted.
 * Refusals: 1 to 13. */
hopper_fault hopper_check(const uint8_t *file, size_t len);

/* How many places the line has, and how many entries its marks need: places x (top + 1) + 1, also where they are too many to mark.
 * Refusals: 1 to 13. Accepted: both numbers are written. */
hopper_fault hopper_places(const uint8_t *file, size_t len, uint32_t *places, uint64_t *fills_plus_one);

/* The least good fills of a line over a lip or a drawn hopper. Row j has for each place the fewest litres with which no refusal can be
 * brought about in the next j moves, or HOPPER_NEVER; `rounds` counts the rows up to the first that equals the one after it, which may be
 * `budget` at most. A budget of fills_plus_one - 1 always suffices.
 * Refusals: 1 to 13; 4 where the hopper is closed, with layer HOPPER_REST and the kind, 1, as spot; 19 where one of the rows is shorter than
 * the places; 20 where each row up to the budget differs from the next.
 * Accepted: both rows hold that row, in as many entries as there are places, and `rounds` its number.
 * After 20: `row` holds row `budget`, `next` the one after it, and `rounds` is as it was. */
hopper_fault hopper_least(const uint8_t *file, size_t len, uint32_t *row, size_t row_len, uint32_t *next, size_t next_len, uint64_t budget,
                          uint64_t *rounds);

/* The mark of each fill: within how many moves the other side can bring about a refusal, or HOPPER_NEVER.
 * Refusals: 1 to 13; 16 where places x (top + 1) is over 65,536; 17 where there are fewer than fills_plus_one entries.
 * Accepted: entry place x (top + 1) + level of `marks` has the mark of that fill, the one after them all has 0, and `rounds` is the largest
 * mark that is not HOPPER_NEVER. */
hopper_fault hopper_mark(const uint8_t *file, size_t len, uint32_t *marks, size_t marks_len, uint32_t *rounds);

/* The plan sheet: a row for each place, in their order.
 * Refusals: 1 to 13; 14 where there are fewer rows than places; where the hopper is closed also 16 and 17, as in hopper_mark.
 * Accepted: `rows` has a row for each place. Where the hopper is closed `marks` holds the marks and `rounds` their rounds, as from hopper_mark;
 * else `rounds` has those of hopper_least, and `marks` is as it was: it may have no entries then. */
hopper_fault hopper_sheet(const uint8_t *file, size_t len, uint32_t *marks, size_t marks_len, struct hopper_row *rows, size_t rows_len,
                          uint64_t *rounds);

/* SHIFTS. `marks` are those that hopper_mark left, and are believed entry by entry; there may be more than are needed. Where all calls on a
 * shift since hopper_open are shown the same file and its marks, none of them is refused with 31 or with 33. */

/* Opens a shift at a place and a fill.
 * Refusals: 1 to 13; 16 and 17 as in hopper_mark; 18 no place of the line has this number; 23 the hopper does not hold so much; 27 the mark that is
 * shown for it is not HOPPER_NEVER.
 * Accepted: `out` is the shift, without an order. */
hopper_fault hopper_open(const uint8_t *file, size_t len, const uint32_t *marks, size_t marks_len, uint32_t number, uint32_t place,
                         uint32_t fill, hopper_shift *out);

/* Orders the first move that is poured to a good fill.
 * Refusals: 1 to 13; 28 an order is out; 29 the shift stands at no place of the line, or above its top; 17; 30 the other side chooses
 * here; 31 no move of the place is poured to a good fill.
 * Accepted: `move` is the move, and the shift has it as its order. */
hopper_fault hopper_order(const uint8_t *file, size_t len, const uint32_t *marks, size_t marks_len, hopper_shift *shift, uint32_t *move);

/* Reports an order done. The order is told by the number of its shift, its place and its move.
 * Refusals: 1 to 13; 32 that is not the order that is out, or none is; 29; 30; 35 the place has no such move; 33 the hopper refuses it.
 * Accepted: the shift stands where the move leads, at the level that it was poured to, without an order. */
hopper_fault hopper_done(const uint8_t *file, size_t len, hopper_shift *shift, uint32_t number, uint32_t place, uint32_t move);

/* Takes an order back. The order is told as in hopper_done.
 * Refusals: 32.
 * Accepted: the shift has no order, and stands where it stood. */
hopper_fault hopper_withdrawn(hopper_shift *shift, uint32_t number, uint32_t place, uint32_t move);

/* Reports a move of the other side.
 * Refusals: 1 to 13; 28 an order is out; 29; 34 we choose here; 35; 33.
 * Accepted: the shift stands where the move leads, at the level that it was poured to, without an order. */
hopper_fault hopper_arrived(const uint8_t *file, size_t len, hopper_shift *shift, uint32_t move);

/* Ends a shift.
 * Refusals: 28.
 * Accepted: `place` and `level` say where it stood. The shift is as it was, and over: make no more calls on it. */
hopper_fault hopper_close(const hopper_shift *shift, uint32_t *place, uint32_t *level);

#ifdef __cplusplus
}
#endif

#endif
