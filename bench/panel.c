/* An example to copy: a panel in C, over include/hopper.h. It prints the plan sheet of a line file, and runs a shift.
 *
 *     panel FILE                       the sheet
 *     panel FILE PLACE FILL MOVE...    then a shift from that place and fill; the moves are those of the other side, in their order
 *
 * At a place of ours it orders and reports the order done; at a place of theirs it takes the next of the moves. It closes the shift where
 * there is none left, or after 20 moves. What is refused is printed as number, layer, spot. To build it:
 *
 *     cc -std=c99 -Wall -Wextra -Werror -Iinclude -o panel bench/panel.c libpanel.a
 */
#include "hopper.h"

#include <errno.h>
#include <inttypes.h>
#include <stdio.h>
#include <stdlib.h>

/* What a shift needs from call to call: the file and its marks. */
static uint8_t file[HOPPER_LONGEST_FILE + 1];
static size_t file_len;
static uint32_t marks[HOPPER_MOST_MARKS];

/* The rows of the sheet: who chooses at a place, and more. */
static struct hopper_row rows[HOPPER_MOST_PLACES];

/* The number that a word spells; ends the program where it spells none. */
static uint32_t number_of(const char *word)
{
    char *end;
    errno = 0;
    unsigned long number = strtoul(word, &end, 10);
    if (errno != 0 || end == word || *end != '\0' || number > UINT32_MAX) {
        fprintf(stderr, "%s is no number of 32 bits\n", word);
        exit(2);
    }
    return (uint32_t)number;
}

/* Prints a refusal; says whether the call accepted. */
static int accepted(const char *call, hopper_fault fault)
{
    if (fault.number == HOPPER_ACCEPTED) {
        return 1;
    }
    printf("%s: refused %" PRIu32 " %" PRIu32 " %" PRIu64 "\n", call, fault.number, fault.layer, fault.spot);
    return 0;
}

/* Reads a file; one that is too long is cut one byte above the longest, and refused as too long. */
static int read_file(const char *name)
{
    FILE *in = fopen(name, "rb");
    if (in == NULL) {
        return 0;
    }
    file_len = fread(file, 1, sizeof file, in);
    int failed = ferror(in);
    fclose(in);
    return !failed;
}

static void print_number(uint32_t number, const char *otherwise)
{
    if (number == HOPPER_NEVER) {
        printf(" %s", otherwise);
    } else {
        printf(" %" PRIu32, number);
    }
}

/* Prints the sheet. */
static int print_sheet(void)
{
    uint32_t places;
    uint64_t marks_needed, rounds;
    if (!accepted("read", hopper_places(file, file_len, &places, &marks_needed))) {
        return 0;
    }
    if (!accepted("sheet", hopper_sheet(file, file_len, marks, HOPPER_MOST_MARKS, rows, HOPPER_MOST_PLACES, &rounds))) {
        return 0;
    }
    printf("%" PRIu32 " places, %" PRIu64 " fills, rounds %" PRIu64 "\n", places, marks_needed - 1, rounds);
    for (uint32_t p = 0; p < places; p++) {
        printf("%" PRIu32 " %s", rows[p].place, rows[p].owner == HOPPER_OURS ? "ours" : "theirs");
        print_number(rows[p].fill, "none");
        print_number(rows[p].height, "-");
        print_number(rows[p].move, "-");
        printf("\n");
    }
    return 1;
}

/* Orders a move and reports it done. A panel shows the order, and reports when the move was made; where it cannot be made, it calls
 * hopper_withdrawn with the same numbers. */
static int our_move(hopper_shift *shift)
{
    uint32_t move;
    if (!accepted("order", hopper_order(file, file_len, marks, HOPPER_MOST_MARKS, shift, &move))) {
        return 0;
    }
    uint32_t number = shift->number, place = shift->place;
    printf("order: move %" PRIu32 " at place %" PRIu32 "\n", move, place);
    if (!accepted("done", hopper_done(file, file_len, shift, number, place, move))) {
        accepted("withdrawn", hopper_withdrawn(shift, number, place, move));
        return 0;
    }
    printf("done: at place %" PRIu32 ", level %" PRIu32 "\n", shift->place, shift->level);
    return 1;
}

static int their_move(hopper_shift *shift, uint32_t move)
{
    if (!accepted("arrived", hopper_arrived(file, file_len, shift, move))) {
        return 0;
    }
    printf("arrived: move %" PRIu32 ", at place %" PRIu32 ", level %" PRIu32 "\n", move, shift->place, shift->level);
    return 1;
}

/* Runs a shift from a place and a fill, with the moves of the other side. */
static int run_shift(uint32_t place, uint32_t fill, char *const *moves)
{
    hopper_shift shift;
    uint32_t rounds;
    if (!accepted("mark", hopper_mark(file, file_len, marks, HOPPER_MOST_MARKS, &rounds))) {
        return 0;
    }
    if (!accepted("open", hopper_open(file, file_len, marks, HOPPER_MOST_MARKS, 1, place, fill, &shift))) {
        return 0;
    }
    printf("open: at place %" PRIu32 ", level %" PRIu32 "\n", shift.place, shift.level);
    int well = 1;
    for (int made = 0; well && made < 20; made++) {
        /* a shift that goes on stands at a place of the line, so its row is there */
        if (rows[shift.place].owner == HOPPER_OURS) {
            well = our_move(&shift);
        } else if (*moves != NULL) {
            well = their_move(&shift, number_of(*moves++));
        } else {
            break;
        }
    }
    if (!accepted("close", hopper_close(&shift, &place, &fill))) {
        return 0;
    }
    printf("close: at place %" PRIu32 ", level %" PRIu32 "\n", place, fill);
    return well;
}

int main(int argc, char **argv)
{
    if (argc != 2 && argc < 4) {
        fprintf(stderr, "panel FILE [PLACE FILL MOVE...]\n");
        return 2;
    }
    if (!read_file(argv[1])) {
        fprintf(stderr, "%s cannot be read\n", argv[1]);
        return 2;
    }
    int well = print_sheet();
    if (well && argc >= 4) {
        well = run_shift(number_of(argv[2]), number_of(argv[3]), argv + 4);
    }
    return well ? 0 : 1;
}
