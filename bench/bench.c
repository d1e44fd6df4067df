/* Measures the library beside C of the same job: plain C, and the best C that we can write.
 *
 *   bench sides              the names of the sides
 *   bench jobs               the names of the jobs
 *   bench times [WORD]       a line for each job, or each whose name has the word: nanoseconds of each side, best of many
 *   bench count SIDE JOB N   does the job N times and no more, for a tool that counts instructions
 *
 * With WITH_KIT the kit's library is a side too, each of its names with kit_ ahead; with WITH_CLANG the best C as
 * another compiler makes it, with clang_ ahead. So all are timed in one run.
 */
#define _POSIX_C_SOURCE 199309L
#include "best.h"
#include "plain.h"

#include <stdio.h>
#include <stdlib.h>
#include <string.h>
#include <time.h>

/* What a side is made of. */
typedef rainbow_drawn draw_call(rainbow_machine, const uint8_t *, size_t, const uint8_t *, size_t, uint8_t *, size_t);
typedef rainbow_stored store_call(rainbow_machine, uint8_t *, size_t, uint8_t *, size_t, uint8_t *, size_t, uint8_t *,
                                  size_t, uint32_t, uint8_t);
typedef uint8_t store_only_call(rainbow_machine, uint8_t *, size_t, uint8_t *, size_t, uint8_t *, size_t, uint32_t,
                                uint8_t);
typedef uint8_t scan_line_call(rainbow_machine, const uint8_t *, size_t, const uint8_t *, size_t, size_t, size_t,
                               uint8_t *, size_t);
typedef uint8_t list_lines_call(rainbow_machine, const uint8_t *, size_t, uint8_t *, size_t);
typedef rainbow_explained explain_call(rainbow_machine, const uint8_t *, size_t, const uint8_t *, size_t, size_t,
                                       size_t);
typedef rainbow_asked ask_call(rainbow_viewers, size_t);
typedef rainbow_drawn_for_viewers draw_for_call(rainbow_machine, rainbow_viewers, const uint8_t *, size_t,
                                                const uint8_t *, size_t, uint8_t *, size_t);
typedef rainbow_stored_for_viewers store_for_call(rainbow_machine, rainbow_viewers, uint8_t *, size_t, uint8_t *,
                                                  size_t, uint8_t *, size_t, uint8_t *, size_t, uint32_t, uint8_t);

typedef uint8_t index_call(rainbow_machine, const uint8_t *, size_t, const uint8_t *, size_t, uint8_t *, size_t);
typedef rainbow_stored store_index_call(rainbow_machine, uint8_t *, size_t, uint8_t *, size_t, uint8_t *, size_t,
                                        uint8_t *, size_t, uint8_t *, size_t, uint32_t, uint8_t);
typedef rainbow_stored_for_viewers store_index_for_call(rainbow_machine, rainbow_viewers, uint8_t *, size_t, uint8_t *,
                                                        size_t, uint8_t *, size_t, uint8_t *, size_t, uint8_t *, size_t,
                                                        uint32_t, uint8_t);

typedef struct {
    const char *name;
    draw_call *draw;
    store_call *store;
    store_only_call *store_only;
    scan_line_call *scan_line;
    list_lines_call *list_lines;
    explain_call *explain;
    ask_call *ask;
    draw_for_call *draw_for;
    store_for_call *store_for;
    index_call *index;
    store_index_call *store_index;
    store_index_for_call *store_index_for;
} side;

#ifdef WITH_KIT
draw_call kit_rainbow_draw;
store_call kit_rainbow_store_with_picture;
store_only_call kit_rainbow_store_8088;
scan_line_call kit_rainbow_scan_line;
list_lines_call kit_rainbow_list_lines;
explain_call kit_rainbow_explain;
ask_call kit_rainbow_ask;
draw_for_call kit_rainbow_draw_for_viewers;
store_for_call kit_rainbow_store_for_viewers;
index_call kit_rainbow_index_readers;
store_index_call kit_rainbow_store_with_index;
store_index_for_call kit_rainbow_store_with_index_for_viewers;
#endif
#ifdef WITH_CLANG
draw_call clang_best_draw;
store_call clang_best_store_with_picture;
scan_line_call clang_best_scan_line;
list_lines_call clang_best_list_lines;
explain_call clang_best_explain;
ask_call clang_best_ask;
draw_for_call clang_best_draw_for_viewers;
store_for_call clang_best_store_for_viewers;
index_call clang_best_index_readers;
store_index_call clang_best_store_with_index;
store_index_for_call clang_best_store_with_index_for_viewers;
#endif

/* The first side is the one that the others are compared with. */
static const side sides[] = {
    {"rustc", rainbow_draw, rainbow_store_with_picture, rainbow_store_8088, rainbow_scan_line, rainbow_list_lines,
     rainbow_explain, rainbow_ask, rainbow_draw_for_viewers, rainbow_store_for_viewers, rainbow_index_readers,
     rainbow_store_with_index, rainbow_store_with_index_for_viewers},
#ifdef WITH_KIT
    {"kit", kit_rainbow_draw, kit_rainbow_store_with_picture, kit_rainbow_store_8088, kit_rainbow_scan_line,
     kit_rainbow_list_lines, kit_rainbow_explain, kit_rainbow_ask, kit_rainbow_draw_for_viewers,
     kit_rainbow_store_for_viewers, kit_rainbow_index_readers, kit_rainbow_store_with_index,
     kit_rainbow_store_with_index_for_viewers},
#endif
    {"plain", plain_draw, plain_store_with_picture, plain_store_8088, plain_scan_line, plain_list_lines, plain_explain,
     plain_ask, plain_draw_for_viewers, plain_store_for_viewers, plain_index_readers, plain_store_with_index,
     plain_store_with_index_for_viewers},
    {"best", best_draw, best_store_with_picture, plain_store_8088, best_scan_line, best_list_lines, best_explain,
     best_ask, best_draw_for_viewers, best_store_for_viewers, best_index_readers, best_store_with_index,
     best_store_with_index_for_viewers},
#ifdef WITH_CLANG
    {"best-clang", clang_best_draw, clang_best_store_with_picture, plain_store_8088, clang_best_scan_line,
     clang_best_list_lines, clang_best_explain, clang_best_ask, clang_best_draw_for_viewers,
     clang_best_store_for_viewers, clang_best_index_readers, clang_best_store_with_index,
     clang_best_store_with_index_for_viewers},
#endif
};

enum { SIDES = sizeof sides / sizeof sides[0] };

/* What is lent. Where memory stands changes what a processor makes of the same instructions, of one side more than of
 * another by chance; so each batch has its own places, there and on the stack, the same for every side. */
enum { ROOM = 16384 };
static _Alignas(64) uint8_t room[8][ROOM];
static uint8_t shared[RAINBOW_SHARED_BYTES];
static uint8_t *screen, *attribute, *picture, *fresh, *table, *line, *lines, *first_readers;

static void find_room(unsigned batch) {
    uint8_t **lent[8] = {&screen, &attribute, &picture, &fresh, &table, &line, &lines, &first_readers};
    for (unsigned i = 0; i < 8; i++)
        *lent[i] = room[i] + 16 * (batch * (2 * i + 1) * 37 % 256);
}

#define SHARED shared, RAINBOW_SHARED_BYTES
#define SCREEN screen, RAINBOW_SCREEN_BYTES
#define ATTRIBUTE attribute, RAINBOW_ATTRIBUTE_BYTES
#define PICTURE picture, RAINBOW_PICTURE_BYTES
#define TABLE table, RAINBOW_GLYPH_BYTES
#define LINE line, RAINBOW_LINE_BYTES
#define LIST lines, RAINBOW_LIST_BYTES
#define INDEX first_readers, RAINBOW_INDEX_BYTES

static rainbow_machine machine;
static rainbow_viewers viewers;
static volatile uint32_t answers; /* what the calls answered, so that none is left out and both sides can be compared */

/* The screens, each at 80 or 132 columns and with rows of a kind, but for row 0, which is normal and does not scroll.
 * FULL has rows of as many cells as their kind has, one after the other, and after the last a row like them; the links
 * of rows 12 and 23 are wild. The rows of SHORT have eight cells. The rows of WRAPS but for row 0 go past place 4095 in
 * their middle: it is one row that leads to itself. In TORN no byte is FF, so that row 0 is torn and the others dark. */
typedef enum { FULL, SHORT, WRAPS, TORN } layout;

static unsigned columns, start_of[RAINBOW_ROWS + 1];

/* A cell of a row, one in eight with an attribute of its own. */
static void lay_cell(unsigned place) {
    static unsigned seed = 1;
    seed = place == 0 ? 1 : seed * 1664525u + 1013904223u;
    screen[place % 4096] = (uint8_t)(0x20 + (seed >> 16) % 95);
    attribute[place % 4096] = (uint8_t)((seed >> 24) % 8 == 0 ? (seed >> 20) % 16 : 0x0E);
}

static void lay_link(unsigned place, unsigned link, uint8_t kind) {
    screen[place % 4096] = 0xFF;
    screen[(place + 1) % 4096] = (uint8_t)link;
    screen[(place + 2) % 4096] = (uint8_t)(link >> 8);
    attribute[(place + 1) % 4096] = kind;
}

static void lay_rows(layout screens, uint8_t kind) {
    unsigned place = 0;
    for (unsigned row = 0; row <= RAINBOW_ROWS; row++) {
        unsigned cells = row == 0 || kind % 4 == 3 ? columns : columns / 2;
        if (screens == SHORT)
            cells = 8;
        start_of[row] = place;
        for (unsigned cell = 0; cell < cells; cell++)
            lay_cell(place++);
        lay_link(place, (place + 3) | (screens == FULL && (row == 12 || row == 23) ? 0x5000u : 0), kind);
        place += 3;
    }
}

static void lay(layout screens, unsigned wanted, uint8_t kind, uint8_t latch) {
    columns = wanted;
    machine = rainbow_power_up();
    machine.columns132 = wanted == 132;
    machine.held = 2;
    machine.latch = latch;
    memset(screen, 0, RAINBOW_SCREEN_BYTES);
    memset(attribute, 0x0E, RAINBOW_ATTRIBUTE_BYTES);
    if (screens == TORN) {
        for (unsigned place = 0; place < 4096; place++)
            lay_cell(place);
    } else if (screens == WRAPS) {
        unsigned half = columns / 2;
        for (unsigned place = 0; place < half; place++)
            lay_cell(place);
        for (unsigned place = 4096 - half; place < 4096; place++)
            lay_cell(place);
        lay_link(half, 4096 - half, kind);
        start_of[1] = 4096 - half;
    } else {
        lay_rows(screens, kind);
    }
    for (unsigned at = 0; at < RAINBOW_GLYPH_BYTES; at++)
        table[at] = (uint8_t)((at * 2654435761u) >> 13);
    rainbow_draw(machine, SCREEN, ATTRIBUTE, PICTURE);
    rainbow_index_readers(machine, SCREEN, ATTRIBUTE, INDEX);
    viewers = rainbow_start_viewers();
}

static void draw(const side *with) {
    rainbow_drawn drawn = with->draw(machine, SCREEN, ATTRIBUTE, PICTURE);
    answers = answers * 31 + (drawn.reads * 32u + drawn.wild_row) * 2u + drawn.wild;
}

/* Stores two bytes in turn, so that each store changes memory. */
static void store_in_turn(const side *with, unsigned at, uint8_t one, uint8_t other) {
    uint8_t byte = screen[at] == one ? other : one;
    rainbow_stored stored = with->store(machine, SHARED, SCREEN, ATTRIBUTE, PICTURE, 0xEE000 + at, byte);
    answers = answers * 31 + stored.marks;
}

static void store_unread(const side *with) { store_in_turn(with, 4000, 'A', 'B'); }
static void store_row_0(const side *with) { store_in_turn(with, start_of[0] + 40, 'A', 'B'); }
static void store_cell_4(const side *with) { store_in_turn(with, 4, 'A', 'B'); }
static void store_row_1(const side *with) { store_in_turn(with, start_of[1] + 20, 'A', 'B'); }
static void store_row_12(const side *with) { store_in_turn(with, start_of[12] + 40, 'A', 'B'); }
static void store_row_23(const side *with) { store_in_turn(with, start_of[23] + 40, 'A', 'B'); }
static void store_row_24(const side *with) { store_in_turn(with, start_of[24] + 40, 'A', 'B'); }

/* The low link byte that leads to row 12: to its start, and one cell into it. */
static void store_link(const side *with) {
    store_in_turn(with, start_of[12] - 2, (uint8_t)start_of[12], (uint8_t)(start_of[12] + 1));
}

/* What a user would do with no mending store: store, draw all again, compare and keep. */
static void redraw_and_compare(const side *with, unsigned place, uint8_t byte) {
    uint32_t marks = 0;
    with->store_only(machine, SHARED, SCREEN, ATTRIBUTE, 0xEE000 + place, byte);
    with->draw(machine, SCREEN, ATTRIBUTE, fresh, RAINBOW_PICTURE_BYTES);
    for (unsigned row = 0; row < RAINBOW_ROWS; row++) {
        size_t at = row * RAINBOW_RECORD_BYTES;
        if (memcmp(picture + at, fresh + at, RAINBOW_RECORD_BYTES) != 0) {
            memcpy(picture + at, fresh + at, RAINBOW_RECORD_BYTES);
            marks |= 1u << row;
        }
    }
    answers = answers * 31 + marks;
}

static void redraw_in_turn(const side *with, unsigned place) {
    redraw_and_compare(with, place, screen[place] == 'A' ? 'B' : 'A');
}

static void redraw_unread(const side *with) { redraw_in_turn(with, 4000); }
static void redraw_row_23(const side *with) { redraw_in_turn(with, start_of[23] + 40); }

static void scan_line(const side *with) {
    answers += with->scan_line(machine, PICTURE, TABLE, 5, 4, LINE);
    answers += line[columns];
}

static void scan_line_blink(const side *with) {
    machine.blink = true;
    scan_line(with);
}

static void tube(const side *with) {
    for (unsigned row = 0; row < RAINBOW_ROWS_AT_REST; row++)
        for (unsigned scan = RAINBOW_FIRST_SCAN; scan <= RAINBOW_LAST_SCAN; scan++) {
            with->scan_line(machine, PICTURE, TABLE, row, scan, LINE);
            answers = answers * 31 + line[row * 30];
        }
}

static void list(const side *with) {
    answers += with->list_lines(machine, PICTURE, LIST);
    answers = answers * 31 + lines[RAINBOW_LINES];
}

static void tube_by_list(const side *with) {
    list(with);
    for (unsigned at = 0; at < RAINBOW_LINES; at++) {
        unsigned row = lines[2 * at], scan = lines[2 * at + 1];
        with->scan_line(machine, PICTURE, TABLE, row, scan, LINE);
        answers = answers * 31 + line[row * 30];
    }
}

static void explain_cell(const side *with, size_t row, size_t column) {
    rainbow_explained why = with->explain(machine, SCREEN, ATTRIBUTE, row, column);
    answers = answers * 31 + why.refusal * 8u + why.answer;
    answers = answers * 31 + why.place * 8u + why.kind;
    answers = answers * 31 + (why.link * 32u + why.tore) * 2u + why.linked;
}

static void explain_row_0(const side *with) { explain_cell(with, 0, 40); }
static void explain_row_12(const side *with) { explain_cell(with, 12, 40); }
static void explain_row_24(const side *with) { explain_cell(with, 24, 40); }

/* The same stores, with the viewers kept. */
static void serve_in_turn(const side *with, unsigned at) {
    uint8_t byte = screen[at] == 'A' ? 'B' : 'A';
    rainbow_stored_for_viewers served =
        with->store_for(machine, viewers, SHARED, SCREEN, ATTRIBUTE, PICTURE, 0xEE000 + at, byte);
    viewers = served.viewers;
    answers = answers * 31 + served.stored.marks;
}

static void serve_unread(const side *with) { serve_in_turn(with, 4000); }
static void serve_row_0(const side *with) { serve_in_turn(with, start_of[0] + 40); }
static void serve_row_12(const side *with) { serve_in_turn(with, start_of[12] + 40); }
static void serve_row_23(const side *with) { serve_in_turn(with, start_of[23] + 40); }

static void serve_draw(const side *with) {
    rainbow_drawn_for_viewers served = with->draw_for(machine, viewers, SCREEN, ATTRIBUTE, PICTURE);
    viewers = served.viewers;
    answers = answers * 31 + (served.drawn.reads * 32u + served.drawn.wild_row) * 2u + served.drawn.wild;
}

static void ask_viewer(const side *with, size_t viewer) {
    rainbow_asked asked = with->ask(viewers, viewer);
    viewers = asked.viewers;
    answers = answers * 31 + asked.marks * 16 + asked.refusal;
}

/* Two rows wait for viewer 5 each time. */
static void ask(const side *with) {
    static const rainbow_viewers told = {{0, 2, 0, 0, 4, 6, 0, 6}};
    rainbow_asked asked = with->ask(told, 5);
    answers = answers * 31 + asked.marks * 16 + asked.viewers.waiting[4] + asked.viewers.waiting[5];
}

/* The same stores, with an index lent. */
static void index_in_turn(const side *with, unsigned at, uint8_t one, uint8_t other) {
    uint8_t byte = screen[at] == one ? other : one;
    rainbow_stored stored = with->store_index(machine, SHARED, SCREEN, ATTRIBUTE, PICTURE, INDEX, 0xEE000 + at, byte);
    answers = answers * 31 + stored.marks;
}

static void index_unread(const side *with) { index_in_turn(with, 4000, 'A', 'B'); }
static void index_row_0(const side *with) { index_in_turn(with, start_of[0] + 40, 'A', 'B'); }
static void index_cell_4(const side *with) { index_in_turn(with, 4, 'A', 'B'); }
static void index_row_1(const side *with) { index_in_turn(with, start_of[1] + 20, 'A', 'B'); }
static void index_row_12(const side *with) { index_in_turn(with, start_of[12] + 40, 'A', 'B'); }
static void index_row_23(const side *with) { index_in_turn(with, start_of[23] + 40, 'A', 'B'); }

static void index_link(const side *with) {
    index_in_turn(with, start_of[12] - 2, (uint8_t)start_of[12], (uint8_t)(start_of[12] + 1));
}

static void index_fresh(const side *with) { answers += with->index(machine, SCREEN, ATTRIBUTE, INDEX); }

static void index_serve(const side *with, unsigned at) {
    uint8_t byte = screen[at] == 'A' ? 'B' : 'A';
    rainbow_stored_for_viewers served =
        with->store_index_for(machine, viewers, SHARED, SCREEN, ATTRIBUTE, PICTURE, INDEX, 0xEE000 + at, byte);
    viewers = served.viewers;
    answers = answers * 31 + served.stored.marks;
}

static void index_serve_unread(const side *with) { index_serve(with, 4000); }
static void index_serve_row_12(const side *with) { index_serve(with, start_of[12] + 40); }

/* The store with no picture, which an index is to come near to. */
static void store_blind(const side *with) {
    uint8_t byte = screen[4000] == 'A' ? 'B' : 'A';
    answers += with->store_only(machine, SHARED, SCREEN, ATTRIBUTE, 0xEE000 + 4000, byte);
}

/* A milking: stores of which nine in ten are to bytes that no row reads, half of these in either memory, and one in ten
 * is to a cell or, one of these in four, to an attribute, in any row. */
enum { MILKING = 1000 };
static unsigned stored_so_far;

static unsigned milked_place(unsigned n) {
    unsigned any = n * 2654435761u >> 8, row = any % RAINBOW_ROWS, cell = any / 32 % 80;
    if (n % 10 != 7)
        return (any & 4096) + start_of[RAINBOW_ROWS] + any % (4096 - start_of[RAINBOW_ROWS]);
    return (n / 10 % 4 == 3 ? 4096 : 0) + start_of[row] + cell;
}

static void milk(const side *with, void store(const side *, unsigned place, uint8_t byte)) {
    unsigned n = stored_so_far++ % MILKING;
    store(with, milked_place(n), (uint8_t)(0x20 + (n + stored_so_far / MILKING) % 64));
}

static void milk_with_index(const side *with, unsigned place, uint8_t byte) {
    rainbow_stored stored =
        with->store_index(machine, SHARED, SCREEN, ATTRIBUTE, PICTURE, INDEX, 0xEE000 + place, byte);
    answers = answers * 31 + stored.marks;
}

static void milk_without(const side *with, unsigned place, uint8_t byte) {
    rainbow_stored stored = with->store(machine, SHARED, SCREEN, ATTRIBUTE, PICTURE, 0xEE000 + place, byte);
    answers = answers * 31 + stored.marks;
}

static void milking_index(const side *with) { milk(with, milk_with_index); }
static void milking_store(const side *with) { milk(with, milk_without); }
static void milking_redraw(const side *with) { milk(with, redraw_and_compare); }

static const struct job {
    const char *name;
    layout screens;
    unsigned columns;
    uint8_t kind;
    uint8_t latch;
    void (*once)(const side *);
} jobs[] = {
    {"draw-80", FULL, 80, 3, 0, draw},
    {"draw-132", FULL, 132, 3, 0, draw},
    {"draw-short", SHORT, 80, 3, 0, draw},
    {"draw-wraps", WRAPS, 80, 3, 0, draw},
    {"draw-torn", TORN, 80, 3, 0, draw},
    {"store-unread", FULL, 80, 3, 0, store_unread},
    {"store-row-0", FULL, 80, 3, 0, store_row_0},
    {"store-row-12", FULL, 80, 3, 0, store_row_12},
    {"store-row-23", FULL, 80, 3, 0, store_row_23},
    {"store-row-24", FULL, 80, 3, 0, store_row_24},
    {"store-link", FULL, 80, 3, 0, store_link},
    {"store-unread-132", FULL, 132, 3, 0, store_unread},
    {"store-row-23-132", FULL, 132, 3, 0, store_row_23},
    {"store-unread-short", SHORT, 80, 3, 0, store_unread},
    {"store-row-0-short", SHORT, 80, 3, 0, store_cell_4},
    {"store-unread-wraps", WRAPS, 80, 3, 0, store_unread},
    {"store-row-1-wraps", WRAPS, 80, 3, 0, store_row_1},
    {"store-unread-torn", TORN, 80, 3, 0, store_unread},
    {"store-row-0-torn", TORN, 80, 3, 0, store_cell_4},
    {"redraw-unread", FULL, 80, 3, 0, redraw_unread},
    {"redraw-row-23", FULL, 80, 3, 0, redraw_row_23},
    {"line-80", FULL, 80, 3, 0, scan_line},
    {"line-80-wide", FULL, 80, 6, 0, scan_line},
    {"line-132", FULL, 132, 3, 0, scan_line},
    {"line-132-wide", FULL, 132, 6, 0, scan_line},
    {"line-80-blink", FULL, 80, 3, 0, scan_line_blink},
    {"line-132-wide-blink", FULL, 132, 6, 0, scan_line_blink},
    {"line-dark", TORN, 80, 3, 0, scan_line},
    {"tube-80", FULL, 80, 3, 0, tube},
    {"tube-132", FULL, 132, 3, 0, tube},
    {"tube-torn", TORN, 80, 3, 0, tube},
    {"list", FULL, 80, 7, 5, list},
    {"list-rest", FULL, 80, 7, 0, list},
    {"tube-by-list", FULL, 80, 7, 5, tube_by_list},
    {"explain-row-0", FULL, 80, 3, 0, explain_row_0},
    {"explain-row-12", FULL, 80, 3, 0, explain_row_12},
    {"explain-row-24", FULL, 80, 3, 0, explain_row_24},
    {"explain-row-24-132", FULL, 132, 3, 0, explain_row_24},
    {"viewers-unread", FULL, 80, 3, 0, serve_unread},
    {"viewers-row-0", FULL, 80, 3, 0, serve_row_0},
    {"viewers-row-12", FULL, 80, 3, 0, serve_row_12},
    {"viewers-row-23", FULL, 80, 3, 0, serve_row_23},
    {"viewers-draw", FULL, 80, 3, 0, serve_draw},
    {"viewers-ask", FULL, 80, 3, 0, ask},
    {"store-blind", FULL, 80, 3, 0, store_blind},
    {"index-unread", FULL, 80, 3, 0, index_unread},
    {"index-row-0", FULL, 80, 3, 0, index_row_0},
    {"index-row-12", FULL, 80, 3, 0, index_row_12},
    {"index-row-23", FULL, 80, 3, 0, index_row_23},
    {"index-link", FULL, 80, 3, 0, index_link},
    {"index-fresh", FULL, 80, 3, 0, index_fresh},
    {"index-unread-132", FULL, 132, 3, 0, index_unread},
    {"index-row-12-132", FULL, 132, 3, 0, index_row_12},
    {"index-fresh-132", FULL, 132, 3, 0, index_fresh},
    {"index-row-0-short", SHORT, 80, 3, 0, index_cell_4},
    {"index-fresh-short", SHORT, 80, 3, 0, index_fresh},
    {"index-row-1-wraps", WRAPS, 80, 3, 0, index_row_1},
    {"index-fresh-wraps", WRAPS, 80, 3, 0, index_fresh},
    {"index-row-0-torn", TORN, 80, 3, 0, index_cell_4},
    {"index-fresh-torn", TORN, 80, 3, 0, index_fresh},
    {"index-viewers-unread", FULL, 80, 3, 0, index_serve_unread},
    {"index-viewers-row-12", FULL, 80, 3, 0, index_serve_row_12},
    {"milking-index", FULL, 80, 3, 0, milking_index},
    {"milking-store", FULL, 80, 3, 0, milking_store},
    {"milking-redraw", FULL, 80, 3, 0, milking_redraw},
};

enum { JOBS = sizeof jobs / sizeof jobs[0], BATCHES = 60, MIXED = 2000 };

static void lay_for(const struct job *job) {
    stored_so_far = 0;
    lay(job->screens, job->columns, job->kind, job->latch);
}

static double now(void) {
    struct timespec t;
    clock_gettime(CLOCK_MONOTONIC, &t);
    return (double)t.tv_sec * 1e9 + (double)t.tv_nsec;
}

static void differ(const char *job, const char *name) {
    fprintf(stderr, "bench: %s: %s and %s answer differently\n", job, sides[0].name, name);
    exit(1);
}

/* All that a call can leave. */
typedef struct {
    uint8_t shared[RAINBOW_SHARED_BYTES], screen[RAINBOW_SCREEN_BYTES], attribute[RAINBOW_ATTRIBUTE_BYTES];
    uint8_t picture[RAINBOW_PICTURE_BYTES], line[RAINBOW_LINE_BYTES], lines[RAINBOW_LIST_BYTES];
    uint8_t index[RAINBOW_INDEX_BYTES];
    rainbow_viewers viewers;
    uint32_t answers;
} left_behind;

static void keep(left_behind *left) {
    memcpy(left->shared, shared, sizeof left->shared);
    memcpy(left->screen, screen, sizeof left->screen);
    memcpy(left->attribute, attribute, sizeof left->attribute);
    memcpy(left->picture, picture, sizeof left->picture);
    memcpy(left->line, line, sizeof left->line);
    memcpy(left->lines, lines, sizeof left->lines);
    memcpy(left->index, first_readers, sizeof left->index);
    left->viewers = viewers;
    left->answers = answers;
}

/* What a job leaves is the same on every side, byte by byte. */
static void compare(const struct job *job) {
    static left_behind left[2];
    for (int s = 0; s < SIDES; s++) {
        lay_for(job);
        memset(line, 0xA5, RAINBOW_LINE_BYTES);
        memset(lines, 0xA5, RAINBOW_LIST_BYTES);
        answers = 0;
        job->once(&sides[s]);
        keep(&left[s > 0]);
        if (s > 0 && memcmp(&left[0], &left[1], sizeof left[0]) != 0)
            differ(job->name, sides[s].name);
    }
}

static unsigned chosen;

static unsigned choose(unsigned under) {
    chosen = chosen * 1664525u + 1013904223u;
    return (chosen >> 8) % under;
}

/* Stores and drawings that serve viewers of any numbers, and asks. */
static void mix_viewers(const side *with) {
    for (int viewer = 0; viewer < RAINBOW_VIEWERS; viewer++)
        viewers.waiting[viewer] = choose(1 << 16) << 16 | choose(1 << 16);
    for (int i = 0; i < 4; i++) {
        size_t of_picture = RAINBOW_PICTURE_BYTES - (choose(10) == 0);
        rainbow_stored_for_viewers stored =
            with->store_for(machine, viewers, SHARED, SCREEN, ATTRIBUTE, picture, of_picture, 0xEDFF0 + choose(0x2020),
                            (uint8_t)choose(256));
        viewers = stored.viewers;
        answers = answers * 31 + stored.stored.marks * 16 + stored.stored.refusal;
        ask_viewer(with, choose(10));
    }
    rainbow_drawn_for_viewers drawn = with->draw_for(machine, viewers, SCREEN, ATTRIBUTE, picture,
                                                     RAINBOW_PICTURE_BYTES - (choose(4) == 0));
    viewers = drawn.viewers;
    answers = answers * 31 + (drawn.drawn.reads * 32u + drawn.drawn.wild_row) * 2u + drawn.drawn.refusal;
}

/* Stores with an index, which is true or holds any bytes, many of them rows; and one worked out afresh. */
static void mix_index(const side *with) {
    unsigned under = choose(2) ? 256 : 26;
    for (unsigned at = 0; at < RAINBOW_INDEX_BYTES; at++)
        first_readers[at] = (uint8_t)choose(under);
    if (choose(2))
        answers = answers * 31 + with->index(machine, SCREEN, ATTRIBUTE, first_readers,
                                             RAINBOW_INDEX_BYTES - (choose(10) == 0));
    for (int i = 0; i < 4; i++) {
        size_t of_index = RAINBOW_INDEX_BYTES - (choose(10) == 0);
        rainbow_stored stored = with->store_index(machine, SHARED, SCREEN, ATTRIBUTE, PICTURE, first_readers, of_index,
                                                  0xEDFF0 + choose(0x2020), (uint8_t)choose(256));
        answers = answers * 31 + stored.marks * 16 + stored.refusal;
        rainbow_stored_for_viewers served =
            with->store_index_for(machine, viewers, SHARED, SCREEN, ATTRIBUTE, PICTURE, INDEX,
                                  0xEE000 + choose(0x2000), (uint8_t)(choose(8) == 0 ? 0xFF : choose(256)));
        viewers = served.viewers;
        answers = answers * 31 + served.stored.marks * 16 + served.stored.refusal;
    }
}

/* Memories that are hard to walk, and then a call of each kind, some of them refused. */
static void mixed(const side *with, unsigned seed) {
    chosen = seed * 2654435761u;
    unsigned every = 4 + choose(200);
    machine = rainbow_power_up();
    machine.columns132 = choose(2), machine.reverse = choose(2), machine.blink = choose(2);
    machine.held = (uint8_t)(choose(4) == 0 ? choose(256) : 2), machine.latch = (uint8_t)choose(12);
    for (unsigned at = 0; at < 4096; at++) {
        screen[at] = (uint8_t)(choose(every) == 0 ? 0xFF : choose(256));
        attribute[at] = (uint8_t)choose(256);
        table[at] = (uint8_t)choose(256);
    }
    for (unsigned at = 0; at < RAINBOW_PICTURE_BYTES; at++)
        picture[at] = (uint8_t)choose(256);
    if (choose(4) != 0)
        draw(with);
    for (int i = 0; i < 4; i++) {
        size_t of_screen = RAINBOW_SCREEN_BYTES - (choose(50) == 0), of_line = RAINBOW_LINE_BYTES - (choose(50) == 0);
        rainbow_stored stored = with->store(machine, SHARED, screen, of_screen, ATTRIBUTE, PICTURE,
                                            0xEDFF0 + choose(0x2020), (uint8_t)choose(256));
        answers = answers * 31 + stored.marks * 16 + stored.refusal;
        uint8_t refusal = with->scan_line(machine, PICTURE, TABLE, choose(26), choose(12), line, of_line);
        answers = answers * 31 + refusal;
    }
    answers = answers * 31 + with->list_lines(machine, PICTURE, LIST);
    for (int i = 0; i < 8; i++)
        explain_cell(with, choose(26), choose(134));
    mix_viewers(with);
    mix_index(with);
}

static void compare_mixed(void) {
    static left_behind left[2];
    for (unsigned seed = 1; seed <= MIXED; seed++)
        for (int s = 0; s < SIDES; s++) {
            answers = 0;
            mixed(&sides[s], seed);
            keep(&left[s > 0]);
            if (s > 0 && memcmp(&left[0], &left[1], sizeof left[0]) != 0)
                differ("a mixture", sides[s].name);
        }
}

/* Does a job so many times, so many bytes further down the stack, and says how long one took. */
static double time_batch(const struct job *job, const side *with, unsigned many, unsigned down) {
    volatile uint8_t above[down];
    above[0] = 0;
    lay_for(job);
    answers = above[0];
    double begin = now();
    for (unsigned i = 0; i < many; i++)
        job->once(with);
    return (now() - begin) / many;
}

/* The best of many batches, of about a millisecond each; the sides take turns. */
static void time_job(const struct job *job) {
    double best[SIDES];
    uint32_t told[SIDES];
    compare(job);
    lay_for(job);
    double begin = now();
    unsigned many = 0;
    do
        job->once(&sides[0]), many++;
    while (now() - begin < 1e6);
    for (unsigned batch = 0; batch < BATCHES; batch++) {
        find_room(batch);
        for (int s = 0; s < SIDES; s++) {
            double each = time_batch(job, &sides[s], many, 16 + 16 * (batch * 11 % 64));
            if (batch == 0 || each < best[s])
                best[s] = each;
            told[s] = answers;
        }
    }
    printf("%s", job->name);
    for (int s = 0; s < SIDES; s++) {
        if (told[s] != told[0])
            differ(job->name, sides[s].name);
        printf(" %.1f", best[s]);
    }
    printf("\n");
}

static int count_job(const char *which, const char *name, int many) {
    for (int s = 0; s < SIDES; s++)
        for (int i = 0; i < JOBS; i++)
            if (strcmp(which, sides[s].name) == 0 && strcmp(name, jobs[i].name) == 0) {
                lay_for(&jobs[i]);
                for (int n = 0; n < many; n++)
                    jobs[i].once(&sides[s]);
                return 0;
            }
    fprintf(stderr, "bench: no side %s, or no job %s\n", which, name);
    return 2;
}

int main(int words, char **word) {
    find_room(0);
    if ((words == 2 || words == 3) && strcmp(word[1], "times") == 0) {
        compare_mixed();
        for (int i = 0; i < JOBS; i++)
            if (words == 2 || strstr(jobs[i].name, word[2]) != NULL)
                time_job(&jobs[i]);
        return 0;
    }
    if (words == 2 && strcmp(word[1], "sides") == 0) {
        for (int s = 0; s < SIDES; s++)
            puts(sides[s].name);
        return 0;
    }
    if (words == 2 && strcmp(word[1], "jobs") == 0) {
        for (int i = 0; i < JOBS; i++)
            puts(jobs[i].name);
        return 0;
    }
    if (words == 5 && strcmp(word[1], "count") == 0)
        return count_job(word[2], word[3], atoi(word[4]));
    fprintf(stderr, "usage: bench sides | bench jobs | bench times [WORD] | bench count SIDE JOB N\n");
    return 2;
}
