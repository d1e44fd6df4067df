/* 100,000 calls on buffers of exactly the listed lengths, each hard against a page that may not be touched, so that
 * any access outside of a buffer ends the program. The archive is not built for the sanitizers; they watch this file,
 * and memory that the C library moves for the archive. */
#define _DEFAULT_SOURCE
#include "rainbow.h"
#include <stdio.h>
#include <stdlib.h>
#include <string.h>
#include <sys/mman.h>
#include <unistd.h>

enum {
    SHARED, PRIVATE, SCREEN, ATTRIBUTE, GLYPHS, NVM, SHADOW, PICTURE, FRESH, LINE, LIST, INDEX, FRESH_INDEX, BUFFERS
};
static const size_t listed[BUFFERS] = {
    RAINBOW_SHARED_BYTES, RAINBOW_PRIVATE_BYTES, RAINBOW_SCREEN_BYTES,  RAINBOW_ATTRIBUTE_BYTES, RAINBOW_GLYPH_BYTES,
    RAINBOW_NVM_BYTES,    RAINBOW_SHADOW_BYTES,  RAINBOW_PICTURE_BYTES, RAINBOW_PICTURE_BYTES,   RAINBOW_LINE_BYTES,
    RAINBOW_LIST_BYTES,   RAINBOW_INDEX_BYTES,   RAINBOW_INDEX_BYTES};
enum { AT_END, AT_START, ON_HEAP, WAYS };
enum { MOST_READS = 3375 }; /* of a drawing, at 132 columns */

static uint8_t *buffers[WAYS][BUFFERS];
static uint8_t *fence; /* a page that may not be touched */
static uint8_t *closed[BUFFERS]; /* buffers of which no byte may be touched */
static size_t page;
static unsigned long calls, named, z80_ran, z80_held, ran_8088, reset_8088, lists, cells, not_cells, told, untold;
static unsigned long read_by_rows, unread;
static rainbow_viewers viewers; /* what came back last */
static uint8_t copies[RAINBOW_VIEWERS][RAINBOW_PICTURE_BYTES]; /* the picture as each viewer has it */
static uint64_t seed = 0x9E3779B97F4A7C15u;

static uint32_t below(uint32_t n)
{
    seed ^= seed << 13;
    seed ^= seed >> 7;
    seed ^= seed << 17;
    return (uint32_t)(seed >> 16) % n;
}

static uint8_t any(void)
{
    return (uint8_t)below(256);
}

static void fail(const char *what)
{
    printf("%s, after %lu calls\n", what, calls);
    exit(1);
}

/* Memory between two fences: the buffer ends at the second, or starts at the first. */
static uint8_t *fenced(size_t length, int way)
{
    size_t pages = (length + page - 1) / page * page;
    uint8_t *all = (uint8_t *)mmap(NULL, pages + 2 * page, PROT_NONE, MAP_PRIVATE | MAP_ANONYMOUS, -1, 0);
    if (all == MAP_FAILED || mprotect(all + page, pages, PROT_READ | PROT_WRITE) != 0)
        fail("no memory");
    fence = all;
    return way == AT_END ? all + page + pages - length : all + page;
}

static uint8_t *untouched(size_t length)
{
    uint8_t *all = (uint8_t *)mmap(NULL, length, PROT_NONE, MAP_PRIVATE | MAP_ANONYMOUS, -1, 0);
    if (all == MAP_FAILED)
        fail("no memory");
    return all;
}

static void make_buffers(void)
{
    page = (size_t)sysconf(_SC_PAGESIZE);
    for (int buffer = 0; buffer < BUFFERS; buffer++)
        closed[buffer] = untouched(listed[buffer]);
    for (int way = 0; way < WAYS; way++)
        for (int buffer = 0; buffer < BUFFERS; buffer++) {
            uint8_t *bytes = way == ON_HEAP ? (uint8_t *)malloc(listed[buffer]) : fenced(listed[buffer], way);
            if (bytes == NULL)
                fail("no memory");
            buffers[way][buffer] = bytes;
        }
}

/* Any bytes, and screens of which one byte in `every` is FF. */
static void fill(uint8_t **b)
{
    uint32_t every = 1 + below(90);
    for (int buffer = 0; buffer < BUFFERS; buffer++)
        for (size_t place = 0; place < listed[buffer]; place++)
            b[buffer][place] = any();
    for (size_t place = 0; place < listed[SCREEN]; place++)
        b[SCREEN][place] = below(every) == 0 ? 0xFF : (uint8_t)below(255);
}

static uint32_t address(void)
{
    static const uint32_t edges[] = {0,       0xFFFF,  0x10000, 0xEDFFF,  0xEE000,  0xEEFFF,
                                     0xEF000, 0xEFFFF, 0xF0000, 0x100000, 0x1EE000, 0xFFFFFFFF};
    switch (below(8)) {
    case 0: return edges[below(12)];
    case 1: return below(0x10000);
    default: return 0xEE000 + below(0x2000);
    }
}

/* An access of the 8088 with buffers of the listed lengths is refused by 8 exactly while the 8088 is in reset. */
static void refused_8088(rainbow_machine machine, uint8_t refusal)
{
    if ((refusal == RAINBOW_REFUSED_IN_RESET) != machine.reset)
        fail("the 8088 is not refused as it should be");
    *(machine.reset ? &reset_8088 : &ran_8088) += 1;
}

static rainbow_machine write_any_port(rainbow_machine machine, uint8_t **b)
{
    static const uint16_t ports[] = {0x04, 0x0A, 0x0C, 0x0C, 0x10C, 0x10A};
    uint8_t code = below(3) == 0 ? any() : below(2) == 0 ? (uint8_t)below(12) : (uint8_t)(below(4) << 4);
    rainbow_written written =
        rainbow_write_port(machine, b[SHADOW], listed[SHADOW], b[NVM], listed[NVM], ports[below(6)], code);
    refused_8088(machine, written.refusal);
    return written.machine;
}

/* Ticks of both kinds, which are lent nothing. */
static rainbow_machine tick(rainbow_machine machine)
{
    for (uint32_t ticks = below(200); ticks > 0; ticks--)
        machine = rainbow_watchdog_tick(machine);
    return below(2) == 0 ? rainbow_vertical_tick(machine) : machine;
}

/* The kept picture is drawn for the viewers, any other by itself. */
static uint8_t draw(rainbow_machine machine, uint8_t **b, int into)
{
    rainbow_drawn drawn;
    if (into == PICTURE) {
        rainbow_drawn_for_viewers served =
            rainbow_draw_for_viewers(machine, viewers, b[SCREEN], listed[SCREEN], b[ATTRIBUTE], listed[ATTRIBUTE],
                                     b[into], listed[into]);
        drawn = served.drawn;
        viewers = served.viewers;
    } else {
        drawn = rainbow_draw(machine, b[SCREEN], listed[SCREEN], b[ATTRIBUTE], listed[ATTRIBUTE], b[into],
                             listed[into]);
    }
    if (drawn.reads > MOST_READS)
        fail("too many bytes read");
    if (drawn.wild_row >= RAINBOW_ROWS || (!drawn.wild && drawn.wild_row != 0))
        fail("a row is named that is none");
    named += drawn.wild;
    return drawn.refusal;
}

/* The index, of which each entry is a row or none. */
static uint8_t work_out(rainbow_machine machine, uint8_t **b, int into)
{
    uint8_t refusal = rainbow_index_readers(machine, b[SCREEN], listed[SCREEN], b[ATTRIBUTE], listed[ATTRIBUTE],
                                            b[into], listed[into]);
    for (size_t entry = 0; entry < listed[into]; entry++)
        if (b[into][entry] >= RAINBOW_ROWS && b[into][entry] != RAINBOW_NO_ROW)
            fail("an entry of the index is no row");
    return refusal;
}

/* A call of the Z80 is refused by 7 exactly while the Z80 is held. */
static void z80_refused(rainbow_machine machine, uint8_t refusal)
{
    bool runs = rainbow_z80_runs(machine);
    if (refusal != (runs ? RAINBOW_ACCEPTED : RAINBOW_REFUSED_Z80_HELD))
        fail("the Z80 is not refused as it should be");
    *(runs ? &z80_ran : &z80_held) += 1;
}

/* Each line of a list is one that a scan line can be drawn of. */
static void list(rainbow_machine machine, uint8_t **b)
{
    uint8_t refusal = rainbow_list_lines(machine, b[PICTURE], listed[PICTURE], b[LIST], listed[LIST]);
    if (refusal != (rainbow_scroll_latch(machine) > 9 ? RAINBOW_REFUSED_LATCH : RAINBOW_ACCEPTED))
        fail("a whole screen is not refused as it should be");
    if (refusal != RAINBOW_ACCEPTED)
        return;
    for (size_t at = 0; at < listed[LIST]; at += 2)
        if (b[LIST][at] >= RAINBOW_ROWS || b[LIST][at + 1] < RAINBOW_FIRST_SCAN || b[LIST][at + 1] > RAINBOW_LAST_SCAN)
            fail("a line is listed that is none");
    lists++;
}

/* What is said of a cell is what the picture, which is true, shows there: of a cell the byte at the place that is
 * named, else 20, 0E. The link's low byte stands where it is said to, and is the low byte of the row's start. */
static void explain(rainbow_machine machine, uint8_t **b)
{
    size_t row = below(RAINBOW_ROWS + 2), column = below(RAINBOW_COLUMNS + 10);
    rainbow_explained why =
        rainbow_explain(machine, b[SCREEN], listed[SCREEN], b[ATTRIBUTE], listed[ATTRIBUTE], row, column);
    bool there = row < RAINBOW_ROWS && column < RAINBOW_COLUMNS;
    if (why.refusal != (there ? RAINBOW_ACCEPTED : RAINBOW_REFUSED_PLACE))
        fail("a cell is not refused as it should be");
    if (!there)
        return;
    const uint8_t *record = b[PICTURE] + row * RAINBOW_RECORD_BYTES, *pair = record + RAINBOW_PAIRS_AT + 2 * column;
    bool is_cell = why.answer == RAINBOW_WHY_CELL, is_dark = why.answer == RAINBOW_WHY_DARK;
    if (why.place >= listed[SCREEN] || why.link >= listed[SCREEN] || why.tore >= RAINBOW_ROWS || why.kind > 7)
        fail("a place, a row or a kind is named that is none");
    if (is_cell ? pair[0] != b[SCREEN][why.place] || pair[1] != b[ATTRIBUTE][why.place] % 16
                : pair[0] != 0x20 || pair[1] != 0x0E)
        fail("a cell shows another byte than the one that is named");
    if (is_cell && why.kind != record[RAINBOW_KIND_AT])
        fail("the kind of a cell's row is another one");
    if (why.answer == RAINBOW_WHY_FILL && b[SCREEN][why.place] != 0xFF)
        fail("no FF stands at the place that is named");
    if (is_dark != (record[RAINBOW_COUNT_AT] == RAINBOW_DARK))
        fail("a row is dark, or is not");
    if (is_dark && b[PICTURE][why.tore * RAINBOW_RECORD_BYTES + RAINBOW_COUNT_AT] != RAINBOW_TORN)
        fail("the row that is named is not torn");
    if (why.linked != (row > 0 && !is_dark) || (why.linked && b[SCREEN][why.link] != record[1]))
        fail("the link that is named does not lead to the row");
    *(is_cell ? &cells : &not_cells) += 1;
}

/* A viewer that takes over the records that are marked has the picture, which is true. */
static void ask(uint8_t **b)
{
    size_t viewer = below(RAINBOW_VIEWERS + 2);
    rainbow_asked asked = rainbow_ask(viewers, viewer);
    if (asked.refusal != (viewer < RAINBOW_VIEWERS ? RAINBOW_ACCEPTED : RAINBOW_REFUSED_VIEWER))
        fail("a viewer is not refused as it should be");
    viewers = asked.viewers;
    *(asked.marks != 0 ? &told : &untold) += 1;
    if (viewer >= RAINBOW_VIEWERS)
        return;
    for (size_t row = 0; row < RAINBOW_ROWS; row++) {
        size_t at = row * RAINBOW_RECORD_BYTES;
        if (rainbow_is_marked(asked.marks, row))
            memcpy(copies[viewer] + at, b[PICTURE] + at, RAINBOW_RECORD_BYTES);
    }
    if (memcmp(copies[viewer], b[PICTURE], listed[PICTURE]) != 0)
        fail("a viewer's copy differs from the picture");
}

/* An address of a byte that a row reads, if there is one. */
static uint32_t address_in_a_row(uint8_t **b)
{
    size_t entry = below(RAINBOW_INDEX_BYTES);
    for (size_t left = listed[INDEX]; left > 0 && b[INDEX][entry] == RAINBOW_NO_ROW; left--)
        entry = (entry + 1) % listed[INDEX];
    return 0xEE000 + (uint32_t)entry;
}

/* Picture and index are kept. A store without an index, which leaves the index behind, is made a second time with it:
 * the entry is still that of the memories before, and so the index becomes true again. */
static uint8_t store(rainbow_machine machine, uint8_t **b, uint8_t byte)
{
    uint32_t at = below(8) == 0 ? address_in_a_row(b) : address();
    size_t entry = (size_t)at - 0xEE000;
    *(entry < listed[INDEX] && b[INDEX][entry] != RAINBOW_NO_ROW ? &read_by_rows : &unread) += 1;
    if (below(4) == 0) {
        rainbow_stored_for_viewers served = rainbow_store_for_viewers(
            machine, viewers, b[SHARED], listed[SHARED], b[SCREEN], listed[SCREEN], b[ATTRIBUTE], listed[ATTRIBUTE],
            b[PICTURE], listed[PICTURE], at, byte);
        viewers = served.viewers;
    }
    rainbow_stored_for_viewers served = rainbow_store_with_index_for_viewers(
        machine, viewers, b[SHARED], listed[SHARED], b[SCREEN], listed[SCREEN], b[ATTRIBUTE], listed[ATTRIBUTE],
        b[PICTURE], listed[PICTURE], b[INDEX], listed[INDEX], at, byte);
    viewers = served.viewers;
    return served.stored.refusal;
}

/* A picture and an index of any bytes: nothing but the buffers is touched. Both are made afresh after it. */
static void untrue(rainbow_machine machine, uint8_t **b)
{
    for (size_t entry = 0; entry < listed[INDEX]; entry++)
        b[INDEX][entry] = (uint8_t)below(below(2) == 0 ? 30 : 256);
    for (int stores = 0; stores < 5; stores++)
        refused_8088(machine, rainbow_store_with_index(machine, b[SHARED], listed[SHARED], b[SCREEN], listed[SCREEN],
                                                       b[ATTRIBUTE], listed[ATTRIBUTE], b[PICTURE], listed[PICTURE],
                                                       b[INDEX], listed[INDEX], address(), any()).refusal);
}

/* One call that keeps picture and index true. */
static void call(rainbow_machine machine, uint8_t **b)
{
    size_t place = below(300);
    uint16_t z80 = (uint16_t)(below(2) == 0 ? below(0x1000) : below(0x10000));
    uint8_t byte = below(5) == 0 ? 0xFF : any();
    switch (below(11)) {
    case 0:
        refused_8088(machine, rainbow_read_8088(machine, b[SHARED], listed[SHARED], b[SCREEN], listed[SCREEN],
                                                b[ATTRIBUTE], listed[ATTRIBUTE], address()).refusal);
        break;
    case 1:
        z80_refused(machine, rainbow_read_z80(machine, b[PRIVATE], listed[PRIVATE], b[SHARED], listed[SHARED],
                                              z80).refusal);
        break;
    case 2:
        z80_refused(machine, rainbow_store_z80(machine, b[PRIVATE], listed[PRIVATE], b[SHARED], listed[SHARED], z80,
                                               any()));
        break;
    case 3: refused_8088(machine, rainbow_read_shadow(machine, b[SHADOW], listed[SHADOW], place).refusal); break;
    case 4: refused_8088(machine, rainbow_write_shadow(machine, b[SHADOW], listed[SHADOW], place, any())); break;
    case 5:
        rainbow_scan_line(machine, b[PICTURE], listed[PICTURE], b[GLYPHS], listed[GLYPHS],
                          below(RAINBOW_ROWS + 2), below(RAINBOW_LAST_SCAN + 2), b[LINE], listed[LINE]);
        break;
    case 6: list(machine, b); break;
    case 7: explain(machine, b); break;
    case 8: ask(b); break;
    default: refused_8088(machine, store(machine, b, byte));
    }
}

/* A buffer that is refused by its length is not touched, nor are the others of the call. Reset does not matter. */
static void refused(rainbow_machine machine, uint8_t **b)
{
    size_t length = listed[PICTURE] - 1 + 2 * below(2);
    machine.reset = below(2) == 0;
    rainbow_stored stored =
        rainbow_store_with_picture(machine, fence, 7, fence, 7, fence, 7, fence, length, address(), any());
    rainbow_stored_for_viewers stored_for = rainbow_store_for_viewers(machine, viewers, fence, 7, fence, 7, fence, 7,
                                                                      fence, length, address(), any());
    rainbow_drawn_for_viewers drawn_for = rainbow_draw_for_viewers(machine, viewers, fence, 1, fence, 2, fence, length);
    if (stored_for.stored.refusal != 1 || drawn_for.drawn.refusal != 1 ||
        memcmp(&stored_for.viewers, &viewers, sizeof viewers) != 0 ||
        memcmp(&drawn_for.viewers, &viewers, sizeof viewers) != 0)
        fail("a wrong length is not refused by 1 to viewers");
    rainbow_drawn one = rainbow_draw(machine, fence, 1, fence, 2, fence, length);
    rainbow_drawn other = rainbow_draw(machine, b[SCREEN], listed[SCREEN], fence, 0, b[PICTURE], length);
    bool all = stored.refusal == 1 && one.refusal == 1 && other.refusal == 1 && !one.wild && !other.wild &&
               one.wild_row == 0 && other.wild_row == 0 &&
               rainbow_scan_line(machine, fence, length, fence, 0, 0, 1, fence, 3) == 1 &&
               rainbow_list_lines(machine, fence, length, b[LIST], listed[LIST]) == 1 &&
               rainbow_list_lines(machine, closed[PICTURE], listed[PICTURE], fence, listed[LIST] - 1) == 1 &&
               rainbow_explain(machine, fence, 4097, b[ATTRIBUTE], listed[ATTRIBUTE], 0, 0).refusal == 1 &&
               rainbow_explain(machine, closed[SCREEN], listed[SCREEN], fence, 7, 25, 132).refusal == 1 &&
               rainbow_glyph_part(fence, length, any()).refusal == 1 &&
               rainbow_read_8088(machine, fence, 7, fence, 0, fence, length, address()).refusal == 1 &&
               rainbow_store_8088(machine, b[SHARED], listed[SHARED], fence, 7, fence, 0, address(), any()) == 1 &&
               rainbow_read_shadow(machine, fence, 257, below(300)).refusal == 1 &&
               rainbow_write_shadow(machine, fence, 255, 0, any()) == 1 &&
               rainbow_write_port(machine, fence, 255, b[NVM], listed[NVM], 0x0A, any()).refusal == 1 &&
               rainbow_read_z80(machine, fence, listed[PRIVATE] + 1, fence, 0, 0x0800).refusal == 1 &&
               rainbow_store_z80(machine, b[PRIVATE], listed[PRIVATE], fence, length, 0x07FF, any()) == 1;
    if (!all)
        fail("a wrong length is not refused by 1");
}

/* The same where an index is lent. */
static void refused_with_index(rainbow_machine machine)
{
    uint8_t **n = closed;
    size_t entries = listed[INDEX] - 1 + 2 * below(2), length = listed[PICTURE] - 1 + 2 * below(2);
    machine.reset = below(2) == 0;
    rainbow_stored stored = rainbow_store_with_index(
        machine, n[SHARED], listed[SHARED], n[SCREEN], listed[SCREEN], n[ATTRIBUTE], listed[ATTRIBUTE], n[PICTURE],
        listed[PICTURE], fence, entries, address(), any());
    rainbow_stored_for_viewers served = rainbow_store_with_index_for_viewers(
        machine, viewers, fence, 7, fence, 7, fence, 7, fence, length, n[INDEX], listed[INDEX], address(), any());
    uint8_t one = rainbow_index_readers(machine, n[SCREEN], listed[SCREEN], n[ATTRIBUTE], listed[ATTRIBUTE], fence,
                                        entries);
    uint8_t other = rainbow_index_readers(machine, fence, 7, n[ATTRIBUTE], listed[ATTRIBUTE], n[INDEX], listed[INDEX]);
    if (stored.refusal != 1 || stored.marks != 0 || served.stored.refusal != 1 || served.stored.marks != 0 ||
        memcmp(&served.viewers, &viewers, sizeof viewers) != 0 || one != 1 || other != 1)
        fail("a wrong length is not refused by 1 with an index");
}

/* Nor does a Z80 that is held touch memory. */
static void held(rainbow_machine machine)
{
    machine.held &= 0xFE;
    uint16_t address = (uint16_t)below(0x1000);
    rainbow_byte_read read = rainbow_read_z80(machine, closed[PRIVATE], listed[PRIVATE], closed[SHARED],
                                              listed[SHARED], address);
    if (read.refusal != RAINBOW_REFUSED_Z80_HELD || read.byte != 0 ||
        rainbow_store_z80(machine, closed[PRIVATE], listed[PRIVATE], closed[SHARED], listed[SHARED], address, any()) !=
            RAINBOW_REFUSED_Z80_HELD)
        fail("a held Z80 is not refused by 7");
}

/* Nor does an 8088 that is in reset. */
static void stopped(rainbow_machine machine)
{
    uint8_t **n = closed;
    size_t place = below(300);
    machine.reset = true;
    rainbow_byte_read read = rainbow_read_8088(machine, n[SHARED], listed[SHARED], n[SCREEN], listed[SCREEN],
                                               n[ATTRIBUTE], listed[ATTRIBUTE], address());
    rainbow_byte_read shadow = rainbow_read_shadow(machine, n[SHADOW], listed[SHADOW], place);
    rainbow_stored stored =
        rainbow_store_with_picture(machine, n[SHARED], listed[SHARED], n[SCREEN], listed[SCREEN], n[ATTRIBUTE],
                                   listed[ATTRIBUTE], n[PICTURE], listed[PICTURE], address(), any());
    rainbow_written written = rainbow_write_port(machine, n[SHADOW], listed[SHADOW], n[NVM], listed[NVM], 0x0A, any());
    rainbow_stored_for_viewers served = rainbow_store_for_viewers(
        machine, viewers, n[SHARED], listed[SHARED], n[SCREEN], listed[SCREEN], n[ATTRIBUTE], listed[ATTRIBUTE],
        n[PICTURE], listed[PICTURE], address(), any());
    if (served.stored.refusal != RAINBOW_REFUSED_IN_RESET || memcmp(&served.viewers, &viewers, sizeof viewers) != 0)
        fail("a store for viewers is not refused by 8");
    if (read.refusal != RAINBOW_REFUSED_IN_RESET || read.byte != 0 || shadow.refusal != RAINBOW_REFUSED_IN_RESET ||
        shadow.byte != 0 || stored.refusal != RAINBOW_REFUSED_IN_RESET || stored.marks != 0 ||
        written.refusal != RAINBOW_REFUSED_IN_RESET || memcmp(&written.machine, &machine, sizeof machine) != 0 ||
        rainbow_store_8088(machine, n[SHARED], listed[SHARED], n[SCREEN], listed[SCREEN], n[ATTRIBUTE],
                           listed[ATTRIBUTE], address(), any()) != RAINBOW_REFUSED_IN_RESET ||
        rainbow_write_shadow(machine, n[SHADOW], listed[SHADOW], place, any()) != RAINBOW_REFUSED_IN_RESET)
        fail("an 8088 in reset is not refused by 8");
}

static void stopped_with_index(rainbow_machine machine)
{
    uint8_t **n = closed;
    machine.reset = true;
    rainbow_stored stored = rainbow_store_with_index(
        machine, n[SHARED], listed[SHARED], n[SCREEN], listed[SCREEN], n[ATTRIBUTE], listed[ATTRIBUTE], n[PICTURE],
        listed[PICTURE], n[INDEX], listed[INDEX], address(), any());
    rainbow_stored_for_viewers served = rainbow_store_with_index_for_viewers(
        machine, viewers, n[SHARED], listed[SHARED], n[SCREEN], listed[SCREEN], n[ATTRIBUTE], listed[ATTRIBUTE],
        n[PICTURE], listed[PICTURE], n[INDEX], listed[INDEX], address(), any());
    if (stored.refusal != RAINBOW_REFUSED_IN_RESET || stored.marks != 0 ||
        served.stored.refusal != RAINBOW_REFUSED_IN_RESET || memcmp(&served.viewers, &viewers, sizeof viewers) != 0)
        fail("a store with an index is not refused by 8");
}

/* Nor, but for one entry, does a store with an index that names no row: of shared memory not even that. */
static void unnamed(rainbow_machine machine, uint8_t **b)
{
    uint8_t **n = closed;
    machine.reset = false;
    uint32_t in_shared = below(0x10000), in_screen = below(0x1000);
    rainbow_stored stored =
        rainbow_store_with_index(machine, b[SHARED], listed[SHARED], n[SCREEN], listed[SCREEN], n[ATTRIBUTE],
                                 listed[ATTRIBUTE], n[PICTURE], listed[PICTURE], n[INDEX], listed[INDEX], in_shared, 1);
    if (stored.refusal != RAINBOW_ACCEPTED || stored.marks != 0 || b[SHARED][in_shared] != 1)
        fail("a store into shared memory with an index");
    b[INDEX][in_screen] = (uint8_t)(RAINBOW_ROWS + below(256 - RAINBOW_ROWS));
    stored = rainbow_store_with_index(machine, n[SHARED], listed[SHARED], b[SCREEN], listed[SCREEN], n[ATTRIBUTE],
                                      listed[ATTRIBUTE], n[PICTURE], listed[PICTURE], b[INDEX], listed[INDEX],
                                      0xEE000 + in_screen, 1);
    if (stored.refusal != RAINBOW_ACCEPTED || stored.marks != 0 || b[SCREEN][in_screen] != 1)
        fail("a store with an index that names no row");
}

/* Nor does a whole screen with a latch over 9. */
static void latched(rainbow_machine machine)
{
    machine.latch = (uint8_t)(10 + below(6) + 16 * below(16));
    if (rainbow_list_lines(machine, closed[PICTURE], listed[PICTURE], closed[LIST], listed[LIST]) !=
        RAINBOW_REFUSED_LATCH)
        fail("a latch over 9 is not refused by 9");
}

/* Nor does a row over 24 or a column over 131. */
static void off_the_screen(rainbow_machine machine)
{
    size_t row = RAINBOW_ROWS + below(99), column = RAINBOW_COLUMNS + below(99);
    rainbow_explained below_it = rainbow_explain(machine, closed[SCREEN], listed[SCREEN], closed[ATTRIBUTE],
                                                 listed[ATTRIBUTE], row, 0);
    rainbow_explained beside_it = rainbow_explain(machine, closed[SCREEN], listed[SCREEN], closed[ATTRIBUTE],
                                                  listed[ATTRIBUTE], 0, column);
    if (below_it.refusal != RAINBOW_REFUSED_PLACE || beside_it.refusal != RAINBOW_REFUSED_PLACE)
        fail("a cell off the screen is not refused by 5");
}

int main(void)
{
    make_buffers();
    viewers = rainbow_start_viewers();
    for (int round = 0; calls < 100000; round++) {
        uint8_t **b = buffers[round % WAYS];
        rainbow_machine machine = rainbow_power_up();
        fill(b);
        for (int turn = 0; turn < 10; turn++) {
            machine = tick(write_any_port(machine, b));
            draw(machine, b, PICTURE);
            work_out(machine, b, INDEX);
            for (int i = 0; i < 50; i++)
                call(machine, b);
            refused(machine, b);
            refused_with_index(machine);
            held(machine);
            stopped(machine);
            stopped_with_index(machine);
            latched(machine);
            off_the_screen(machine);
            if (draw(machine, b, FRESH) != 0 || memcmp(b[PICTURE], b[FRESH], listed[PICTURE]) != 0)
                fail("the kept picture differs from a fresh one");
            if (work_out(machine, b, FRESH_INDEX) != 0 || memcmp(b[INDEX], b[FRESH_INDEX], listed[INDEX]) != 0)
                fail("the kept index differs from a fresh one");
            untrue(machine, b);
            unnamed(machine, b);
            calls += 98;
        }
    }
    for (int buffer = 0; buffer < BUFFERS; buffer++)
        free(buffers[ON_HEAP][buffer]);
    if (named == 0)
        fail("no row was named");
    if (z80_ran == 0 || z80_held == 0)
        fail("the Z80 was always held, or never");
    if (ran_8088 < 1000 || reset_8088 < 1000)
        fail("the 8088 was seldom in reset, or seldom not");
    if (lists == 0)
        fail("no whole screen was listed");
    if (cells == 0 || not_cells == 0)
        fail("no cell was explained, or nothing but cells");
    if (read_by_rows < 1000 || unread < 1000)
        fail("the index seldom named a row, or seldom none");
    if (told < 1000 || untold < 1000)
        fail("a viewer was seldom told of rows, or seldom of none");
    printf("%lu calls touched nothing outside of their buffers\n", calls);
    return 0;
}
