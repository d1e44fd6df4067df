/* rainbow_computer.h: each function does what the call behind it does on the struct's own buffers, and picture and
 * index are always those that are made afresh, although nothing here makes them after a change of columns. The viewers
 * are told what a count of the marks by hand says. */
#include "rainbow_computer.h"
#include <stdio.h>
#include <stdlib.h>

enum { CALLS = 200000, LAST_ROW = RAINBOW_ROWS - 1, ALL_ROWS = 0x01FFFFFF };

/* The bytes of all fields. After the last there is a byte that is none. */
enum { ALL_FIELDS = offsetof(rainbow_computer, machine) + sizeof(rainbow_machine) };

static rainbow_computer c, twin; /* the twin is changed by the calls of rainbow.h alone */
static uint32_t seed = 1, z80_ran, z80_held, ran_8088, reset_8088, listed, not_listed, explained, refused;
static uint32_t asked, unmarked, no_viewer, by_index, unread;

static uint32_t below(uint32_t n)
{
    seed = seed * 1664525u + 1013904223u;
    return (seed >> 8) % n;
}

static void expect(bool holds, const char *what)
{
    if (!holds) {
        printf("rainbow_computer.h: %s\n", what);
        exit(1);
    }
}

static uint32_t marks_since(const uint8_t *before)
{
    uint32_t marks = 0;
    for (unsigned row = 0; row < RAINBOW_ROWS; row++) {
        size_t at = row * RAINBOW_RECORD_BYTES;
        if (memcmp(before + at, c.picture + at, RAINBOW_RECORD_BYTES) != 0)
            marks |= (uint32_t)1 << row;
    }
    return marks;
}

static void fill(void)
{
    for (size_t at = 0; at < sizeof c.shared; at++)
        c.shared[at] = (uint8_t)below(256);
    for (size_t at = 0; at < sizeof c.screen; at++) {
        c.screen[at] = below(30) == 0 ? 0xFF : (uint8_t)(0x20 + below(95));
        c.attribute[at] = c.glyphs[at] = (uint8_t)below(256);
    }
    for (size_t at = 0; at < sizeof c.nvm; at++)
        c.nvm[at] = (uint8_t)below(256);
}

/* The marks wait for each viewer of the twin. */
static void wait_for(uint32_t marks)
{
    for (size_t viewer = 0; viewer < RAINBOW_VIEWERS; viewer++)
        twin.viewers.waiting[viewer] |= marks;
}

/* The twin's index, which is worked out and never kept. */
static void index_twin(void)
{
    expect(rainbow_index_readers(twin.machine, twin.screen, sizeof twin.screen, twin.attribute, sizeof twin.attribute,
                                 twin.index, sizeof twin.index) == 0, "an index worked out");
}

/* The same on the twin, each buffer lent by hand. */
static void port(uint16_t number, uint8_t code)
{
    size_t columns = rainbow_columns(twin.machine);
    uint8_t before[RAINBOW_PICTURE_BYTES];
    memcpy(before, c.picture, sizeof before);
    rainbow_stored stored = rainbow_computer_write_port(&c, number, code);
    rainbow_written written = rainbow_write_port(twin.machine, twin.shadow, sizeof twin.shadow, twin.nvm,
                                                 sizeof twin.nvm, number, code);
    twin.machine = written.machine;
    rainbow_draw(twin.machine, twin.screen, sizeof twin.screen, twin.attribute, sizeof twin.attribute, twin.picture,
                 sizeof twin.picture);
    if (rainbow_columns(twin.machine) != columns)
        wait_for(ALL_ROWS);
    index_twin();
    expect(memcmp(c.index, twin.index, sizeof c.index) == 0, "the index after a port write");
    expect(stored.refusal == written.refusal, "the refusal of a port write");
    expect(stored.marks == marks_since(before), "the marks of a port write");
}

/* A store that goes by the index does what one without an index does. */
static void store(uint32_t address, uint8_t byte)
{
    size_t entry = (size_t)address - 0xEE000;
    *(entry < sizeof c.index && c.index[entry] != RAINBOW_NO_ROW ? &by_index : &unread) += 1;
    rainbow_stored stored = rainbow_computer_store(&c, address, byte);
    rainbow_stored wanted = rainbow_store_with_picture(
        twin.machine, twin.shared, sizeof twin.shared, twin.screen, sizeof twin.screen, twin.attribute,
        sizeof twin.attribute, twin.picture, sizeof twin.picture, address, byte);
    wait_for(wanted.marks);
    expect(stored.refusal == wanted.refusal && stored.marks == wanted.marks, "a store");
}

static void ask(size_t viewer)
{
    rainbow_asked told = rainbow_computer_ask(&c, viewer);
    bool there = viewer < RAINBOW_VIEWERS;
    uint32_t marks = there ? twin.viewers.waiting[viewer] : 0;
    expect(told.refusal == (there ? 0 : 10) && told.marks == marks, "an ask");
    if (there)
        twin.viewers.waiting[viewer] = 0;
    *(!there ? &no_viewer : marks == 0 ? &unmarked : &asked) += 1;
}

static void read_and_draw(void)
{
    uint32_t address = below(2) == 0 ? 0xEDFF0 + below(0x2020) : below(0x20000);
    rainbow_byte_read read = rainbow_computer_read(&c, address);
    rainbow_byte_read wanted = rainbow_read_8088(twin.machine, twin.shared, sizeof twin.shared, twin.screen,
                                                 sizeof twin.screen, twin.attribute, sizeof twin.attribute, address);
    expect(read.refusal == wanted.refusal && read.byte == wanted.byte, "a read");
    bool reset = twin.machine.reset;
    expect((read.refusal == 8) == reset, "a read in reset, or out of it");
    *(reset ? &reset_8088 : &ran_8088) += 1;
    uint16_t z80 = (uint16_t)below(0x1000);
    bool runs = twin.machine.held % 2 == 1;
    read = rainbow_computer_read_z80(&c, z80);
    wanted.byte = z80 < 0x800 ? twin.private_memory[z80] : twin.shared[z80];
    expect(runs ? read.refusal == 0 && read.byte == wanted.byte : read.refusal == 7 && read.byte == 0,
           "a read of the Z80");
    expect(rainbow_z80_runs(c.machine) == runs, "whether the Z80 runs");
    *(runs ? &z80_ran : &z80_held) += 1;
    size_t place = below(300), row = below(RAINBOW_ROWS + 2), scan = below(RAINBOW_LAST_SCAN + 2);
    read = rainbow_computer_read_shadow(&c, place);
    expect(read.refusal == (reset ? 8 : place > 255 ? 5 : 0) &&
               read.byte == (reset || place > 255 ? 0 : twin.shadow[place] % 16), "a read of the shadow");
    uint8_t refusal = rainbow_scan_line(twin.machine, twin.picture, sizeof twin.picture, twin.glyphs,
                                        sizeof twin.glyphs, row, scan, twin.line, sizeof twin.line);
    expect(rainbow_computer_scan_line(&c, row, scan) == refusal, "a scan line");
    refusal = rainbow_list_lines(twin.machine, twin.picture, sizeof twin.picture, twin.list, sizeof twin.list);
    expect(rainbow_computer_list_lines(&c) == refusal, "the lines of the whole screen");
    expect(refusal == (rainbow_scroll_latch(c.machine) > 9 ? 9 : 0), "the refusal of a whole screen");
    *(refusal == 0 ? &listed : &not_listed) += 1;
    size_t column = below(RAINBOW_COLUMNS + 10);
    rainbow_explained why = rainbow_computer_explain(&c, row, column);
    rainbow_explained said = rainbow_explain(twin.machine, twin.screen, sizeof twin.screen, twin.attribute,
                                             sizeof twin.attribute, row, column);
    expect(why.refusal == said.refusal && why.answer == said.answer && why.place == said.place &&
               why.kind == said.kind && why.tore == said.tore && why.linked == said.linked && why.link == said.link,
           "why a cell shows what it shows");
    *(why.refusal == 0 ? &explained : &refused) += 1;
}

static void one_call(void)
{
    static const uint16_t ports[] = {0x04, 0x04, 0x0A, 0x0C, 0x10C, 0x05};
    uint8_t byte = below(8) == 0 ? 0xFF : (uint8_t)below(256);
    uint32_t number = below(300);
    switch (below(10)) {
    case 0: port(ports[below(6)], below(2) == 0 ? (uint8_t)(below(5) << 4) : byte); break;
    case 1: read_and_draw(); break;
    case 2:
        expect(rainbow_computer_store_z80(&c, (uint16_t)(0x700 + number), byte) ==
                   rainbow_store_z80(twin.machine, twin.private_memory, sizeof twin.private_memory, twin.shared,
                                     sizeof twin.shared, (uint16_t)(0x700 + number), byte), "a store of the Z80");
        break;
    case 3:
        expect(rainbow_computer_write_shadow(&c, number, byte) ==
                   rainbow_write_shadow(twin.machine, twin.shadow, sizeof twin.shadow, number, byte),
               "a write of the shadow");
        break;
    case 4:
        rainbow_computer_tick(&c);
        twin.machine = rainbow_vertical_tick(twin.machine);
        break;
    case 5:
        for (uint32_t ticks = number / 4; ticks > 0; ticks--) {
            rainbow_computer_watchdog_tick(&c);
            twin.machine = rainbow_watchdog_tick(twin.machine);
        }
        break;
    case 6: ask(number < 200 ? number % RAINBOW_VIEWERS : number); break;
    default: store(0xEDFF0 + below(0x2020), byte);
    }
}

/* Every byte of the two is the same, and drawing afresh changes none. */
static void compare(void)
{
    index_twin();
    expect(memcmp(c.index, twin.index, sizeof c.index) == 0, "the kept index");
    expect(memcmp(&c, &twin, ALL_FIELDS) == 0, "the memories, the picture or the machine");
    rainbow_drawn drawn = rainbow_computer_draw(&c);
    wait_for(ALL_ROWS);
    expect(memcmp(&c, &twin, ALL_FIELDS) == 0, "the kept picture, or the kept index");
    rainbow_drawn wanted = rainbow_draw(twin.machine, twin.screen, sizeof twin.screen, twin.attribute,
                                        sizeof twin.attribute, twin.picture, sizeof twin.picture);
    expect(drawn.refusal == 0 && drawn.reads == wanted.reads, "the answer of a drawing");
    expect(drawn.wild == wanted.wild && drawn.wild_row == wanted.wild_row, "the wild row of a drawing");
}

/* Rows as they are read off the screen. */
static void rows(void)
{
    static rainbow_computer d;
    char text[RAINBOW_TEXT_BYTES];
    memset(d.screen, 'A', sizeof d.screen);
    memcpy(d.screen, "HERD\001\xFF\x50\x01", 8);
    d.attribute[6] = 6; /* the row pointed to is wide and scrolls */
    rainbow_drawn drawn = rainbow_computer_power_up(&d);
    expect(drawn.refusal == 0 && drawn.reads == 8 + 41 && !drawn.wild && drawn.wild_row == 0, "power-up's drawing");
    rainbow_row row = rainbow_computer_row(&d, 0);
    expect(row.refusal == 0 && row.start == 0 && row.kind == 3 && row.count == 5 && row.cells == 5, "row 0");
    expect(rainbow_computer_text(&d, 0, text) == 5 && strcmp(text, "HERD.") == 0, "the text of row 0");
    row = rainbow_computer_row(&d, 1);
    expect(row.start == 0x150 && row.kind == 6 && row.count == RAINBOW_TORN && row.cells == 40, "row 1, torn");
    row = rainbow_computer_row(&d, 2);
    expect(row.count == RAINBOW_DARK && row.cells == 0 && row.kind == 3, "row 2, dark");
    row = rainbow_computer_row(&d, LAST_ROW);
    expect(row.refusal == 0 && row.count == RAINBOW_DARK, "the last row");
    row = rainbow_computer_row(&d, LAST_ROW + 1);
    expect(row.refusal == 5 && row.count == 0 && row.cells == 0, "a row after the last");
    expect(rainbow_computer_text(&d, LAST_ROW + 1, text) == 0 && text[0] == 0, "the text of a row after the last");
    expect(rainbow_computer_write_port(&d, 0x04, 0x10).marks == 2, "the marks of a change to 132 columns");
    expect(rainbow_computer_row(&d, 1).cells == 66, "row 1 at 132 columns");
    expect(rainbow_computer_glyph(&d, 3) == d.glyphs + 48, "a glyph's bytes");
    d.picture[LAST_ROW * RAINBOW_RECORD_BYTES + RAINBOW_COUNT_AT] = 253; /* by hand */
    expect(rainbow_computer_row(&d, LAST_ROW).cells == 132, "133 cells or more");
    expect(rainbow_computer_text(&d, LAST_ROW, text) == 132, "the text of 133 cells or more");
    memcpy(d.screen + 0x150, "\xFF\x00\x42", 3);
    drawn = rainbow_computer_draw(&d);
    expect(drawn.wild && drawn.wild_row == 1 && rainbow_computer_row(&d, 2).start == 0x200, "a wild link in row 1");
}

static bool is(rainbow_explained why, uint8_t answer, uint16_t place, uint8_t kind, uint8_t tore)
{
    return why.refusal == 0 && why.answer == answer && why.place == place && why.kind == kind && why.tore == tore;
}

/* Eight cells in row 0; row 1, of kind 6, starts at 4094, goes on at 0 and leads to itself. */
static void cells(void)
{
    static rainbow_computer d, before;
    memset(d.screen, 'A', sizeof d.screen);
    memcpy(d.screen + 8, "\xFF\xFE\x0F", 3);
    d.attribute[9] = 6;
    rainbow_computer_power_up(&d);
    before = d;
    rainbow_explained why = rainbow_computer_explain(&d, 0, 7);
    expect(is(why, RAINBOW_WHY_CELL, 7, 3, 0) && !why.linked && why.link == 0, "a cell of row 0");
    why = rainbow_computer_explain(&d, 0, 79);
    expect(is(why, RAINBOW_WHY_FILL, 8, 0, 0) && !why.linked && why.link == 0, "fill in row 0");
    why = rainbow_computer_explain(&d, 1, 2);
    expect(is(why, RAINBOW_WHY_CELL, 0, 6, 0) && why.linked && why.link == 9, "a cell of row 1");
    why = rainbow_computer_explain(&d, LAST_ROW, 40);
    expect(is(why, RAINBOW_WHY_PAST, 0, 0, 0) && why.linked && why.link == 9, "past the last row");
    why = rainbow_computer_explain(&d, LAST_ROW + 1, 0);
    expect(why.refusal == 5 && why.answer == 0 && !why.linked, "a cell of a row after the last");
    expect(rainbow_computer_explain(&d, 0, RAINBOW_COLUMNS).refusal == 5, "a column after the last");
    expect(memcmp(&d, &before, ALL_FIELDS) == 0, "the memories, where cells are explained");
    rainbow_computer_store(&d, 0xEE008, 'A'); /* row 0 has no FF now */
    expect(is(rainbow_computer_explain(&d, 0, 79), RAINBOW_WHY_CELL, 79, 3, 0), "a cell of a torn row");
    why = rainbow_computer_explain(&d, LAST_ROW, 131);
    expect(is(why, RAINBOW_WHY_DARK, 0, 0, 0) && !why.linked && why.link == 0, "a dark row");
}

/* The line that stands at a place of the list. */
static bool shows(const rainbow_computer *d, size_t line, uint8_t row, uint8_t scan)
{
    return d->list[2 * line] == row && d->list[2 * line + 1] == scan;
}

/* Rows 3 to 5 scroll; a latch of 4 is loaded by code 05, one of 12 by code 07. */
static void lists(void)
{
    static rainbow_computer d, before;
    for (uint8_t row = 0; row < RAINBOW_ROWS; row++) {
        memcpy(d.screen + 8 * row, "\xFF\x00\x00", 3);
        d.screen[8 * row + 1] = (uint8_t)(8 * (row + 1));
        d.attribute[8 * row + 1] = row >= 2 && row < 5 ? 7 : 3; /* of the row pointed to */
    }
    rainbow_computer_power_up(&d);
    expect(rainbow_computer_list_lines(&d) == 0, "the list at rest");
    for (size_t line = 0; line < RAINBOW_LINES; line++)
        expect(shows(&d, line, (uint8_t)(line / 10), (uint8_t)(line % 10 + 1)), "a line at rest");
    rainbow_computer_write_port(&d, 0x0C, 0x05);
    expect(rainbow_computer_list_lines(&d) == 0, "the list with latch 4");
    expect(shows(&d, 29, 2, 10) && shows(&d, 30, 3, 5), "the top of the run with latch 4");
    expect(shows(&d, 49, 5, 4) && shows(&d, 50, 6, 1), "the bottom of the run with latch 4");
    expect(shows(&d, RAINBOW_LINES - 1, LAST_ROW, 10), "the last line with latch 4");
    for (size_t line = 0; line < RAINBOW_LINES; line++)
        expect(rainbow_computer_scan_line(&d, d.list[2 * line], d.list[2 * line + 1]) == 0, "a line of the list");
    rainbow_computer_write_port(&d, 0x0C, 0x07);
    before = d;
    expect(rainbow_computer_list_lines(&d) == 9, "the list with latch 12");
    expect(memcmp(&d, &before, ALL_FIELDS) == 0, "a refused list");
}

/* Viewer 3 asks after every store, viewer 7 once after both, and what is refused tells nobody anything. */
static void viewers(void)
{
    static rainbow_computer d, before;
    memcpy(d.screen, "A\xFF\x00\x01", 4);
    memcpy(d.screen + 0x100, "B\xFF\x00\x02", 4); /* row 2 and those after it are dark or torn */
    d.attribute[2] = 3;
    d.viewers.waiting[5] = 1u << 31;
    rainbow_computer_power_up(&d);
    for (size_t viewer = 0; viewer < RAINBOW_VIEWERS; viewer++) {
        expect(rainbow_computer_ask(&d, viewer).marks == ALL_ROWS, "the first ask");
        expect(rainbow_computer_ask(&d, viewer).marks == 0, "an ask after an ask");
    }
    rainbow_computer_store(&d, 0xEE000, 'C');
    expect(rainbow_computer_ask(&d, 3).marks == 1 && rainbow_computer_ask(&d, 3).marks == 0, "an ask of viewer 3");
    rainbow_computer_store(&d, 0xEE100, 'D');
    expect(rainbow_computer_ask(&d, 3).marks == 2, "a second ask of viewer 3");
    before = d;
    expect(rainbow_computer_store(&d, 0xF0000, 'E').refusal == 2, "a store that is refused");
    rainbow_asked told = rainbow_computer_ask(&d, RAINBOW_VIEWERS);
    expect(told.refusal == 10 && told.marks == 0, "viewer 8");
    expect(rainbow_computer_ask(&d, SIZE_MAX).refusal == 10, "the greatest viewer");
    expect(memcmp(&d, &before, ALL_FIELDS) == 0, "the viewers, where calls are refused");
    expect(rainbow_computer_ask(&d, 7).marks == 3, "an ask of viewer 7");
    rainbow_computer_write_port(&d, 0x04, 0x10);
    expect(rainbow_computer_ask(&d, 7).marks == ALL_ROWS && rainbow_computer_ask(&d, 3).marks == ALL_ROWS,
           "an ask after a change of columns");
    rainbow_computer_draw(&d);
    expect(rainbow_computer_ask(&d, 7).marks == ALL_ROWS, "an ask after a drawing");
}

/* Two rows, the second of which is torn: entries of the index, and a link that moves the second row. */
static void indexes(void)
{
    static rainbow_computer d;
    const size_t beside = RAINBOW_SCREEN_BYTES; /* the entry of the attribute byte beside a place */
    memcpy(d.screen, "AB\xFF\x00\x01", 5);
    d.attribute[3] = 3;
    rainbow_computer_power_up(&d);
    expect(d.index[0] == 0 && d.index[4] == 0 && d.index[5] == RAINBOW_NO_ROW, "the entries of row 0");
    expect(d.index[beside + 1] == 0 && d.index[beside + 2] == RAINBOW_NO_ROW && d.index[beside + 3] == 0 &&
               d.index[beside + 4] == RAINBOW_NO_ROW, "the entries beside row 0");
    expect(d.index[0x100] == 1 && d.index[0x150] == 1 && d.index[0x151] == RAINBOW_NO_ROW, "the entries of row 1");
    expect(d.index[beside + 0x14F] == 1 && d.index[beside + 0x150] == RAINBOW_NO_ROW, "the entries beside row 1");
    expect(rainbow_computer_store(&d, 0xEE004, 0x02).marks == 2, "a link that moves row 1");
    expect(d.index[0x100] == RAINBOW_NO_ROW && d.index[0x200] == 1 && d.index[4] == 0, "the index after the link");
    expect(rainbow_computer_store(&d, 0xEE100, 'C').marks == 0 && d.screen[0x100] == 'C', "a store that no row reads");
    rainbow_computer_write_port(&d, 0x04, 0x10);
    expect(d.index[0x284] == 1 && d.index[beside + 0x283] == 1 && d.index[0x285] == RAINBOW_NO_ROW,
           "the index at 132 columns");
    d.index[0x200] = RAINBOW_NO_ROW; /* by hand: the store goes by it */
    expect(rainbow_computer_store(&d, 0xEE200, 'D').marks == 0, "a store by an untrue index");
    rainbow_computer_draw(&d);
    expect(d.index[0x200] == 1 && d.picture[RAINBOW_RECORD_BYTES + RAINBOW_PAIRS_AT] == 'D', "both drawn afresh");
}

/* A Z80 that is held touches no memory. */
static void z80(void)
{
    static rainbow_computer d, before;
    rainbow_computer_power_up(&d);
    d.private_memory[0x7FF] = 0x11;
    d.shared[0x800] = 0x22;
    before = d;
    for (uint16_t address = 0x7FF; address <= 0x800; address++) {
        rainbow_byte_read read = rainbow_computer_read_z80(&d, address);
        expect(read.refusal == 7 && read.byte == 0, "a read of a Z80 that is held");
        expect(rainbow_computer_store_z80(&d, address, 0x5A) == 7, "a store of a Z80 that is held");
    }
    expect(memcmp(&d, &before, ALL_FIELDS) == 0, "the memories of a Z80 that is held");
    rainbow_computer_write_port(&d, 0x0A, 0x83);
    expect(rainbow_computer_read_z80(&d, 0x7FF).byte == 0x11 && rainbow_computer_read_z80(&d, 0x800).byte == 0x22,
           "a read of a Z80 that runs");
    expect(rainbow_computer_store_z80(&d, 0x7FF, 0x5A) == 0 && d.private_memory[0x7FF] == 0x5A,
           "a store of a Z80 that runs, at 07FF");
    expect(rainbow_computer_store_z80(&d, 0x800, 0x5B) == 0 && d.shared[0x800] == 0x5B,
           "a store of a Z80 that runs, at 0800");
    rainbow_computer_write_port(&d, 0x0A, 0x82);
    expect(rainbow_computer_store_z80(&d, 0x7FF, 0) == 7 && d.private_memory[0x7FF] == 0x5A, "a Z80 held again");
}

static void ticks(rainbow_computer *d, int many)
{
    for (; many > 0; many--)
        rainbow_computer_watchdog_tick(d);
}

/* An 8088 that is in reset touches no memory and writes to no port. All else goes on. */
static void watchdog(void)
{
    static rainbow_computer d, before;
    rainbow_computer_power_up(&d);
    ticks(&d, 1000);
    expect(!d.machine.reset && d.machine.count == 0, "a watchdog that is disabled");
    rainbow_computer_write_port(&d, 0x0A, 0x83);
    rainbow_computer_write_port(&d, 0x0C, 0x08);
    ticks(&d, 100);
    rainbow_computer_write_port(&d, 0x0C, 0x09);
    ticks(&d, 127);
    expect(!d.machine.reset && rainbow_computer_store(&d, 0xEE000, 'A').refusal == 0, "127 ticks after code 09");
    ticks(&d, 1);
    expect(d.machine.reset && d.machine.count == 0 && d.machine.watchdog, "128 ticks after code 09");
    before = d;
    rainbow_byte_read read = rainbow_computer_read(&d, 0xEE000);
    expect(read.refusal == 8 && read.byte == 0 && rainbow_computer_read(&d, 0x10000).refusal == 8, "a read in reset");
    rainbow_stored stored = rainbow_computer_store(&d, 0xEE000, 'B');
    expect(stored.refusal == 8 && stored.marks == 0, "a store in reset");
    read = rainbow_computer_read_shadow(&d, 256);
    expect(read.refusal == 8 && read.byte == 0, "a read of the shadow in reset");
    expect(rainbow_computer_write_shadow(&d, 5, 5) == 8, "a write of the shadow in reset");
    stored = rainbow_computer_write_port(&d, 0x04, 0x10);
    expect(stored.refusal == 8 && stored.marks == 0, "132 columns in reset");
    expect(rainbow_computer_write_port(&d, 0x0C, 0x09).refusal == 8, "code 09 in reset");
    expect(rainbow_computer_write_port(&d, 0x05, 0x00).refusal == 8, "a port that is none, in reset");
    expect(memcmp(&d, &before, ALL_FIELDS) == 0, "the memories, the picture or the machine in reset");
    expect(rainbow_computer_store_z80(&d, 0x800, 0x5A) == 0 && rainbow_computer_read_z80(&d, 0x800).byte == 0x5A,
           "the Z80 while the 8088 is in reset");
    expect(rainbow_computer_draw(&d).refusal == 0 && rainbow_computer_scan_line(&d, 0, 1) == 0, "drawings in reset");
    rainbow_computer_tick(&d);
    expect(d.machine.interrupt && d.machine.count == 0, "a vertical tick in reset");
    ticks(&d, 127);
    expect(d.machine.reset && d.machine.count == 127, "127 ticks of reset");
    ticks(&d, 1);
    expect(!d.machine.reset && d.machine.count == 0 && d.machine.watchdog, "128 ticks of reset");
    expect(rainbow_computer_read(&d, 0xEE000).byte == 'A' && rainbow_computer_read(&d, 0x00800).byte == 0x5A,
           "reads after reset");
    ticks(&d, 127);
    expect(!d.machine.reset && rainbow_computer_write_port(&d, 0x10C, 0x08).refusal == 0, "127 ticks after reset");
    expect(!d.machine.watchdog && d.machine.count == 0, "the watchdog is disabled");
}

int main(void)
{
    fill();
    rainbow_computer_power_up(&c);
    twin = c;
    for (int calls = 0; calls < CALLS; calls++) {
        one_call();
        if (calls % 100 == 0)
            compare();
    }
    expect(z80_ran > 1000 && z80_held > 1000, "the Z80 was seldom held, or seldom not");
    expect(ran_8088 > 1000 && reset_8088 > 1000, "the 8088 was seldom in reset, or seldom not");
    expect(listed > 1000 && not_listed > 1000, "a whole screen was seldom listed, or seldom not");
    expect(explained > 1000 && refused > 1000, "a cell was seldom explained, or seldom not");
    expect(asked > 1000 && unmarked > 1000, "a viewer was seldom told of rows, or seldom of none");
    expect(no_viewer > 1000, "a viewer was seldom refused");
    expect(by_index > 1000 && unread > 1000, "the index seldom named a row, or seldom none");
    rows();
    cells();
    lists();
    viewers();
    indexes();
    z80();
    watchdog();
    for (int refusal = 0; refusal <= RAINBOW_REFUSED_VIEWER + 1; refusal++)
        printf("%d: %s\n", refusal, rainbow_refusal_text((uint8_t)refusal));
    return 0;
}
