/* Lays two rows of text on the Rainbow's screen, draws them, changes a letter, prints a scan of the dots, says why
 * cells show what they show, stores by an index, serves two viewers, scrolls the rows below smoothly, leaves rubbish in
 * a link, lets the Z80 run, and leaves the watchdog alone until it resets the 8088. */
#include "rainbow.h"
#include <stdio.h>

static uint8_t shared[RAINBOW_SHARED_BYTES], screen[RAINBOW_SCREEN_BYTES], attribute[RAINBOW_ATTRIBUTE_BYTES];
static uint8_t nvm[RAINBOW_NVM_BYTES], shadow[RAINBOW_SHADOW_BYTES], glyphs[RAINBOW_GLYPH_BYTES];
static uint8_t picture[RAINBOW_PICTURE_BYTES], line[RAINBOW_LINE_BYTES], private_memory[RAINBOW_PRIVATE_BYTES];
static uint8_t list[RAINBOW_LIST_BYTES], readers[RAINBOW_INDEX_BYTES];

static uint8_t store_byte(rainbow_machine machine, uint32_t address, uint8_t byte)
{
    return rainbow_store_8088(machine, shared, sizeof shared, screen, sizeof screen, attribute, sizeof attribute,
                              address, byte);
}

/* The 8088's store at a place of the screen memory, and beside it in the attribute memory. */
static void store(rainbow_machine machine, uint32_t place, uint8_t byte, uint8_t beside)
{
    store_byte(machine, 0xEE000 + place, byte);
    store_byte(machine, 0xEF000 + place, beside);
}

/* A row of plain cells, FF, and the link to the next row, which is of kind 3: normal. */
static void lay(rainbow_machine machine, uint32_t place, const char *text, uint32_t next)
{
    for (; *text != 0; text++)
        store(machine, place++, (uint8_t)*text, 0x0E);
    store(machine, place, 0xFF, 0x0E);
    store(machine, place + 1, (uint8_t)(next & 0xFF), 3);
    store(machine, place + 2, (uint8_t)(next >> 8), 0x0E);
}

static rainbow_drawn draw(rainbow_machine machine)
{
    return rainbow_draw(machine, screen, sizeof screen, attribute, sizeof attribute, picture, sizeof picture);
}

static void print_drawn(rainbow_drawn drawn)
{
    printf("%d bytes read, ", drawn.reads);
    if (drawn.wild)
        printf("the link of row %d is wild\n", drawn.wild_row);
    else
        puts("no link is wild");
}

/* The Z80 stores in shared memory, where the 8088 reads. */
static void print_z80(rainbow_machine machine)
{
    uint8_t refusal =
        rainbow_store_z80(machine, private_memory, sizeof private_memory, shared, sizeof shared, 0x0800, 0x5A);
    rainbow_byte_read read = rainbow_read_8088(machine, shared, sizeof shared, screen, sizeof screen, attribute,
                                               sizeof attribute, 0x00800);
    printf("the Z80 %s, refusal %d, the 8088 reads %02X\n", rainbow_z80_runs(machine) ? "runs" : "is held", refusal,
           read.byte);
}

/* A herd book that hangs: the vertical interrupt is acknowledged once, by code 09, and never again. */
static void print_watchdog(rainbow_machine machine)
{
    machine = rainbow_write_port(machine, shadow, sizeof shadow, nvm, sizeof nvm, 0x0C, 0x09).machine;
    for (int tick = 1; tick <= 256; tick++) {
        bool before = machine.reset;
        machine = rainbow_watchdog_tick(machine);
        if (machine.reset != before)
            printf("tick %d: reset %s, a store of the 8088 has refusal %d\n", tick, before ? "ends" : "begins",
                   store_byte(machine, 0x00800, 0x5B));
    }
}

static void print_row(size_t row)
{
    const uint8_t *record = picture + row * RAINBOW_RECORD_BYTES;
    int start = record[0] << 8 | record[1], count = record[RAINBOW_COUNT_AT];
    printf("row %d starts at %04X, has %d cells: |", (int)row, (unsigned)start, count);
    for (int cell = 0; cell < count && count < RAINBOW_DARK; cell++)
        putchar(record[RAINBOW_PAIRS_AT + 2 * cell]);
    puts("|");
}

/* Where a cell comes from: the place that holds it, and the link that led to its row. */
static void print_why(rainbow_machine machine, size_t row, size_t column)
{
    rainbow_explained why =
        rainbow_explain(machine, screen, sizeof screen, attribute, sizeof attribute, row, column);
    printf("row %d, column %d: ", (int)row, (int)column);
    switch (why.answer) {
    case RAINBOW_WHY_CELL: printf("a cell, held at %04X, of kind %d", why.place, why.kind); break;
    case RAINBOW_WHY_FILL: printf("filled, since FF stands at %04X", why.place); break;
    case RAINBOW_WHY_PAST: printf("past the row's capacity"); break;
    case RAINBOW_WHY_DARK: printf("dark, since row %d is torn", why.tore); break;
    default: printf("refusal %d", why.refusal);
    }
    if (why.linked)
        printf(", by the link at %04X", why.link);
    putchar('\n');
}

/* What the index says of a byte of the screen memory. */
static void print_reader(uint32_t place)
{
    if (readers[place] == RAINBOW_NO_ROW)
        printf("no row reads %04X\n", (unsigned)place);
    else
        printf("row %d is the first that reads %04X\n", readers[place], (unsigned)place);
}

/* A store of a byte that no row reads leaves the picture; a store of a link moves rows, and with them the index. */
static void print_index(rainbow_machine machine)
{
    static const struct {
        uint32_t place;
        uint8_t byte;
    } stores[] = {{0x300, '*'}, {0x202, 0x03}, {0x202, 0x02}};
    rainbow_index_readers(machine, screen, sizeof screen, attribute, sizeof attribute, readers, sizeof readers);
    print_reader(0x10C);
    for (size_t store = 0; store < sizeof stores / sizeof stores[0]; store++) {
        print_reader(0x300);
        uint32_t marks = rainbow_store_with_index(machine, shared, sizeof shared, screen, sizeof screen, attribute,
                                                  sizeof attribute, picture, sizeof picture, readers, sizeof readers,
                                                  0xEE000 + stores[store].place, stores[store].byte).marks;
        printf("%02X at %04X: marks %08X\n", stores[store].byte, (unsigned)stores[store].place, (unsigned)marks);
    }
    print_reader(0x300);
}

/* What a viewer is handed. The viewers that come back are kept. */
static void print_asked(rainbow_viewers *viewers, size_t viewer)
{
    rainbow_asked asked = rainbow_ask(*viewers, viewer);
    *viewers = asked.viewers;
    printf("viewer %d: refusal %d, marks %08X\n", (int)viewer, asked.refusal, (unsigned)asked.marks);
}

/* The parlour asks after every store, the office now and then. */
static void print_viewers(rainbow_machine machine)
{
    enum { PARLOUR = 0, OFFICE = 1 };
    rainbow_viewers viewers = rainbow_start_viewers();
    print_asked(&viewers, PARLOUR);
    print_asked(&viewers, OFFICE);
    for (uint32_t place = 0; place <= 0x100; place += 0x100) { /* the first cell of row 0, then that of row 1 */
        viewers = rainbow_store_for_viewers(machine, viewers, shared, sizeof shared, screen, sizeof screen, attribute,
                                            sizeof attribute, picture, sizeof picture, 0xEE000 + place, '*').viewers;
        print_asked(&viewers, PARLOUR);
    }
    print_asked(&viewers, OFFICE);
    viewers = rainbow_draw_for_viewers(machine, viewers, screen, sizeof screen, attribute, sizeof attribute, picture,
                                       sizeof picture).viewers;
    print_asked(&viewers, OFFICE);
    print_asked(&viewers, RAINBOW_VIEWERS);
}

static void print_line(size_t number)
{
    printf("line %d is scan %d of row %d\n", (int)number, list[2 * number + 1], list[2 * number]);
}

/* Rows 2 to 24 scroll: they move up by as many scans as the latch says, here by four. Code 05 to port 0C makes the
 * latch's high two bits 1. */
static void print_scrolled(rainbow_machine machine)
{
    store(machine, 0x10C, 0x00, 7); /* the low byte of the link of row 1, and the kind of row 2 */
    store(machine, 0x201, 0x00, 7); /* the same of row 2, which leads to itself */
    draw(machine);
    machine = rainbow_write_port(machine, shadow, sizeof shadow, nvm, sizeof nvm, 0x0C, 0x05).machine;
    printf("latch %d, refusal %d\n", rainbow_scroll_latch(machine),
           rainbow_list_lines(machine, picture, sizeof picture, list, sizeof list));
    print_line(19);
    print_line(20);
    print_line(RAINBOW_LINES - 1);
    machine = rainbow_write_port(machine, shadow, sizeof shadow, nvm, sizeof nvm, 0x0C, 0x07).machine;
    printf("latch %d, refusal %d\n", rainbow_scroll_latch(machine),
           rainbow_list_lines(machine, picture, sizeof picture, list, sizeof list));
}

int main(void)
{
    rainbow_machine machine = rainbow_power_up();
    machine = rainbow_write_port(machine, shadow, sizeof shadow, nvm, sizeof nvm, 0x0A, 0x02).machine;
    printf("version %u, %d columns, %s\n", (unsigned)rainbow_version(), (int)rainbow_columns(machine),
           rainbow_blanked(machine) ? "blanked" : "shown");

    lay(machine, 0x000, "HERD BOOK", 0x100);
    lay(machine, 0x100, "BERTA   9.6", 0x200);
    lay(machine, 0x200, "", 0x200); /* the other rows are this one again and again */
    print_drawn(draw(machine));
    for (size_t row = 0; row < 3; row++)
        print_row(row);

    uint32_t marks = rainbow_store_with_picture(machine, shared, sizeof shared, screen, sizeof screen, attribute,
                                                sizeof attribute, picture, sizeof picture, 0xEE104, 'H').marks;
    puts("marked:");
    for (size_t row = 0; row < RAINBOW_ROWS; row++)
        if (rainbow_is_marked(marks, row))
            print_row(row);

    size_t h = rainbow_glyph_part(glyphs, sizeof glyphs, 'H').at;
    glyphs[h + 3] = 0x7C; /* the bar of the H, at scan 5 */
    rainbow_scan_line(machine, picture, sizeof picture, glyphs, sizeof glyphs, 1, 5, line, sizeof line);
    for (size_t dot = 0; dot < 60; dot++)
        putchar(line[dot] != 0 ? '#' : '.');
    putchar('\n');

    print_why(machine, 0, 3);
    print_why(machine, 1, 4);
    print_why(machine, 1, 11);
    print_why(machine, 24, 80);
    print_why(machine, 1, RAINBOW_COLUMNS);

    print_index(machine);
    print_viewers(machine);
    print_scrolled(machine);

    store(machine, 0x10D, 0x92, 0x0E); /* the high byte of the link of row 1, which still leads to 0200 */
    print_drawn(draw(machine));
    print_row(2);

    print_z80(machine);
    machine = rainbow_write_port(machine, shadow, sizeof shadow, nvm, sizeof nvm, 0x0A, 0x83).machine;
    print_z80(machine);
    print_watchdog(machine);
    return 0;
}
