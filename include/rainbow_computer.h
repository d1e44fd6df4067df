/* A whole Rainbow in one struct: all memories, the picture, the index, the viewers and the machine, and the calls of
 * rainbow.h on it.
 *
 * Nothing here is proved. Each function hands the struct's own buffers, with their lengths, to a proved call, so
 * that no two can be swapped and none can have a wrong length. The picture and the index of first readers are kept as
 * long as memories and machine change by these functions alone: a write to a port that changes the column setting makes
 * both afresh by itself. After a change of c.screen, c.attribute, c.index or c.machine by hand, call
 * rainbow_computer_draw. Each store goes by the index, so that one into a byte which no row reads costs little. Each
 * store and each drawing serves the eight viewers: rainbow_computer_ask tells one which records to take over.
 *
 *     static rainbow_computer c;
 *     rainbow_computer_power_up(&c);
 *     rainbow_computer_write_port(&c, 0x0A, 0x02);
 *     rainbow_computer_store(&c, 0xEE000, 'H');
 */
#ifndef RAINBOW_COMPUTER_H
#define RAINBOW_COMPUTER_H

#include "rainbow.h"

#include <string.h>

typedef struct rainbow_computer {
    uint8_t shared[RAINBOW_SHARED_BYTES];
    uint8_t private_memory[RAINBOW_PRIVATE_BYTES]; /* the Z80's own */
    uint8_t screen[RAINBOW_SCREEN_BYTES];
    uint8_t attribute[RAINBOW_ATTRIBUTE_BYTES];
    uint8_t glyphs[RAINBOW_GLYPH_BYTES];
    uint8_t nvm[RAINBOW_NVM_BYTES];
    uint8_t shadow[RAINBOW_SHADOW_BYTES];
    uint8_t picture[RAINBOW_PICTURE_BYTES];
    uint8_t line[RAINBOW_LINE_BYTES];   /* the scan line drawn last */
    uint8_t list[RAINBOW_LIST_BYTES];   /* the lines of the whole screen, listed last */
    uint8_t index[RAINBOW_INDEX_BYTES]; /* the first row that reads each place of screen, then of attribute memory */
    rainbow_viewers viewers;            /* the marks that wait for each viewer */
    rainbow_machine machine;
} rainbow_computer;

RAINBOW_SIZE(rainbow_computer, 96988);

/* What a record of the picture says of its row. */
typedef struct rainbow_row {
    uint8_t refusal;
    uint8_t kind;   /* 0 to 7 */
    uint8_t count;  /* cells before FF, or RAINBOW_TORN, or RAINBOW_DARK */
    uint8_t cells;  /* cells that the row has: its capacity if it is torn, none if it is dark; 132 at the most */
    uint16_t start; /* its place in screen memory */
} rainbow_row;

RAINBOW_SIZE(rainbow_row, 6);

/* The pairs of a record, and the bytes of a row's text with the 0 after it, at the most. */
#define RAINBOW_PAIRS 132
#define RAINBOW_TEXT_BYTES 133

/* What a number of refusal says. */
static inline const char *rainbow_refusal_text(uint8_t refusal)
{
    switch (refusal) {
    case RAINBOW_ACCEPTED: return "accepted";
    case RAINBOW_REFUSED_LENGTH: return "a lent buffer's length differs from the list";
    case RAINBOW_REFUSED_ADDRESS: return "the 8088's address lies in none of its three ranges";
    case RAINBOW_REFUSED_PORT: return "the port is none of 04, 0A, 0C, 10C";
    case RAINBOW_REFUSED_CODE: return "the code is not in that port's list";
    case RAINBOW_REFUSED_PLACE:
        return "a row over 24, a column over 131, a scan outside 1 to 10, a shadow place over 255";
    case RAINBOW_REFUSED_EDGES: return "bits 6 and 7 of port 0A both rise in one write";
    case RAINBOW_REFUSED_Z80_HELD: return "the Z80 is held";
    case RAINBOW_REFUSED_IN_RESET: return "the 8088 is in reset";
    case RAINBOW_REFUSED_LATCH: return "a whole screen is asked for with the scroll latch over 9";
    case RAINBOW_REFUSED_VIEWER: return "a viewer over 7";
    default: return "no number of refusal";
    }
}

/* Draws the picture and works the index out, both afresh, and all rows wait for all viewers. The answer has how many
 * bytes were read, and the first row whose link is wild. */
static inline rainbow_drawn rainbow_computer_draw(rainbow_computer *c)
{
    rainbow_drawn_for_viewers served =
        rainbow_draw_for_viewers(c->machine, c->viewers, c->screen, sizeof c->screen, c->attribute, sizeof c->attribute,
                                 c->picture, sizeof c->picture);
    rainbow_index_readers(c->machine, c->screen, sizeof c->screen, c->attribute, sizeof c->attribute, c->index,
                          sizeof c->index);
    c->viewers = served.viewers;
    return served.drawn;
}

/* The machine as at power-up, the viewers as at their start, and picture and index of the memories as they are: no
 * memory changes. The answer is that of rainbow_computer_draw. */
static inline rainbow_drawn rainbow_computer_power_up(rainbow_computer *c)
{
    c->machine = rainbow_power_up();
    c->viewers = rainbow_start_viewers();
    return rainbow_computer_draw(c);
}

/* The 8088 reads. Refused: 8, 2. */
static inline rainbow_byte_read rainbow_computer_read(const rainbow_computer *c, uint32_t address)
{
    return rainbow_read_8088(c->machine, c->shared, sizeof c->shared, c->screen, sizeof c->screen, c->attribute,
                             sizeof c->attribute, address);
}

/* The 8088 stores, picture and index are mended from the row that the index names for the byte, and the marks wait for
 * each viewer. Refused: 8, 2. */
static inline rainbow_stored rainbow_computer_store(rainbow_computer *c, uint32_t address, uint8_t byte)
{
    rainbow_stored_for_viewers served =
        rainbow_store_with_index_for_viewers(c->machine, c->viewers, c->shared, sizeof c->shared, c->screen,
                                             sizeof c->screen, c->attribute, sizeof c->attribute, c->picture,
                                             sizeof c->picture, c->index, sizeof c->index, address, byte);
    c->viewers = served.viewers;
    return served.stored;
}

/* Viewer 0 to 7 asks: it is handed the marks of the rows that were marked since it last asked; a drawing marks all rows
 * for all viewers. No other viewer's marks change. Refused: 10. */
static inline rainbow_asked rainbow_computer_ask(rainbow_computer *c, size_t viewer)
{
    rainbow_asked asked = rainbow_ask(c->viewers, viewer);
    c->viewers = asked.viewers;
    return asked;
}

/* The Z80 reads. Refused: 7. */
static inline rainbow_byte_read rainbow_computer_read_z80(const rainbow_computer *c, uint16_t address)
{
    return rainbow_read_z80(c->machine, c->private_memory, sizeof c->private_memory, c->shared, sizeof c->shared,
                            address);
}

/* The Z80 stores. The answer is the refusal: 7. */
static inline uint8_t rainbow_computer_store_z80(rainbow_computer *c, uint16_t address, uint8_t byte)
{
    return rainbow_store_z80(c->machine, c->private_memory, sizeof c->private_memory, c->shared, sizeof c->shared,
                             address, byte);
}

/* The shadow by place. Refused: 8, 5. */
static inline rainbow_byte_read rainbow_computer_read_shadow(const rainbow_computer *c, size_t place)
{
    return rainbow_read_shadow(c->machine, c->shadow, sizeof c->shadow, place);
}

/* The answer is the refusal: 8, 5. */
static inline uint8_t rainbow_computer_write_shadow(rainbow_computer *c, size_t place, uint8_t value)
{
    return rainbow_write_shadow(c->machine, c->shadow, sizeof c->shadow, place, value);
}

/* Writes a code to a port. If the column setting changes, picture and index are made afresh, so that all rows wait for
 * all viewers; bit r of the marks is set exactly when record r changed. Refused: 8, 3, 4, 6. */
static inline rainbow_stored rainbow_computer_write_port(rainbow_computer *c, uint16_t port, uint8_t code)
{
    uint8_t before[RAINBOW_PICTURE_BYTES];
    size_t columns = rainbow_columns(c->machine), row;
    rainbow_written written =
        rainbow_write_port(c->machine, c->shadow, sizeof c->shadow, c->nvm, sizeof c->nvm, port, code);
    rainbow_stored stored = {written.refusal, 0};
    c->machine = written.machine;
    if (rainbow_columns(c->machine) == columns)
        return stored;
    memcpy(before, c->picture, sizeof before);
    rainbow_computer_draw(c);
    for (row = 0; row < RAINBOW_ROWS; row++) {
        size_t at = row * RAINBOW_RECORD_BYTES;
        if (memcmp(before + at, c->picture + at, RAINBOW_RECORD_BYTES) != 0)
            stored.marks |= (uint32_t)1 << row;
    }
    return stored;
}

/* A vertical tick. */
static inline void rainbow_computer_tick(rainbow_computer *c)
{
    c->machine = rainbow_vertical_tick(c->machine);
}

/* A tick of the watchdog's clock. */
static inline void rainbow_computer_watchdog_tick(rainbow_computer *c)
{
    c->machine = rainbow_watchdog_tick(c->machine);
}

/* Draws a scan of a row into c->line, whose first rainbow_dots_of_line(c->machine) bytes are the dots. The answer is
 * the refusal: 5. */
static inline uint8_t rainbow_computer_scan_line(rainbow_computer *c, size_t row, size_t scan)
{
    return rainbow_scan_line(c->machine, c->picture, sizeof c->picture, c->glyphs, sizeof c->glyphs, row, scan, c->line,
                             sizeof c->line);
}

/* Lists the RAINBOW_LINES lines of the whole screen in c->list, row then scan for each from the top. The answer is the
 * refusal: 9. */
static inline uint8_t rainbow_computer_list_lines(rainbow_computer *c)
{
    return rainbow_list_lines(c->machine, c->picture, sizeof c->picture, c->list, sizeof c->list);
}

/* Says why a row, 0 to 24, shows what it shows in a column, 0 to 131, by the memories as they are. Refused: 5. */
static inline rainbow_explained rainbow_computer_explain(const rainbow_computer *c, size_t row, size_t column)
{
    return rainbow_explain(c->machine, c->screen, sizeof c->screen, c->attribute, sizeof c->attribute, row, column);
}

/* The sixteen scan bytes of a code, in c->glyphs. */
static inline uint8_t *rainbow_computer_glyph(rainbow_computer *c, uint8_t code)
{
    return c->glyphs + rainbow_glyph_part(c->glyphs, sizeof c->glyphs, code).at;
}

/* What the picture says of a row. Refused: 5, with all other numbers 0. */
static inline rainbow_row rainbow_computer_row(const rainbow_computer *c, size_t row)
{
    rainbow_row said = {RAINBOW_REFUSED_PLACE, 0, 0, 0, 0};
    const uint8_t *record;
    size_t capacity = rainbow_columns(c->machine);
    if (row >= RAINBOW_ROWS)
        return said;
    record = c->picture + row * RAINBOW_RECORD_BYTES;
    said.refusal = RAINBOW_ACCEPTED;
    said.start = (uint16_t)(record[0] << 8 | record[1]);
    said.kind = record[RAINBOW_KIND_AT];
    said.count = record[RAINBOW_COUNT_AT];
    said.cells = said.count;
    if (said.count == RAINBOW_TORN)
        said.cells = (uint8_t)((said.kind & 3) == 3 ? capacity : capacity / 2);
    if (said.count == RAINBOW_DARK)
        said.cells = 0;
    if (said.cells > RAINBOW_PAIRS) /* no drawing made this record */
        said.cells = RAINBOW_PAIRS;
    return said;
}

/* A row's cells as text, with a 0 after it: a point stands for what is no printable ASCII. The answer is how many
 * cells there are, 0 for a row over 24. `text` has RAINBOW_TEXT_BYTES bytes. */
static inline size_t rainbow_computer_text(const rainbow_computer *c, size_t row, char *text)
{
    size_t cells = rainbow_computer_row(c, row).cells, cell;
    for (cell = 0; cell < cells; cell++) {
        uint8_t character = c->picture[row * RAINBOW_RECORD_BYTES + RAINBOW_PAIRS_AT + 2 * cell];
        text[cell] = character >= 0x20 && character < 0x7F ? (char)character : '.';
    }
    text[cells] = 0;
    return cells;
}

#endif
