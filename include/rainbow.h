/* The DEC Rainbow 100's screen, memories and ports: the calls of librainbow, for C11 and C++17 on 64-bit Linux.
 * rainbow_computer.h has the same calls on one struct that holds all buffers.
 *
 * Every function here is proved to meet the definition that docs/CALLS.md names, for every number and every byte
 * that it is given. What no proof covers is this file, the compiler behind the proof, and the caller, who must see
 * to this:
 *   - a pointer and the length after it are those of one buffer. A length that is not the one listed below is
 *     refused by 1, and then the pointer is not used: NULL with length 0 is such a length. (The library that
 *     `make library` makes refuses NULL by 1 whatever its length is.)
 *   - no buffer that a call may change overlaps another buffer of the same call;
 *   - a bool is true or false, as C makes it.
 *
 * The caller keeps the buffers and lends them for the length of a call; the library keeps nothing, and calls on
 * different buffers may be made from different threads. The machine and the viewers go in by value and come back.
 *
 * A refused call says why by its number. If more than one applies, 1 comes first, then 7 or 8, then the lowest of 2
 * to 6, then 9, then 10; the numbers of each call are listed in that order. Every other number of its answer is 0, no
 * row is named, no byte lent to it and no field of the machine changes, and the viewers come back as they were.
 */
#ifndef RAINBOW_H
#define RAINBOW_H

#include <stdbool.h>
#include <stddef.h>
#include <stdint.h>

#ifdef __cplusplus
extern "C" {
#endif

/* Raised by every new call and every change of a number, a struct or a rule of this file. rainbow_version() is the
 * library's own. */
#define RAINBOW_VERSION 9

/* The length of each buffer, in bytes. */
#define RAINBOW_SHARED_BYTES 65536
#define RAINBOW_PRIVATE_BYTES 2048
#define RAINBOW_SCREEN_BYTES 4096
#define RAINBOW_ATTRIBUTE_BYTES 4096
#define RAINBOW_GLYPH_BYTES 4096
#define RAINBOW_NVM_BYTES 256
#define RAINBOW_SHADOW_BYTES 256
#define RAINBOW_PICTURE_BYTES 6700
#define RAINBOW_LINE_BYTES 1188
#define RAINBOW_LIST_BYTES 480
#define RAINBOW_INDEX_BYTES 8192

/* The numbers of refusal. */
#define RAINBOW_ACCEPTED 0
#define RAINBOW_REFUSED_LENGTH 1   /* a lent buffer's length differs from the list */
#define RAINBOW_REFUSED_ADDRESS 2  /* the 8088's address lies in none of its three ranges */
#define RAINBOW_REFUSED_PORT 3     /* the port is none of 04, 0A, 0C, 10C */
#define RAINBOW_REFUSED_CODE 4     /* the code is not in that port's list */
#define RAINBOW_REFUSED_PLACE 5    /* a row over 24, a column over 131, a scan outside 1 to 10, a shadow place over
                                    * 255 */
#define RAINBOW_REFUSED_EDGES 6    /* bits 6 and 7 of port 0A both rise in one write */
#define RAINBOW_REFUSED_Z80_HELD 7 /* the Z80 is held: bit 0 of port 0A is 0 */
#define RAINBOW_REFUSED_IN_RESET 8 /* the 8088 is in reset, by the watchdog */
#define RAINBOW_REFUSED_LATCH 9    /* a whole screen is asked for with the scroll latch over 9 */
#define RAINBOW_REFUSED_VIEWER 10  /* a viewer over 7 */

/* The picture: a record for each row. A record is the row's start (two bytes, high byte first), its kind, its
 * count, then 132 pairs of character and attribute. The count is the cells before FF, or one of the two below. */
#define RAINBOW_ROWS 25
#define RAINBOW_RECORD_BYTES 268
#define RAINBOW_KIND_AT 2
#define RAINBOW_COUNT_AT 3
#define RAINBOW_PAIRS_AT 4
#define RAINBOW_TORN 255
#define RAINBOW_DARK 254

/* The entry of the index for a place that no row reads. */
#define RAINBOW_NO_ROW 255

/* The columns that may be asked of a row, 0 to 131, whatever the column setting is. */
#define RAINBOW_COLUMNS 132

/* Why a cell shows what it shows: the answers of rainbow_explain. */
#define RAINBOW_WHY_CELL 1 /* a cell of its row stands there */
#define RAINBOW_WHY_FILL 2 /* the row's FF comes before it, or stands there: it is filled with 20, 0E */
#define RAINBOW_WHY_PAST 3 /* the row's capacity ends before it */
#define RAINBOW_WHY_DARK 4 /* an earlier row is torn */

/* The scans of a row. */
#define RAINBOW_FIRST_SCAN 1
#define RAINBOW_LAST_SCAN 10

/* The lines of the whole screen, and the rows that show, each in full, where nothing scrolls: rows 0 to 23. */
#define RAINBOW_LINES 240
#define RAINBOW_ROWS_AT_REST 24

/* The viewers of one screen, 0 to 7. */
#define RAINBOW_VIEWERS 8

/* The machine's own state. */
typedef struct rainbow_machine {
    bool columns132; /* 132 columns, else 80 */
    bool hertz50;    /* 50 Hz, else 60 */
    bool interlace;
    uint8_t latch;   /* the scroll latch, read modulo 16 */
    bool blink;      /* the blink flip-flop */
    bool interrupt;  /* the vertical interrupt */
    bool reverse;    /* reverse field */
    bool watchdog;   /* the watchdog is enabled */
    uint8_t count;   /* the watchdog's count of ticks, 0 to 127; a larger one is as 127 */
    bool reset;      /* the 8088 is in reset */
    uint8_t held;    /* the byte that port 0A holds */
} rainbow_machine;

/* The answer of a read. */
typedef struct rainbow_byte_read {
    uint8_t refusal;
    uint8_t byte;
} rainbow_byte_read;

/* The answer of a write to a port: the machine afterwards, which is the one before if the write is refused. */
typedef struct rainbow_written {
    uint8_t refusal;
    rainbow_machine machine;
} rainbow_written;

/* The answer of a drawing: how many bytes of screen memory the walk read, and the first row whose link is wild. */
typedef struct rainbow_drawn {
    uint8_t refusal;
    uint16_t reads;
    bool wild;        /* some row's link is wild */
    uint8_t wild_row; /* the first such row, 0 if there is none */
} rainbow_drawn;

/* The answer of a store with a picture lent: bit r of marks is set exactly when record r changed. */
typedef struct rainbow_stored {
    uint8_t refusal;
    uint32_t marks;
} rainbow_stored;

/* The marks that wait for each viewer: bit r of waiting[v] is set if row r was marked since viewer v last asked. */
typedef struct rainbow_viewers {
    uint32_t waiting[RAINBOW_VIEWERS];
} rainbow_viewers;

/* The answer of an ask: the marks that waited for the viewer, and the viewers afterwards, which are those before if the
 * ask is refused. */
typedef struct rainbow_asked {
    uint8_t refusal;
    uint32_t marks;
    rainbow_viewers viewers;
} rainbow_asked;

/* The answer of a drawing that serves viewers: that of rainbow_draw, and the viewers afterwards. */
typedef struct rainbow_drawn_for_viewers {
    rainbow_drawn drawn;
    rainbow_viewers viewers;
} rainbow_drawn_for_viewers;

/* The answer of a store that serves viewers: that of the store for one screen alone, and the viewers afterwards. */
typedef struct rainbow_stored_for_viewers {
    rainbow_stored stored;
    rainbow_viewers viewers;
} rainbow_stored_for_viewers;

/* The answer of rainbow_explain. What the answer does not have is 0. */
typedef struct rainbow_explained {
    uint8_t refusal;
    uint8_t answer; /* RAINBOW_WHY_CELL, _FILL, _PAST or _DARK; 0 if refused */
    uint16_t place; /* a cell: the place that holds it; fill: the place of the FF that ended the row */
    uint8_t kind;   /* a cell: the kind of its row, 0 to 7 */
    uint8_t tore;   /* dark: the row that tore */
    bool linked;    /* a link led to the row: false for row 0, where the chain begins, for a dark row and a refusal */
    uint16_t link;  /* the place of that link's low byte */
} rainbow_explained;

/* The part of a glyph table that is a code's: where it starts in the table, and how long it is. */
typedef struct rainbow_part_place {
    uint8_t refusal;
    size_t at;
    size_t length;
} rainbow_part_place;

/* The library was made for these sizes, in bytes. A compiler that lays a struct out otherwise stops here. */
#ifdef __cplusplus
#define RAINBOW_SIZE(type, bytes) static_assert(sizeof(type) == (bytes), #type " has not " #bytes " bytes")
#else
#define RAINBOW_SIZE(type, bytes) _Static_assert(sizeof(type) == (bytes), #type " has not " #bytes " bytes")
#endif
RAINBOW_SIZE(size_t, 8);
RAINBOW_SIZE(bool, 1);
RAINBOW_SIZE(rainbow_machine, 11);
RAINBOW_SIZE(rainbow_byte_read, 2);
RAINBOW_SIZE(rainbow_written, 12);
RAINBOW_SIZE(rainbow_drawn, 6);
RAINBOW_SIZE(rainbow_stored, 8);
RAINBOW_SIZE(rainbow_viewers, 32);
RAINBOW_SIZE(rainbow_asked, 40);
RAINBOW_SIZE(rainbow_drawn_for_viewers, 40);
RAINBOW_SIZE(rainbow_stored_for_viewers, 40);
RAINBOW_SIZE(rainbow_explained, 10);
RAINBOW_SIZE(rainbow_part_place, 24);

/* RAINBOW_VERSION of the header that the library was made for. */
uint32_t rainbow_version(void);

/* The machine at power-up: port 0A holds 00, so the Z80 is held; 80 columns, 60 Hz, not interlaced, all else clear. */
rainbow_machine rainbow_power_up(void);

/* A vertical tick: sets the vertical interrupt. It never moves the watchdog's count. */
rainbow_machine rainbow_vertical_tick(rainbow_machine machine);

/* A tick of the watchdog's clock, which on the Rainbow comes each 0.85 ms. While the watchdog is enabled, reset of the
 * 8088 begins at the 128th tick after the last accepted code 09, enabling or end of reset. It ends at the 128th tick
 * after it began, with the count 0 and the watchdog still enabled. Nothing else in the machine changes. While the
 * watchdog is disabled a tick makes the count 0; but in reset a tick counts in any case, so that every reset ends.
 * In reset every access of the 8088 is refused by 8: a read, both stores, those to the shadow, and a write to a port.
 * The calls of the Z80, drawings, scan lines and both ticks go on. */
rainbow_machine rainbow_watchdog_tick(rainbow_machine machine);

/* The column setting: 80 or 132. */
size_t rainbow_columns(rainbow_machine machine);

/* The scroll latch, 0 to 15: the field latch modulo 16. */
uint8_t rainbow_scroll_latch(rainbow_machine machine);

/* Whether the Z80 runs: bit 0 of port 0A is set. */
bool rainbow_z80_runs(rainbow_machine machine);

/* Whether the display is blanked: bit 1 of port 0A is clear. */
bool rainbow_blanked(rainbow_machine machine);

/* Whether the graphics board is selected: bit 2 of port 0A is set. */
bool rainbow_graphics(rainbow_machine machine);

/* Writes a code to a port.
 * 04: 00 sets 80 columns, 10 sets 132, and both set interlace; 20 sets 60 Hz, 30 sets 50 Hz, and both clear it.
 * 0C, 10C: 00 to 03 load the low two bits of the scroll latch, 04 to 07 its high two bits, 08 toggles the blink
 * flip-flop, 09 clears the vertical interrupt and sets the watchdog's count to 0, 0A sets reverse field, 0B clears
 * it. An accepted write to 0C also enables the watchdog, one to 10C disables it, and both set the count to 0; but if
 * the watchdog was enabled before, a write to 0C of any code but 09 leaves the count.
 * 0A: every byte is a code, and is held; the Z80 runs only while bit 0 of it is set. Bit 6 going from 0 to 1 copies
 * shadow to NVM, bit 7 going from 0 to 1 copies NVM to shadow.
 * Draw the picture, and work out the index, afresh after a change of the column setting.
 * Refused: 1, 8, 3, 4, 6. */
rainbow_written rainbow_write_port(rainbow_machine machine, uint8_t *shadow, size_t shadow_length, uint8_t *nvm,
                                   size_t nvm_length, uint16_t port, uint8_t code);

/* What the 8088 reads: shared at 00000 to 0FFFF, screen at EE000 to EEFFF, attribute at EF000 to EFFFF.
 * Refused: 1, 8, 2. */
rainbow_byte_read rainbow_read_8088(rainbow_machine machine, const uint8_t *shared, size_t shared_length,
                                    const uint8_t *screen, size_t screen_length, const uint8_t *attribute,
                                    size_t attribute_length, uint32_t address);

/* The 8088's store with no picture lent: changes the one byte, and leaves a kept picture and a kept index behind.
 * The answer is the refusal: 1, 8, 2. */
uint8_t rainbow_store_8088(rainbow_machine machine, uint8_t *shared, size_t shared_length, uint8_t *screen,
                           size_t screen_length, uint8_t *attribute, size_t attribute_length, uint32_t address,
                           uint8_t byte);

/* What the Z80 reads: private at 0000 to 07FF and, from 0800 to FFFF, the shared byte of the same address.
 * Refused: 1, 7. */
rainbow_byte_read rainbow_read_z80(rainbow_machine machine, const uint8_t *private_memory, size_t private_length,
                                   const uint8_t *shared, size_t shared_length, uint16_t address);

/* The Z80's store: changes that one byte and no other. The answer is the refusal: 1, 7. */
uint8_t rainbow_store_z80(rainbow_machine machine, uint8_t *private_memory, size_t private_length, uint8_t *shared,
                          size_t shared_length, uint16_t address, uint8_t byte);

/* The shadow, which is the 8088's, by place 0 to 255: a read gives the byte modulo 16. Refused: 1, 8, 5. */
rainbow_byte_read rainbow_read_shadow(rainbow_machine machine, const uint8_t *shadow, size_t shadow_length,
                                      size_t place);

/* A write stores the value modulo 16. The answer is the refusal: 1, 8, 5. */
uint8_t rainbow_write_shadow(rainbow_machine machine, uint8_t *shadow, size_t shadow_length, size_t place,
                             uint8_t value);

/* Draws the picture afresh: walks the chain of lines from place 0 at the column setting, 25 rows, and writes the
 * record of each. A row runs to the first FF, the two bytes after which are the next row's start, low byte first;
 * the attribute byte beside the first of them gives that row's kind. A row with no FF among its first capacity + 1
 * bytes is torn, and all rows after it are dark.
 * The top four bits of a link's high byte play no part in where it leads; a link with one of them set is wild. The
 * answer names the first row whose link is wild; the last row's link counts too. A torn or dark row has no link.
 * Refused: 1. */
rainbow_drawn rainbow_draw(rainbow_machine machine, const uint8_t *screen, size_t screen_length,
                           const uint8_t *attribute, size_t attribute_length, uint8_t *picture,
                           size_t picture_length);

/* The 8088's store with a picture lent, for every picture: the byte is stored; the records ahead of the first row
 * that read it stay, those from it on become those of the walk after the store. A true picture stays true; a kept index
 * is left behind. Refused: 1, 8, 2. */
rainbow_stored rainbow_store_with_picture(rainbow_machine machine, uint8_t *shared, size_t shared_length,
                                          uint8_t *screen, size_t screen_length, uint8_t *attribute,
                                          size_t attribute_length, uint8_t *picture, size_t picture_length,
                                          uint32_t address, uint8_t byte);

/* Works the index out afresh: for each place of screen memory, 0 to 4095, and then for each of attribute memory, the
 * number of the first row, 0 to 24, that reads it, or RAINBOW_NO_ROW. A row reads its cells, its FF and the two bytes
 * of its link, and the attribute bytes beside its cells and beside the low byte of its link; a torn row reads its
 * capacity + 1 bytes and the attribute bytes beside all of these but the last; a dark row reads nothing. The rows are
 * those of the walk that rainbow_draw makes. The answer is the refusal: 1. */
uint8_t rainbow_index_readers(rainbow_machine machine, const uint8_t *screen, size_t screen_length,
                              const uint8_t *attribute, size_t attribute_length, uint8_t *index,
                              size_t index_length);

/* The 8088's store with a picture and an index lent, for every picture and every index: the byte is stored. Let f be
 * the index's entry for it. If f is over 24, or the byte is one of shared memory, which has no entry, picture and index
 * stay and the marks are 0. Otherwise the records ahead of f stay and those from f on become those of the walk after
 * the store; entries of the index whose value is under f stay, and the others become those of the memories after it.
 * With a true index the answer and all that is left are those of rainbow_store_with_picture, and a true index stays
 * true. A store of a byte that no row reads looks at one entry, and its cost does not grow with the screen. The 8088's
 * other stores to screen or attribute memory leave a kept index behind: after one of them, and after a change of the
 * column setting, call rainbow_index_readers.
 * Refused: 1, 8, 2. */
rainbow_stored rainbow_store_with_index(rainbow_machine machine, uint8_t *shared, size_t shared_length,
                                        uint8_t *screen, size_t screen_length, uint8_t *attribute,
                                        size_t attribute_length, uint8_t *picture, size_t picture_length,
                                        uint8_t *index, size_t index_length, uint32_t address, uint8_t byte);

/* Whether bit `row` of the marks is set. No bit from 32 up is. */
bool rainbow_is_marked(uint32_t marks, size_t row);

/* The viewers at the start: all rows wait for all, so each number is 01FFFFFF. The caller keeps the viewers, hands them
 * to each of the four calls below, and keeps what comes back; they may hold any numbers. A viewer that has its own
 * copy of the picture, and takes over the records that are marked each time it asks, has the picture as it is. For
 * that every store and every drawing has to be one that serves viewers: rainbow_store_with_picture,
 * rainbow_store_with_index and rainbow_draw change the picture and tell no viewer, and rainbow_store_8088 leaves even
 * the picture behind. After such a call, and after a change of the column setting, draw by rainbow_draw_for_viewers. */
rainbow_viewers rainbow_start_viewers(void);

/* Hands viewer 0 to 7 the marks that wait for it, and clears them. No other viewer's change. Refused: 10. */
rainbow_asked rainbow_ask(rainbow_viewers viewers, size_t viewer);

/* rainbow_draw, and all rows wait for all viewers. Refused: 1. */
rainbow_drawn_for_viewers rainbow_draw_for_viewers(rainbow_machine machine, rainbow_viewers viewers,
                                                   const uint8_t *screen, size_t screen_length,
                                                   const uint8_t *attribute, size_t attribute_length,
                                                   uint8_t *picture, size_t picture_length);

/* rainbow_store_with_picture, and its marks are added to those that wait for each viewer. Refused: 1, 8, 2. */
rainbow_stored_for_viewers rainbow_store_for_viewers(rainbow_machine machine, rainbow_viewers viewers, uint8_t *shared,
                                                     size_t shared_length, uint8_t *screen, size_t screen_length,
                                                     uint8_t *attribute, size_t attribute_length, uint8_t *picture,
                                                     size_t picture_length, uint32_t address, uint8_t byte);

/* rainbow_store_with_index, and its marks are added to those that wait for each viewer. Refused: 1, 8, 2. */
rainbow_stored_for_viewers rainbow_store_with_index_for_viewers(
    rainbow_machine machine, rainbow_viewers viewers, uint8_t *shared, size_t shared_length, uint8_t *screen,
    size_t screen_length, uint8_t *attribute, size_t attribute_length, uint8_t *picture, size_t picture_length,
    uint8_t *index, size_t index_length, uint32_t address, uint8_t byte);

/* Says why a row, 0 to 24, shows what it shows in a column, 0 to 131: the rows are those of the walk that rainbow_draw
 * makes, and no picture is lent. All places are places of screen memory, 0 to 4095. The answer is the first of these
 * that holds:
 *   - dark: an earlier row is torn. It is named, and is the only torn row.
 *   - past: the column is not under the row's capacity, which is the column setting, or half of it in the three wide
 *     kinds.
 *   - fill: the row's FF stands in an earlier column or in this one. Its place is named.
 *   - a cell: the place that holds it and the kind of its row are named. A torn row has a cell in each column that is
 *     under its capacity.
 * In fill, past and dark the picture shows 20, 0E. All but dark also name the link that led to the row, by the place of
 * its low byte; the attribute byte beside that byte gave the row's kind. Row 0 has none.
 * Where no earlier row reads the place of a cell, a store there of another byte, which is not FF, shows in that cell
 * and changes no earlier row. A later row that reads the place may change too: a cell of it shows the byte, and if the
 * place is in its link, the rows after it are others.
 * It is no access of the 8088, so reset does not matter. Refused: 1, 5. */
rainbow_explained rainbow_explain(rainbow_machine machine, const uint8_t *screen, size_t screen_length,
                                  const uint8_t *attribute, size_t attribute_length, size_t row, size_t column);

/* Where the sixteen scan bytes of a code stand in the caller's glyph table: code times 16. Refused: 1. */
rainbow_part_place rainbow_glyph_part(const uint8_t *table, size_t table_length, uint8_t code);

/* Draws scan 1 to 10 of row 0 to 24 of a picture, which may hold any bytes: all 1,188 bytes of the line, 0 for an
 * unlit dot, 1 to 3 for a lit one. The whole line is 0 if the display is blanked, the graphics board selected, or
 * the row dark.
 * The answer is the refusal: 1, 5. */
uint8_t rainbow_scan_line(rainbow_machine machine, const uint8_t *picture, size_t picture_length,
                          const uint8_t *table, size_t table_length, size_t row, size_t scan, uint8_t *line,
                          size_t line_length);

/* How many dots a line has at the column setting: 800 or 1,188. The bytes after them are 0. */
size_t rainbow_dots_of_line(rainbow_machine machine);

/* Lists the 240 lines of the whole screen from the top: for each the row, 0 to 24, and the scan, 1 to 10, that it
 * shows, two bytes. The picture may hold any bytes; of each row the kind is read, modulo 8. L is the scroll latch,
 * modulo 16, and the run is the first unbroken run of rows whose kind has bit 2 set. With no such run, or with L 0,
 * rows 0 to 23 show in full. Otherwise all 25 rows show, but the run's first row without its top L scans and its last
 * row without its bottom 10 - L; a run of one row shows none.
 * rainbow_scan_line draws the line of each; at L 0 to 9 no entry of the list is refused by 5.
 * The answer is the refusal: 1, 9 if L is over 9. */
uint8_t rainbow_list_lines(rainbow_machine machine, const uint8_t *picture, size_t picture_length, uint8_t *list,
                           size_t list_length);

#ifdef __cplusplus
}
#endif

#endif
