#include "best.h"
#include "plain.h"

#include <string.h>

enum { PLACES = 4096, PAIRS = 132 };

#define TWICE(...) __VA_ARGS__, __VA_ARGS__
#define FOUR(...) TWICE(__VA_ARGS__), TWICE(__VA_ARGS__)
#define SIXTEEN(...) FOUR(__VA_ARGS__), FOUR(__VA_ARGS__), FOUR(__VA_ARGS__), FOUR(__VA_ARGS__)
#define PAIR 0x20, 0x0E
static const uint8_t blank[2 * PAIRS] = {
    SIXTEEN(PAIR), SIXTEEN(PAIR), SIXTEEN(PAIR), SIXTEEN(PAIR), SIXTEEN(PAIR), SIXTEEN(PAIR), SIXTEEN(PAIR),
    SIXTEEN(PAIR), FOUR(PAIR),
};

typedef struct {
    unsigned link; /* as it stands in memory: a place over 4095 is wild */
    unsigned kind;
    bool dark;
} head;

static const head first_row = {0, 3, false}, dark_row = {0, 3, true};

static unsigned capacity_of(unsigned columns, unsigned kind) { return (kind & 3) == 3 ? columns : columns / 2; }

/* How many cells a row has ahead of its FF, or -1 where it is torn. */
static int find_ff(const uint8_t *screen, unsigned start, unsigned capacity) {
    unsigned left = PLACES - start, most = capacity + 1;
    unsigned straight = left < most ? left : most;
    const uint8_t *ff = memchr(screen + start, 0xFF, straight);
    if (ff != NULL)
        return (int)(ff - (screen + start));
    ff = memchr(screen, 0xFF, most - straight);
    return ff != NULL ? (int)(straight + (unsigned)(ff - screen)) : -1;
}

static head link_after(const uint8_t *screen, const uint8_t *attribute, unsigned ff) {
    unsigned low = (ff + 1) % PLACES, high = (ff + 2) % PLACES;
    head next = {screen[low] | (unsigned)screen[high] << 8, attribute[low] & 7u, false};
    return next;
}

static void copy_pairs(const uint8_t *restrict screen, const uint8_t *restrict attribute, size_t cells,
                       uint8_t *restrict pair) {
    for (size_t cell = 0; cell < cells; cell++) {
        pair[2 * cell] = screen[cell];
        pair[2 * cell + 1] = attribute[cell] & 15;
    }
}

/* Of a row that goes past the end of memory. Where it is made part of copy_row, gcc has too few registers for the rows
 * that do not. */
static __attribute__((noinline)) void copy_round(const uint8_t *screen, const uint8_t *attribute, unsigned start,
                                                 unsigned cells, uint8_t *pair) {
    unsigned straight = PLACES - start;
    copy_pairs(screen + start, attribute + start, straight, pair);
    copy_pairs(screen, attribute, cells - straight, pair + 2 * straight);
}

static void copy_row(const uint8_t *screen, const uint8_t *attribute, unsigned start, unsigned cells, uint8_t *pair) {
    if (cells <= PLACES - start)
        copy_pairs(screen + start, attribute + start, cells, pair);
    else
        copy_round(screen, attribute, start, cells, pair);
    memcpy(pair + 2 * cells, blank, 2 * (PAIRS - cells));
}

/* Draws one row, and says how many bytes of screen memory it read. */
static unsigned draw_row(unsigned columns, const uint8_t *screen, const uint8_t *attribute, head *at, uint8_t *record) {
    unsigned start = at->link % PLACES;
    record[0] = (uint8_t)(start >> 8);
    record[1] = (uint8_t)start;
    record[RAINBOW_KIND_AT] = (uint8_t)at->kind;
    if (at->dark) {
        record[RAINBOW_COUNT_AT] = RAINBOW_DARK;
        memcpy(record + RAINBOW_PAIRS_AT, blank, sizeof blank);
        return 0;
    }
    unsigned capacity = capacity_of(columns, at->kind);
    int ff = find_ff(screen, start, capacity);
    unsigned cells = ff < 0 ? capacity : (unsigned)ff;
    copy_row(screen, attribute, start, cells, record + RAINBOW_PAIRS_AT);
    if (ff < 0) {
        record[RAINBOW_COUNT_AT] = RAINBOW_TORN;
        *at = dark_row;
        return capacity + 1;
    }
    record[RAINBOW_COUNT_AT] = (uint8_t)cells;
    *at = link_after(screen, attribute, start + cells);
    return cells + 3;
}

rainbow_drawn best_draw(rainbow_machine machine, const uint8_t *screen, size_t screen_length, const uint8_t *attribute,
                        size_t attribute_length, uint8_t *picture, size_t picture_length) {
    rainbow_drawn drawn = {RAINBOW_REFUSED_LENGTH, 0, false, 0};
    if (screen_length != RAINBOW_SCREEN_BYTES || attribute_length != RAINBOW_ATTRIBUTE_BYTES ||
        picture_length != RAINBOW_PICTURE_BYTES)
        return drawn;
    head at = first_row;
    unsigned columns = machine.columns132 ? 132 : 80, reads = 0;
    for (int row = 0; row < RAINBOW_ROWS; row++) {
        reads += draw_row(columns, screen, attribute, &at, picture + row * RAINBOW_RECORD_BYTES);
        if (at.link >= PLACES && !drawn.wild) {
            drawn.wild = true;
            drawn.wild_row = (uint8_t)row;
        }
    }
    drawn.refusal = RAINBOW_ACCEPTED;
    drawn.reads = (uint16_t)reads;
    return drawn;
}

/* Passes one row, and says whether it reads a place of one of the two memories. */
static bool pass_row(unsigned columns, const uint8_t *screen, const uint8_t *attribute, head *at, bool beside,
                     unsigned place) {
    unsigned capacity = capacity_of(columns, at->kind), start = at->link % PLACES;
    unsigned from = (place - start) % PLACES;
    int ff = find_ff(screen, start, capacity);
    if (ff < 0) {
        *at = dark_row;
        return from < capacity + !beside;
    }
    unsigned cells = (unsigned)ff;
    *at = link_after(screen, attribute, start + cells);
    return beside ? from < cells || from == cells + 1 : from < cells + 3;
}

/* Puts what was drawn in the place of what was kept, and says whether they differed. */
static bool replace(uint8_t *restrict kept, const uint8_t *restrict drawn) {
    if (memcmp(kept, drawn, RAINBOW_RECORD_BYTES) == 0)
        return false;
    memcpy(kept, drawn, RAINBOW_RECORD_BYTES);
    return true;
}

rainbow_stored best_store_with_picture(rainbow_machine machine, uint8_t *shared, size_t shared_length, uint8_t *screen,
                                       size_t screen_length, uint8_t *attribute, size_t attribute_length,
                                       uint8_t *picture, size_t picture_length, uint32_t address, uint8_t byte) {
    rainbow_stored stored = {RAINBOW_REFUSED_LENGTH, 0};
    if (picture_length != RAINBOW_PICTURE_BYTES)
        return stored;
    if (machine.reset || address < 0xEE000 || address >= 0xF0000 || shared_length != RAINBOW_SHARED_BYTES ||
        screen_length != RAINBOW_SCREEN_BYTES || attribute_length != RAINBOW_ATTRIBUTE_BYTES) {
        stored.refusal = plain_store_8088(machine, shared, shared_length, screen, screen_length, attribute,
                                          attribute_length, address, byte);
        return stored;
    }
    unsigned columns = machine.columns132 ? 132 : 80, row = 0;
    bool beside = address >= 0xEF000, found = false;
    head at = first_row, before = at;
    for (; !found && row < RAINBOW_ROWS && !at.dark; row += !found) {
        before = at;
        found = pass_row(columns, screen, attribute, &at, beside, address % PLACES);
    }
    if (!found)
        row = RAINBOW_ROWS;
    (beside ? attribute : screen)[address % PLACES] = byte;
    stored.refusal = RAINBOW_ACCEPTED;
    for (at = before; row < RAINBOW_ROWS; row++) {
        uint8_t drawn[RAINBOW_RECORD_BYTES];
        draw_row(columns, screen, attribute, &at, drawn);
        if (replace(picture + row * RAINBOW_RECORD_BYTES, drawn))
            stored.marks |= 1u << row;
    }
    return stored;
}

/* For each byte of a glyph its dots, FF where one is set: bit 7 first, then bit 0 again. Eighteen of them are enough
 * for a narrow cell; a wide one has each twice. */
enum { NARROW = 16, WIDE = 32 };
#define BIT(g, b) ((g) >> (b) & 1 ? 0xFF : 0)
#define EIGHT(g) BIT(g, 7), BIT(g, 6), BIT(g, 5), BIT(g, 4), BIT(g, 3), BIT(g, 2), BIT(g, 1), BIT(g, 0)
#define EIGHT_TWICE(g) TWICE(BIT(g, 7)), TWICE(BIT(g, 6)), TWICE(BIT(g, 5)), TWICE(BIT(g, 4)), TWICE(BIT(g, 3)), \
    TWICE(BIT(g, 2)), TWICE(BIT(g, 1)), TWICE(BIT(g, 0))
#define ONE(g) {EIGHT(g), FOUR(BIT(g, 0)), FOUR(BIT(g, 0))}
#define ONE_WIDE(g) {EIGHT_TWICE(g), SIXTEEN(BIT(g, 0))}
#define EACH4(m, g) m(g), m((g) + 1), m((g) + 2), m((g) + 3)
#define EACH16(m, g) EACH4(m, g), EACH4(m, (g) + 4), EACH4(m, (g) + 8), EACH4(m, (g) + 12)
#define EACH64(m, g) EACH16(m, g), EACH16(m, (g) + 16), EACH16(m, (g) + 32), EACH16(m, (g) + 48)
#define EACH256(m) EACH64(m, 0), EACH64(m, 64), EACH64(m, 128), EACH64(m, 192)
static const uint8_t narrow_dots[256][NARROW] = {EACH256(ONE)};
static const uint8_t wide_dots[256][WIDE] = {EACH256(ONE_WIDE)};

/* Puts the dots of a cell, each FF or 0, at a level. They are worked out apart, so that a compiler need not ask whether
 * the line lies over the table. */
static inline void put_dots(const uint8_t *dots, size_t many, uint8_t level, uint8_t *into) {
    uint8_t shown[WIDE];
    for (size_t i = 0; i < many; i++)
        shown[i] = dots[i] & level;
    memcpy(into, shown, many);
}

static void shade_all(rainbow_machine machine, unsigned shown, uint8_t level[16], uint8_t set[16], uint8_t flip[16]) {
    for (unsigned attribute = 0; attribute < 16; attribute++) {
        level[attribute] = (uint8_t)(3 - (attribute >> 1 & 1) - (machine.blink & (~attribute >> 2 & 1)));
        set[attribute] = (attribute & 8) == 0 && shown == 9 ? 0xFF : 0;
        flip[attribute] = (attribute & 1) != (unsigned)machine.reverse ? 0xFF : 0;
    }
}

uint8_t best_scan_line(rainbow_machine machine, const uint8_t *picture, size_t picture_length, const uint8_t *table,
                       size_t table_length, size_t row, size_t scan, uint8_t *restrict line, size_t line_length) {
    if (picture_length != RAINBOW_PICTURE_BYTES || table_length != RAINBOW_GLYPH_BYTES ||
        line_length != RAINBOW_LINE_BYTES)
        return RAINBOW_REFUSED_LENGTH;
    if (row >= RAINBOW_ROWS || scan < RAINBOW_FIRST_SCAN || scan > RAINBOW_LAST_SCAN)
        return RAINBOW_REFUSED_PLACE;
    const uint8_t *record = picture + row * RAINBOW_RECORD_BYTES;
    if ((machine.held & 2) == 0 || (machine.held & 4) != 0 || record[RAINBOW_COUNT_AT] == RAINBOW_DARK) {
        memset(line, 0, RAINBOW_LINE_BYTES);
        return RAINBOW_ACCEPTED;
    }
    unsigned kind = record[RAINBOW_KIND_AT] & 3, columns = machine.columns132 ? 132 : 80;
    unsigned shown = (unsigned)scan;
    if (kind == 0)
        shown = shown / 2 + shown % 2 + 5;
    else if (kind == 1)
        shown = shown / 2 + shown % 2;
    const uint8_t *glyphs = table + (shown + 14) % 16, *pair = record + RAINBOW_PAIRS_AT;
    unsigned cells = capacity_of(columns, kind), dots = machine.columns132 ? 9 : 10;
    uint8_t level[16], set[16], flip[16];
    shade_all(machine, shown, level, set, flip);
    /* Each cell is written with more dots than it has, which the next one overwrites; the last is written apart. */
    uint8_t *dot = line, last[WIDE];
    if (kind == 3) {
        for (unsigned cell = 0; cell < cells; cell++) {
            unsigned attribute = pair[2 * cell + 1] & 15;
            uint8_t glyph = (uint8_t)((glyphs[pair[2 * cell] * 16u] | set[attribute]) ^ flip[attribute]);
            uint8_t *into = cell + 1 < cells ? dot : last;
            put_dots(narrow_dots[glyph], NARROW, level[attribute], into);
            dot += dots;
        }
    } else {
        dots *= 2;
        for (unsigned cell = 0; cell < cells; cell++) {
            unsigned attribute = pair[2 * cell + 1] & 15;
            uint8_t glyph = (uint8_t)((glyphs[pair[2 * cell] * 16u] | set[attribute]) ^ flip[attribute]);
            uint8_t *into = cell + 1 < cells ? dot : last;
            put_dots(wide_dots[glyph], WIDE, level[attribute], into);
            dot += dots;
        }
    }
    memcpy(dot - dots, last, dots);
    memset(dot, 0, (size_t)(line + RAINBOW_LINE_BYTES - dot));
    return RAINBOW_ACCEPTED;
}

static bool scrolls(const uint8_t *picture, unsigned row) {
    return (picture[row * RAINBOW_RECORD_BYTES + RAINBOW_KIND_AT] & 4) != 0;
}

#define ROW(r) r, 1, r, 2, r, 3, r, 4, r, 5, r, 6, r, 7, r, 8, r, 9, r, 10
#define ROWS5(r) ROW(r), ROW(r + 1), ROW(r + 2), ROW(r + 3), ROW(r + 4)
static const uint8_t all_lines[2 * 10 * RAINBOW_ROWS] = {ROWS5(0), ROWS5(5), ROWS5(10), ROWS5(15), ROWS5(20)};

uint8_t best_list_lines(rainbow_machine machine, const uint8_t *picture, size_t picture_length, uint8_t *list,
                        size_t list_length) {
    if (picture_length != RAINBOW_PICTURE_BYTES || list_length != RAINBOW_LIST_BYTES)
        return RAINBOW_REFUSED_LENGTH;
    unsigned latch = machine.latch % 16u, first = 0;
    if (latch > 9)
        return RAINBOW_REFUSED_LATCH;
    while (first < RAINBOW_ROWS && !scrolls(picture, first))
        first++;
    unsigned end = first;
    while (end < RAINBOW_ROWS && scrolls(picture, end))
        end++;
    if (first == end || latch == 0) {
        memcpy(list, all_lines, RAINBOW_LIST_BYTES);
        return RAINBOW_ACCEPTED;
    }
    unsigned run = 20 * first, below = 20 * (end - 1);
    memcpy(list, all_lines, run);
    memcpy(list + run, all_lines + run + 2 * latch, below - run);
    memcpy(list + below, all_lines + below + 20, RAINBOW_LIST_BYTES - below);
    return RAINBOW_ACCEPTED;
}

rainbow_explained best_explain(rainbow_machine machine, const uint8_t *screen, size_t screen_length,
                               const uint8_t *attribute, size_t attribute_length, size_t row, size_t column) {
    rainbow_explained why = {RAINBOW_REFUSED_LENGTH, 0, 0, 0, 0, false, 0};
    if (screen_length != RAINBOW_SCREEN_BYTES || attribute_length != RAINBOW_ATTRIBUTE_BYTES)
        return why;
    why.refusal = RAINBOW_REFUSED_PLACE;
    if (row >= RAINBOW_ROWS || column >= RAINBOW_COLUMNS)
        return why;
    why.refusal = RAINBOW_ACCEPTED;
    unsigned columns = machine.columns132 ? 132 : 80, low = 0;
    head at = first_row;
    for (unsigned passed = 0; passed < row; passed++) {
        unsigned start = at.link % PLACES;
        int ff = find_ff(screen, start, capacity_of(columns, at.kind));
        if (ff < 0) {
            why.answer = RAINBOW_WHY_DARK;
            why.tore = (uint8_t)passed;
            return why;
        }
        at = link_after(screen, attribute, start + (unsigned)ff);
        low = start + (unsigned)ff + 1;
    }
    why.linked = row > 0;
    why.link = (uint16_t)(low % PLACES);
    unsigned start = at.link % PLACES, capacity = capacity_of(columns, at.kind);
    if (column >= capacity) {
        why.answer = RAINBOW_WHY_PAST;
        return why;
    }
    /* An FF after the column changes nothing. */
    int ff = find_ff(screen, start, (unsigned)column);
    why.answer = ff < 0 ? RAINBOW_WHY_CELL : RAINBOW_WHY_FILL;
    why.place = (uint16_t)((start + (ff < 0 ? (unsigned)column : (unsigned)ff)) % PLACES);
    why.kind = (uint8_t)(ff < 0 ? at.kind : 0);
    return why;
}

rainbow_asked best_ask(rainbow_viewers viewers, size_t viewer) {
    rainbow_asked asked = {RAINBOW_REFUSED_VIEWER, 0, viewers};
    if (viewer < RAINBOW_VIEWERS) {
        asked.refusal = RAINBOW_ACCEPTED;
        asked.marks = viewers.waiting[viewer];
        asked.viewers.waiting[viewer] = 0;
    }
    return asked;
}

static const rainbow_viewers all_rows_for_all = {
    {0x1FFFFFF, 0x1FFFFFF, 0x1FFFFFF, 0x1FFFFFF, 0x1FFFFFF, 0x1FFFFFF, 0x1FFFFFF, 0x1FFFFFF}};

rainbow_drawn_for_viewers best_draw_for_viewers(rainbow_machine machine, rainbow_viewers viewers, const uint8_t *screen,
                                                size_t screen_length, const uint8_t *attribute, size_t attribute_length,
                                                uint8_t *picture, size_t picture_length) {
    rainbow_drawn_for_viewers served;
    served.drawn = best_draw(machine, screen, screen_length, attribute, attribute_length, picture, picture_length);
    served.viewers = served.drawn.refusal == RAINBOW_ACCEPTED ? all_rows_for_all : viewers;
    return served;
}

/* Where no row is marked the viewers go back as they came. */
rainbow_stored_for_viewers best_store_for_viewers(rainbow_machine machine, rainbow_viewers viewers, uint8_t *shared,
                                                  size_t shared_length, uint8_t *screen, size_t screen_length,
                                                  uint8_t *attribute, size_t attribute_length, uint8_t *picture,
                                                  size_t picture_length, uint32_t address, uint8_t byte) {
    rainbow_stored_for_viewers served;
    served.stored = best_store_with_picture(machine, shared, shared_length, screen, screen_length, attribute,
                                            attribute_length, picture, picture_length, address, byte);
    served.viewers = viewers;
    if (served.stored.marks != 0)
        for (int viewer = 0; viewer < RAINBOW_VIEWERS; viewer++)
            served.viewers.waiting[viewer] |= served.stored.marks;
    return served;
}

/* Writes a row's number to entries where none stands yet; and, where no number under it is another row's, in the place
 * of those over it, which takes fewer instructions. Entries are not written twice, since a processor waits where it reads
 * bytes just written in other pieces. */
static inline void number_rest(uint8_t *entry, size_t entries, uint8_t row) {
    for (size_t i = 0; i < entries; i++)
        entry[i] = entry[i] == RAINBOW_NO_ROW ? row : entry[i];
}

static inline void number_part(uint8_t *entry, size_t entries, uint8_t row) {
    for (size_t i = 0; i < entries; i++)
        entry[i] = row < entry[i] ? row : entry[i];
}

static void number_places(uint8_t *entries, unsigned start, unsigned bytes, unsigned row) {
    unsigned straight = PLACES - start;
    if (bytes <= straight) {
        number_part(entries + start, bytes, (uint8_t)row);
        return;
    }
    number_part(entries + start, straight, (uint8_t)row);
    number_part(entries, bytes - straight, (uint8_t)row);
}

static void number_rest_of_places(uint8_t *entries, unsigned start, unsigned bytes, unsigned row) {
    unsigned straight = PLACES - start;
    if (bytes <= straight) {
        number_rest(entries + start, bytes, (uint8_t)row);
        return;
    }
    number_rest(entries + start, straight, (uint8_t)row);
    number_rest(entries, bytes - straight, (uint8_t)row);
}

/* Passes one row, and writes its number to the entries of all that it reads. */
static void index_row(unsigned columns, const uint8_t *screen, const uint8_t *attribute, head *at, unsigned row,
                      uint8_t *index) {
    unsigned start = at->link % PLACES, capacity = capacity_of(columns, at->kind);
    int ff = find_ff(screen, start, capacity);
    if (ff < 0) {
        number_rest_of_places(index, start, capacity + 1, row);
        number_rest_of_places(index + PLACES, start, capacity, row);
        *at = dark_row;
        return;
    }
    unsigned cells = (unsigned)ff, low = (start + cells + 1) % PLACES;
    number_rest_of_places(index, start, cells + 3, row);
    number_rest_of_places(index + PLACES, start, cells, row);
    number_rest_of_places(index + PLACES, low, 1, row);
    *at = link_after(screen, attribute, start + cells);
}

/* Fills entries with a row's number: sixteen at a time, the last sixteen perhaps twice. */
static inline void fill_part(uint8_t *entry, size_t entries, uint8_t row) {
    if (entries < 16) {
        for (size_t i = 0; i < entries; i++)
            entry[i] = row;
        return;
    }
    for (size_t i = 0; i + 16 < entries; i += 16)
        memset(entry + i, row, 16);
    memset(entry + entries - 16, row, 16);
}

static void fill_places(uint8_t *entries, unsigned start, unsigned bytes, unsigned row) {
    unsigned straight = PLACES - start;
    if (bytes <= straight) {
        fill_part(entries + start, bytes, (uint8_t)row);
        return;
    }
    fill_part(entries + start, straight, (uint8_t)row);
    fill_part(entries, bytes - straight, (uint8_t)row);
}

/* The rows are walked first and numbered from the last to the first, so that no entry has to be read. */
uint8_t best_index_readers(rainbow_machine machine, const uint8_t *screen, size_t screen_length,
                           const uint8_t *attribute, size_t attribute_length, uint8_t *index, size_t index_length) {
    if (screen_length != RAINBOW_SCREEN_BYTES || attribute_length != RAINBOW_ATTRIBUTE_BYTES ||
        index_length != RAINBOW_INDEX_BYTES)
        return RAINBOW_REFUSED_LENGTH;
    struct { unsigned start, cells; bool torn; } rows[RAINBOW_ROWS];
    unsigned columns = machine.columns132 ? 132 : 80, row = 0;
    for (head at = first_row; row < RAINBOW_ROWS && !at.dark; row++) {
        unsigned start = at.link % PLACES, capacity = capacity_of(columns, at.kind);
        int ff = find_ff(screen, start, capacity);
        rows[row].start = start;
        rows[row].torn = ff < 0;
        rows[row].cells = ff < 0 ? capacity : (unsigned)ff;
        at = ff < 0 ? dark_row : link_after(screen, attribute, start + (unsigned)ff);
    }
    memset(index, RAINBOW_NO_ROW, RAINBOW_INDEX_BYTES);
    while (row-- > 0) {
        unsigned start = rows[row].start, cells = rows[row].cells;
        fill_places(index, start, cells + (rows[row].torn ? 1 : 3), row);
        fill_places(index + PLACES, start, cells, row);
        if (!rows[row].torn)
            index[PLACES + (start + cells + 1) % PLACES] = (uint8_t)row;
    }
    return RAINBOW_ACCEPTED;
}

/* Forgets the entries that are not under a row. A function of its own, since clang would compare four bytes in place of
 * one if it knew how large the row can be. */
static __attribute__((noinline)) void forget(uint8_t *index, uint8_t first) {
    for (size_t at = 0; at < RAINBOW_INDEX_BYTES; at++)
        index[at] |= index[at] < first ? 0 : 0xFF;
}

/* Mends picture and index from a row on, and gives the marks. */
static __attribute__((noinline)) uint32_t mend_both(unsigned columns, const uint8_t *screen, const uint8_t *attribute,
                                                    uint8_t *picture, uint8_t *index, unsigned first) {
    uint32_t marks = 0;
    head at = first_row;
    forget(index, (uint8_t)first);
    for (unsigned row = 0; row < first && !at.dark; row++)
        index_row(columns, screen, attribute, &at, row, index);
    for (unsigned row = first; row < RAINBOW_ROWS; row++) {
        uint8_t drawn[RAINBOW_RECORD_BYTES];
        unsigned start = at.link % PLACES;
        unsigned reads = draw_row(columns, screen, attribute, &at, drawn);
        if (reads > 0) {
            unsigned cells = at.dark ? reads - 1 : reads - 3;
            number_places(index, start, reads, row);
            number_places(index + PLACES, start, cells, row);
            if (!at.dark)
                number_places(index + PLACES, (start + cells + 1) % PLACES, 1, row);
        }
        if (replace(picture + row * RAINBOW_RECORD_BYTES, drawn))
            marks |= 1u << row;
    }
    return marks;
}

rainbow_stored best_store_with_index(rainbow_machine machine, uint8_t *shared, size_t shared_length, uint8_t *screen,
                                     size_t screen_length, uint8_t *attribute, size_t attribute_length,
                                     uint8_t *picture, size_t picture_length, uint8_t *index, size_t index_length,
                                     uint32_t address, uint8_t byte) {
    rainbow_stored stored = {RAINBOW_REFUSED_LENGTH, 0};
    if (picture_length != RAINBOW_PICTURE_BYTES || index_length != RAINBOW_INDEX_BYTES ||
        shared_length != RAINBOW_SHARED_BYTES || screen_length != RAINBOW_SCREEN_BYTES ||
        attribute_length != RAINBOW_ATTRIBUTE_BYTES)
        return stored;
    unsigned at = address - 0xEE000;
    if (machine.reset || at >= RAINBOW_INDEX_BYTES) {
        stored.refusal = plain_store_8088(machine, shared, shared_length, screen, screen_length, attribute,
                                          attribute_length, address, byte);
        return stored;
    }
    stored.refusal = RAINBOW_ACCEPTED;
    (at < PLACES ? screen : attribute)[at % PLACES] = byte;
    unsigned first = index[at];
    if (first < RAINBOW_ROWS)
        stored.marks = mend_both(machine.columns132 ? 132 : 80, screen, attribute, picture, index, first);
    return stored;
}

rainbow_stored_for_viewers best_store_with_index_for_viewers(
    rainbow_machine machine, rainbow_viewers viewers, uint8_t *shared, size_t shared_length, uint8_t *screen,
    size_t screen_length, uint8_t *attribute, size_t attribute_length, uint8_t *picture, size_t picture_length,
    uint8_t *index, size_t index_length, uint32_t address, uint8_t byte) {
    rainbow_stored_for_viewers served;
    served.stored = best_store_with_index(machine, shared, shared_length, screen, screen_length, attribute,
                                          attribute_length, picture, picture_length, index, index_length, address,
                                          byte);
    served.viewers = viewers;
    if (served.stored.marks != 0)
        for (int viewer = 0; viewer < RAINBOW_VIEWERS; viewer++)
            served.viewers.waiting[viewer] |= served.stored.marks;
    return served;
}
