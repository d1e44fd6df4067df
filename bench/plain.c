#include "plain.h"

#include <string.h>

enum { PLACES = 4096, PAIRS = 132 };

typedef struct {
    unsigned link; /* as it stands in memory: a place over 4095 is wild */
    unsigned kind;
    bool dark;
} head;

static unsigned capacity_of(unsigned columns, unsigned kind) { return (kind & 3) == 3 ? columns : columns / 2; }

static head link_after(const uint8_t *screen, const uint8_t *attribute, unsigned ff) {
    unsigned low = (ff + 1) % PLACES, high = (ff + 2) % PLACES;
    head next = {screen[low] | (unsigned)screen[high] << 8, attribute[low] & 7u, false};
    return next;
}

/* Draws one row, and says how many bytes of screen memory it read. */
static unsigned draw_row(unsigned columns, const uint8_t *screen, const uint8_t *attribute, head *at, uint8_t *record) {
    uint8_t *pair = record + RAINBOW_PAIRS_AT, *end = pair + 2 * PAIRS;
    unsigned reads = 0, cells = 0, start = at->link % PLACES;
    record[0] = (uint8_t)(start >> 8);
    record[1] = (uint8_t)start;
    record[RAINBOW_KIND_AT] = (uint8_t)at->kind;
    if (at->dark) {
        record[RAINBOW_COUNT_AT] = RAINBOW_DARK;
    } else {
        unsigned capacity = capacity_of(columns, at->kind), place = start;
        while (cells < capacity && screen[place] != 0xFF) {
            *pair++ = screen[place];
            *pair++ = attribute[place] & 15;
            place = (place + 1) % PLACES;
            cells++;
        }
        if (screen[place] == 0xFF) {
            record[RAINBOW_COUNT_AT] = (uint8_t)cells;
            *at = link_after(screen, attribute, place);
            reads = cells + 3;
        } else {
            record[RAINBOW_COUNT_AT] = RAINBOW_TORN;
            at->link = 0, at->kind = 3, at->dark = true;
            reads = capacity + 1;
        }
    }
    while (pair < end) {
        *pair++ = 0x20;
        *pair++ = 0x0E;
    }
    return reads;
}

rainbow_drawn plain_draw(rainbow_machine machine, const uint8_t *screen, size_t screen_length,
                         const uint8_t *attribute, size_t attribute_length, uint8_t *picture,
                         size_t picture_length) {
    rainbow_drawn drawn = {RAINBOW_REFUSED_LENGTH, 0, false, 0};
    if (screen_length != RAINBOW_SCREEN_BYTES || attribute_length != RAINBOW_ATTRIBUTE_BYTES ||
        picture_length != RAINBOW_PICTURE_BYTES)
        return drawn;
    head at = {0, 3, false};
    unsigned columns = machine.columns132 ? 132 : 80, reads = 0;
    for (int row = 0; row < RAINBOW_ROWS; row++) {
        reads += draw_row(columns, screen, attribute, &at, picture + row * RAINBOW_RECORD_BYTES);
        if (at.link >= PLACES && !drawn.wild) {
            drawn.wild = true;
            drawn.wild_row = (uint8_t)row;
        }
    }
    drawn.refusal = RAINBOW_ACCEPTED;
    drawn.reads = (uint16_t)reads;
    return drawn;
}

uint8_t plain_store_8088(rainbow_machine machine, uint8_t *shared, size_t shared_length, uint8_t *screen,
                         size_t screen_length, uint8_t *attribute, size_t attribute_length, uint32_t address,
                         uint8_t byte) {
    if (shared_length != RAINBOW_SHARED_BYTES || screen_length != RAINBOW_SCREEN_BYTES ||
        attribute_length != RAINBOW_ATTRIBUTE_BYTES)
        return RAINBOW_REFUSED_LENGTH;
    if (machine.reset)
        return RAINBOW_REFUSED_IN_RESET;
    if (address < 0x10000)
        shared[address] = byte;
    else if (address >= 0xEE000 && address < 0xEF000)
        screen[address - 0xEE000] = byte;
    else if (address >= 0xEF000 && address < 0xF0000)
        attribute[address - 0xEF000] = byte;
    else
        return RAINBOW_REFUSED_ADDRESS;
    return RAINBOW_ACCEPTED;
}

/* Passes one row, and says whether it reads a place of one of the two memories. */
static bool pass_row(unsigned columns, const uint8_t *screen, const uint8_t *attribute, head *at, bool beside,
                     unsigned place) {
    unsigned capacity = capacity_of(columns, at->kind), start = at->link, cells = 0;
    unsigned from = (place - start) % PLACES;
    while (cells < capacity && screen[(start + cells) % PLACES] != 0xFF)
        cells++;
    if (screen[(start + cells) % PLACES] != 0xFF) {
        at->dark = true;
        return from < capacity + !beside;
    }
    *at = link_after(screen, attribute, (start + cells) % PLACES);
    return beside ? from < cells || from == cells + 1 : from < cells + 3;
}

rainbow_stored plain_store_with_picture(rainbow_machine machine, uint8_t *shared, size_t shared_length,
                                        uint8_t *screen, size_t screen_length, uint8_t *attribute,
                                        size_t attribute_length, uint8_t *picture, size_t picture_length,
                                        uint32_t address, uint8_t byte) {
    rainbow_stored stored = {RAINBOW_REFUSED_LENGTH, 0};
    if (picture_length != RAINBOW_PICTURE_BYTES)
        return stored;
    if (machine.reset || address < 0xEE000 || address >= 0xF0000 || shared_length != RAINBOW_SHARED_BYTES ||
        screen_length != RAINBOW_SCREEN_BYTES || attribute_length != RAINBOW_ATTRIBUTE_BYTES) {
        stored.refusal = plain_store_8088(machine, shared, shared_length, screen, screen_length, attribute,
                                          attribute_length, address, byte);
        return stored;
    }
    unsigned columns = machine.columns132 ? 132 : 80, row = 0;
    bool beside = address >= 0xEF000;
    head at = {0, 3, false}, before = at;
    bool found = false;
    for (; !found && row < RAINBOW_ROWS && !at.dark; row += !found) {
        before = at;
        found = pass_row(columns, screen, attribute, &at, beside, address % PLACES);
    }
    if (!found)
        row = RAINBOW_ROWS;
    (beside ? attribute : screen)[address % PLACES] = byte;
    stored.refusal = RAINBOW_ACCEPTED;
    for (at = before; row < RAINBOW_ROWS; row++) {
        uint8_t drawn[RAINBOW_RECORD_BYTES], *record = picture + row * RAINBOW_RECORD_BYTES;
        draw_row(columns, screen, attribute, &at, drawn);
        if (memcmp(record, drawn, sizeof drawn) != 0) {
            memcpy(record, drawn, sizeof drawn);
            stored.marks |= 1u << row;
        }
    }
    return stored;
}

uint8_t plain_scan_line(rainbow_machine machine, const uint8_t *picture, size_t picture_length,
                        const uint8_t *table, size_t table_length, size_t row, size_t scan, uint8_t *line,
                        size_t line_length) {
    if (picture_length != RAINBOW_PICTURE_BYTES || table_length != RAINBOW_GLYPH_BYTES ||
        line_length != RAINBOW_LINE_BYTES)
        return RAINBOW_REFUSED_LENGTH;
    if (row >= RAINBOW_ROWS || scan < RAINBOW_FIRST_SCAN || scan > RAINBOW_LAST_SCAN)
        return RAINBOW_REFUSED_PLACE;
    const uint8_t *record = picture + row * RAINBOW_RECORD_BYTES;
    if ((machine.held & 2) == 0 || (machine.held & 4) != 0 || record[RAINBOW_COUNT_AT] == RAINBOW_DARK) {
        memset(line, 0, RAINBOW_LINE_BYTES);
        return RAINBOW_ACCEPTED;
    }
    unsigned kind = record[RAINBOW_KIND_AT] & 3, columns = machine.columns132 ? 132 : 80;
    unsigned shown = (unsigned)scan, fill = machine.columns132 ? 1 : 2;
    if (kind == 0)
        shown = shown / 2 + shown % 2 + 5;
    else if (kind == 1)
        shown = shown / 2 + shown % 2;
    unsigned address = (shown + 14) % 16, cells = capacity_of(columns, kind);
    uint8_t *dot = line;
    for (unsigned cell = 0; cell < cells; cell++) {
        uint8_t code = record[RAINBOW_PAIRS_AT + 2 * cell], attribute = record[RAINBOW_PAIRS_AT + 2 * cell + 1];
        uint8_t glyph = table[code * 16u + address];
        uint8_t lit = (attribute & 2) ? 2 : 3;
        if (!(attribute & 4) && machine.blink)
            lit--;
        if (!(attribute & 8) && shown == 9)
            glyph = 0xFF;
        if ((attribute & 1) ^ machine.reverse)
            glyph = (uint8_t)~glyph;
        if (kind == 3) {
            for (int bit = 7; bit >= 0; bit--)
                *dot++ = (glyph >> bit & 1) ? lit : 0;
            for (unsigned again = 0; again < fill; again++)
                *dot++ = (glyph & 1) ? lit : 0;
        } else {
            for (int bit = 7; bit >= 0; bit--) {
                *dot++ = (glyph >> bit & 1) ? lit : 0;
                *dot++ = (glyph >> bit & 1) ? lit : 0;
            }
            for (unsigned again = 0; again < 2 * fill; again++)
                *dot++ = (glyph & 1) ? lit : 0;
        }
    }
    memset(dot, 0, (size_t)(line + RAINBOW_LINE_BYTES - dot));
    return RAINBOW_ACCEPTED;
}

static bool scrolls(const uint8_t *picture, unsigned row) {
    return (picture[row * RAINBOW_RECORD_BYTES + RAINBOW_KIND_AT] & 4) != 0;
}

uint8_t plain_list_lines(rainbow_machine machine, const uint8_t *picture, size_t picture_length, uint8_t *list,
                         size_t list_length) {
    if (picture_length != RAINBOW_PICTURE_BYTES || list_length != RAINBOW_LIST_BYTES)
        return RAINBOW_REFUSED_LENGTH;
    unsigned latch = machine.latch % 16u, first = 0;
    if (latch > 9)
        return RAINBOW_REFUSED_LATCH;
    while (first < RAINBOW_ROWS && !scrolls(picture, first))
        first++;
    unsigned end = first;
    while (end < RAINBOW_ROWS && scrolls(picture, end))
        end++;
    bool at_rest = first == end || latch == 0;
    unsigned rows = at_rest ? RAINBOW_ROWS_AT_REST : RAINBOW_ROWS;
    for (unsigned row = 0; row < rows; row++) {
        unsigned from = RAINBOW_FIRST_SCAN, to = RAINBOW_LAST_SCAN;
        if (!at_rest && row == first)
            from += latch;
        if (!at_rest && row + 1 == end)
            to = latch;
        for (unsigned scan = from; scan <= to; scan++) {
            *list++ = (uint8_t)row;
            *list++ = (uint8_t)scan;
        }
    }
    return RAINBOW_ACCEPTED;
}

rainbow_explained plain_explain(rainbow_machine machine, const uint8_t *screen, size_t screen_length,
                                const uint8_t *attribute, size_t attribute_length, size_t row, size_t column) {
    rainbow_explained why = {RAINBOW_REFUSED_LENGTH, 0, 0, 0, 0, false, 0};
    if (screen_length != RAINBOW_SCREEN_BYTES || attribute_length != RAINBOW_ATTRIBUTE_BYTES)
        return why;
    why.refusal = RAINBOW_REFUSED_PLACE;
    if (row >= RAINBOW_ROWS || column >= RAINBOW_COLUMNS)
        return why;
    why.refusal = RAINBOW_ACCEPTED;
    unsigned columns = machine.columns132 ? 132 : 80;
    head at = {0, 3, false};
    for (unsigned passed = 0;; passed++) {
        unsigned start = at.link % PLACES, capacity = capacity_of(columns, at.kind), cells = 0;
        while (cells < capacity && screen[(start + cells) % PLACES] != 0xFF)
            cells++;
        unsigned end = (start + cells) % PLACES;
        bool torn = screen[end] != 0xFF;
        if (passed == row) {
            if (column >= capacity) {
                why.answer = RAINBOW_WHY_PAST;
            } else if (!torn && column >= cells) {
                why.answer = RAINBOW_WHY_FILL;
                why.place = (uint16_t)end;
            } else {
                why.answer = RAINBOW_WHY_CELL;
                why.place = (uint16_t)((start + column) % PLACES);
                why.kind = (uint8_t)at.kind;
            }
            return why;
        }
        if (torn) {
            rainbow_explained dark = {RAINBOW_ACCEPTED, RAINBOW_WHY_DARK, 0, 0, (uint8_t)passed, false, 0};
            return dark;
        }
        at = link_after(screen, attribute, end);
        why.linked = true;
        why.link = (uint16_t)((end + 1) % PLACES);
    }
}

rainbow_asked plain_ask(rainbow_viewers viewers, size_t viewer) {
    rainbow_asked asked = {RAINBOW_REFUSED_VIEWER, 0, viewers};
    if (viewer >= RAINBOW_VIEWERS)
        return asked;
    asked.refusal = RAINBOW_ACCEPTED;
    asked.marks = asked.viewers.waiting[viewer];
    asked.viewers.waiting[viewer] = 0;
    return asked;
}

rainbow_drawn_for_viewers plain_draw_for_viewers(rainbow_machine machine, rainbow_viewers viewers,
                                                 const uint8_t *screen, size_t screen_length, const uint8_t *attribute,
                                                 size_t attribute_length, uint8_t *picture, size_t picture_length) {
    rainbow_drawn_for_viewers served = {
        plain_draw(machine, screen, screen_length, attribute, attribute_length, picture, picture_length), viewers};
    if (served.drawn.refusal == RAINBOW_ACCEPTED)
        for (int viewer = 0; viewer < RAINBOW_VIEWERS; viewer++)
            served.viewers.waiting[viewer] = (1u << RAINBOW_ROWS) - 1;
    return served;
}

rainbow_stored_for_viewers plain_store_for_viewers(rainbow_machine machine, rainbow_viewers viewers, uint8_t *shared,
                                                   size_t shared_length, uint8_t *screen, size_t screen_length,
                                                   uint8_t *attribute, size_t attribute_length, uint8_t *picture,
                                                   size_t picture_length, uint32_t address, uint8_t byte) {
    rainbow_stored_for_viewers served = {plain_store_with_picture(machine, shared, shared_length, screen, screen_length,
                                                                  attribute, attribute_length, picture, picture_length,
                                                                  address, byte), viewers};
    for (int viewer = 0; viewer < RAINBOW_VIEWERS; viewer++)
        served.viewers.waiting[viewer] |= served.stored.marks;
    return served;
}

/* Writes a row's number to the entries of so many places from a start on, where none stands yet. */
static void number_places(uint8_t *entries, unsigned start, unsigned bytes, unsigned row) {
    for (unsigned i = 0; i < bytes; i++) {
        uint8_t *entry = &entries[(start + i) % PLACES];
        if (*entry == RAINBOW_NO_ROW)
            *entry = (uint8_t)row;
    }
}

/* Passes one row, and writes its number to the entries of all that it reads. */
static void index_row(unsigned columns, const uint8_t *screen, const uint8_t *attribute, head *at, unsigned row,
                      uint8_t *index) {
    if (at->dark)
        return;
    unsigned capacity = capacity_of(columns, at->kind), start = at->link % PLACES, cells = 0;
    while (cells < capacity && screen[(start + cells) % PLACES] != 0xFF)
        cells++;
    number_places(index + PLACES, start, cells, row);
    if (screen[(start + cells) % PLACES] != 0xFF) {
        number_places(index, start, capacity + 1, row);
        at->link = 0, at->kind = 3, at->dark = true;
        return;
    }
    number_places(index, start, cells + 3, row);
    number_places(index + PLACES, start + cells + 1, 1, row);
    *at = link_after(screen, attribute, (start + cells) % PLACES);
}

uint8_t plain_index_readers(rainbow_machine machine, const uint8_t *screen, size_t screen_length,
                            const uint8_t *attribute, size_t attribute_length, uint8_t *index, size_t index_length) {
    if (screen_length != RAINBOW_SCREEN_BYTES || attribute_length != RAINBOW_ATTRIBUTE_BYTES ||
        index_length != RAINBOW_INDEX_BYTES)
        return RAINBOW_REFUSED_LENGTH;
    head at = {0, 3, false};
    for (unsigned place = 0; place < RAINBOW_INDEX_BYTES; place++)
        index[place] = RAINBOW_NO_ROW;
    for (unsigned row = 0; row < RAINBOW_ROWS; row++)
        index_row(machine.columns132 ? 132 : 80, screen, attribute, &at, row, index);
    return RAINBOW_ACCEPTED;
}

rainbow_stored plain_store_with_index(rainbow_machine machine, uint8_t *shared, size_t shared_length, uint8_t *screen,
                                      size_t screen_length, uint8_t *attribute, size_t attribute_length,
                                      uint8_t *picture, size_t picture_length, uint8_t *index, size_t index_length,
                                      uint32_t address, uint8_t byte) {
    rainbow_stored stored = {RAINBOW_REFUSED_LENGTH, 0};
    if (picture_length != RAINBOW_PICTURE_BYTES || index_length != RAINBOW_INDEX_BYTES)
        return stored;
    stored.refusal = plain_store_8088(machine, shared, shared_length, screen, screen_length, attribute,
                                      attribute_length, address, byte);
    if (stored.refusal != RAINBOW_ACCEPTED || address < 0xEE000)
        return stored;
    unsigned columns = machine.columns132 ? 132 : 80, first = index[address - 0xEE000];
    if (first >= RAINBOW_ROWS)
        return stored;
    for (unsigned place = 0; place < RAINBOW_INDEX_BYTES; place++)
        if (index[place] >= first)
            index[place] = RAINBOW_NO_ROW;
    head at = {0, 3, false};
    for (unsigned row = 0; row < RAINBOW_ROWS; row++) {
        head before = at;
        index_row(columns, screen, attribute, &at, row, index);
        if (row < first)
            continue;
        uint8_t drawn[RAINBOW_RECORD_BYTES], *record = picture + row * RAINBOW_RECORD_BYTES;
        draw_row(columns, screen, attribute, &before, drawn);
        if (memcmp(record, drawn, sizeof drawn) != 0) {
            memcpy(record, drawn, sizeof drawn);
            stored.marks |= 1u << row;
        }
    }
    return stored;
}

rainbow_stored_for_viewers plain_store_with_index_for_viewers(
    rainbow_machine machine, rainbow_viewers viewers, uint8_t *shared, size_t shared_length, uint8_t *screen,
    size_t screen_length, uint8_t *attribute, size_t attribute_length, uint8_t *picture, size_t picture_length,
    uint8_t *index, size_t index_length, uint32_t address, uint8_t byte) {
    rainbow_stored_for_viewers served = {plain_store_with_index(machine, shared, shared_length, screen, screen_length,
                                                                attribute, attribute_length, picture, picture_length,
                                                                index, index_length, address, byte), viewers};
    for (int viewer = 0; viewer < RAINBOW_VIEWERS; viewer++)
        served.viewers.waiting[viewer] |= served.stored.marks;
    return served;
}
