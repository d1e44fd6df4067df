/* What the library of `make library` takes beside what the header asks of a caller: NULL with any length is refused by
 * 1, and so is a length that no buffer can have; a bool of any byte but 0 is true. */
#include "rainbow.h"
#include <stdio.h>
#include <string.h>

static uint8_t shared[RAINBOW_SHARED_BYTES], screen[RAINBOW_SCREEN_BYTES], attribute[RAINBOW_ATTRIBUTE_BYTES];
static uint8_t private_memory[RAINBOW_PRIVATE_BYTES], glyphs[RAINBOW_GLYPH_BYTES];
static uint8_t nvm[RAINBOW_NVM_BYTES], shadow[RAINBOW_SHADOW_BYTES];
static uint8_t picture[RAINBOW_PICTURE_BYTES], line[RAINBOW_LINE_BYTES], list[RAINBOW_LIST_BYTES];
static uint8_t index_bytes[RAINBOW_INDEX_BYTES];
static int wrong = 0;

static void expect(bool holds, const char *what)
{
    if (!holds) {
        printf("%s is not as it should be\n", what);
        wrong = 1;
    }
}

/* A buffer of which one at a time is lent as something else. */
typedef struct {
    uint8_t *bytes;
    size_t length;
} buffer;

enum { BUFFERS = 11 };
static const buffer right[BUFFERS] = {
    {shared, sizeof shared}, {private_memory, sizeof private_memory}, {screen, sizeof screen},
    {attribute, sizeof attribute}, {glyphs, sizeof glyphs}, {nvm, sizeof nvm}, {shadow, sizeof shadow},
    {picture, sizeof picture}, {line, sizeof line}, {list, sizeof list}, {index_bytes, sizeof index_bytes}};

/* The two calls that serve viewers, with the refusals that they have to have. */
static void serve_all(rainbow_machine m, const buffer *s, const buffer *c, const buffer *a, const buffer *p,
                      uint8_t draw, uint8_t store)
{
    rainbow_viewers none = {{0}}, all = rainbow_start_viewers();
    rainbow_drawn_for_viewers drawn = rainbow_draw_for_viewers(m, none, c->bytes, c->length, a->bytes, a->length,
                                                               p->bytes, p->length);
    expect(drawn.drawn.refusal == draw, "draw_for_viewers");
    expect(memcmp(&drawn.viewers, draw == 0 ? &all : &none, sizeof all) == 0, "the viewers of draw_for_viewers");
    rainbow_stored_for_viewers stored =
        rainbow_store_for_viewers(m, none, s->bytes, s->length, c->bytes, c->length, a->bytes, a->length, p->bytes,
                                  p->length, 0xEE000, (uint8_t)(screen[0] ^ 1));
    expect(stored.stored.refusal == store && (stored.stored.marks != 0) == (store == 0), "store_for_viewers");
    for (size_t viewer = 0; viewer < RAINBOW_VIEWERS; viewer++)
        expect(stored.viewers.waiting[viewer] == stored.stored.marks, "the viewers of store_for_viewers");
}

/* The calls that are lent an index, with the refusals that they have to have. With an index worked out just before, the
 * store marks row 0. */
static void index_all(rainbow_machine m, const buffer *s, const buffer *c, const buffer *a, const buffer *p,
                      const buffer *i, uint8_t afresh, uint8_t store)
{
    rainbow_viewers none = {{0}};
    expect(rainbow_index_readers(m, c->bytes, c->length, a->bytes, a->length, i->bytes, i->length) == afresh,
           "index_readers");
    rainbow_stored stored =
        rainbow_store_with_index(m, s->bytes, s->length, c->bytes, c->length, a->bytes, a->length, p->bytes, p->length,
                                 i->bytes, i->length, 0xEE000, (uint8_t)(screen[0] ^ 1));
    expect(stored.refusal == store && (stored.marks != 0) == (store == 0), "store_with_index");
    rainbow_stored_for_viewers served = rainbow_store_with_index_for_viewers(
        m, none, s->bytes, s->length, c->bytes, c->length, a->bytes, a->length, p->bytes, p->length, i->bytes,
        i->length, 0xEE000, (uint8_t)(screen[0] ^ 1));
    stored = served.stored;
    expect(stored.refusal == store && (stored.marks != 0) == (store == 0), "store_with_index_for_viewers");
    for (size_t viewer = 0; viewer < RAINBOW_VIEWERS; viewer++)
        expect(served.viewers.waiting[viewer] == stored.marks, "the viewers of store_with_index_for_viewers");
}

/* Whether a call with these buffers is refused by 1, if it is lent buffer `other`, and accepted if not; or refused by
 * 7, if it is the Z80's and the Z80 is held, by 8, if it is the 8088's and the 8088 is in reset, by 9, if it is the
 * whole screen's and the latch is over 9, or by 5, if a cell of row 25 is asked for. */
static void call_all(const buffer *b, int other, bool reset)
{
    rainbow_machine m = rainbow_power_up();
    m.reset = reset;
    uint8_t otherwise = reset ? 8 : 0; /* of a call of the 8088 */
    const buffer *s = b, *z = b + 1, *c = b + 2, *a = b + 3, *g = b + 4, *n = b + 5, *h = b + 6, *p = b + 7, *l = b + 8,
                 *w = b + 9, *i = b + 10;
    bool main_three = other == 0 || other == 2 || other == 3;
    uint8_t wanted = main_three ? 1 : otherwise;
    expect(rainbow_read_8088(m, s->bytes, s->length, c->bytes, c->length, a->bytes, a->length, 5).refusal == wanted,
           "read_8088");
    expect(rainbow_store_8088(m, s->bytes, s->length, c->bytes, c->length, a->bytes, a->length, 5, 1) == wanted,
           "store_8088");
    for (uint8_t held = 0; held < 2; held++) {
        rainbow_machine with_z80 = m;
        with_z80.held = held;
        wanted = other < 2 ? 1 : held == 0 ? 7 : 0;
        expect(rainbow_read_z80(with_z80, z->bytes, z->length, s->bytes, s->length, 5).refusal == wanted, "read_z80");
        expect(rainbow_store_z80(with_z80, z->bytes, z->length, s->bytes, s->length, 5, 1) == wanted, "store_z80");
    }
    wanted = other == 6 ? 1 : otherwise;
    expect(rainbow_read_shadow(m, h->bytes, h->length, 5).refusal == wanted, "read_shadow");
    expect(rainbow_write_shadow(m, h->bytes, h->length, 5, 1) == wanted, "write_shadow");
    wanted = other == 5 || other == 6 ? 1 : otherwise;
    expect(rainbow_write_port(m, h->bytes, h->length, n->bytes, n->length, 0x0A, 0x40).refusal == wanted, "write_port");
    bool main_two = other == 2 || other == 3;
    rainbow_drawn drawn = rainbow_draw(m, c->bytes, c->length, a->bytes, a->length, p->bytes, p->length);
    expect(drawn.refusal == (main_two || other == 7), "draw");
    expect(drawn.wild == (drawn.refusal == 0) && drawn.wild_row == 0, "the wild row of draw");
    for (size_t row = 24; row <= 25; row++) {
        rainbow_explained why = rainbow_explain(m, c->bytes, c->length, a->bytes, a->length, row, 5);
        expect(why.refusal == (main_two ? 1 : row == 25 ? 5 : 0), "explain");
        bool told = why.refusal == 0; /* every row starts at 0, has its FF at 5, and leads to the next one */
        expect(why.answer == (told ? RAINBOW_WHY_FILL : 0) && why.place == (told ? 5 : 0) && why.linked == told &&
                   why.link == (told ? 6 : 0) && why.kind == 0 && why.tore == 0, "the answer of explain");
    }
    wanted = main_three || other == 7 ? 1 : otherwise;
    expect(rainbow_store_with_picture(m, s->bytes, s->length, c->bytes, c->length, a->bytes, a->length, p->bytes,
                                      p->length, 0xEE000, 1).refusal == wanted, "store_with_picture");
    serve_all(m, s, c, a, p, drawn.refusal, wanted);
    index_all(m, s, c, a, p, i, main_two || other == 10, other == 10 ? 1 : wanted);
    expect(rainbow_glyph_part(g->bytes, g->length, 5).refusal == (other == 4), "glyph_part");
    expect(rainbow_scan_line(m, p->bytes, p->length, g->bytes, g->length, 5, 5, l->bytes, l->length) ==
               (other == 4 || other == 7 || other == 8), "scan_line");
    for (uint8_t latch = 9; latch <= 10; latch++) {
        m.latch = latch;
        wanted = other == 7 || other == 9 ? 1 : latch > 9 ? 9 : 0;
        expect(rainbow_list_lines(m, p->bytes, p->length, w->bytes, w->length) == wanted, "list_lines");
    }
}

static void lengths(void)
{
    for (int other = 0; other < BUFFERS; other++) {
        const buffer others[] = {{NULL, right[other].length},      {NULL, SIZE_MAX},
                                 {right[other].bytes, SIZE_MAX},   {right[other].bytes, SIZE_MAX / 2 + 1},
                                 {right[other].bytes, SIZE_MAX / 2}};
        for (size_t way = 0; way < sizeof others / sizeof others[0]; way++) {
            buffer lent[BUFFERS];
            memcpy(lent, right, sizeof lent);
            lent[other] = others[way];
            call_all(lent, other, false);
            call_all(lent, other, true);
        }
    }
}

/* A machine with a field set to a byte, of which C makes no bool. */
static rainbow_machine with(size_t field, uint8_t byte)
{
    rainbow_machine machine = rainbow_power_up();
    memcpy((uint8_t *)&machine + field, &byte, 1);
    return machine;
}

/* A watchdog that is enabled by a byte, and a reset that is one. */
static void watchdog(uint8_t byte)
{
    rainbow_machine enabled = with(offsetof(rainbow_machine, watchdog), byte);
    rainbow_machine reset = with(offsetof(rainbow_machine, reset), byte);
    rainbow_machine after = rainbow_watchdog_tick(enabled);
    expect(after.count == (byte != 0) && after.watchdog == (byte != 0), "watchdog_tick, enabled by a byte");
    after = rainbow_watchdog_tick(reset);
    expect(after.count == (byte != 0) && after.reset == (byte != 0), "watchdog_tick, in reset by a byte");
    reset.count = 127;
    after = rainbow_watchdog_tick(reset);
    expect(after.count == 0 && !after.reset, "watchdog_tick, at the end of reset by a byte");
    expect(rainbow_read_shadow(reset, shadow, sizeof shadow, 5).refusal == (byte ? 8 : 0), "reset by a byte");
}

static void bools(void)
{
    for (int byte = 0; byte < 256; byte++) {
        for (size_t field = 0; field < sizeof(rainbow_machine); field++) {
            rainbow_machine after = rainbow_vertical_tick(with(field, (uint8_t)byte));
            uint8_t bytes[sizeof after];
            memcpy(bytes, &after, sizeof after);
            bool number = field == offsetof(rainbow_machine, latch) || field == offsetof(rainbow_machine, count) ||
                          field == offsetof(rainbow_machine, held);
            expect(field == 5 || bytes[field] == (number ? byte : byte != 0), "a field of the machine");
            expect(bytes[5] == 1, "the vertical interrupt");
        }
        expect(rainbow_columns(with(0, (uint8_t)byte)) == (byte ? 132 : 80), "columns");
        expect(rainbow_dots_of_line(with(0, (uint8_t)byte)) == (byte ? 1188 : 800), "dots_of_line");
        expect(rainbow_z80_runs(with(offsetof(rainbow_machine, held), (uint8_t)byte)) == byte % 2, "z80_runs");
        watchdog((uint8_t)byte);
    }
}

int main(void)
{
    memcpy(screen + 5, "\xFF\x00\x10", 3); /* the link of row 0 is wild */
    call_all(right, BUFFERS, false);
    call_all(right, BUFFERS, true);
    lengths();
    bools();
    if (wrong == 0)
        puts("NULL and lengths that cannot be are refused by 1; every byte is a bool");
    return wrong;
}
