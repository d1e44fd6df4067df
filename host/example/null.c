/* Every function that is lent buffers refuses NULL with length 0 by 1, with all other numbers 0. */
#include "rainbow.h"
#include <stdio.h>
#include <string.h>

static int wrong = 0;

static void expect(bool holds, const char *function)
{
    if (!holds) {
        printf("%s: NULL is not refused as it should be\n", function);
        wrong = 1;
    }
}

static bool same(rainbow_machine a, rainbow_machine b)
{
    return memcmp(&a, &b, sizeof a) == 0; /* eleven bytes, with none between them */
}

/* Viewers that a drawing or a store would change. */
static const rainbow_viewers viewers = {{0, 2, 4, 8, 16, 32, 64, 0x80000000}};

static bool unchanged(rainbow_viewers after)
{
    return memcmp(&after, &viewers, sizeof after) == 0;
}

int main(void)
{
    rainbow_machine machine = rainbow_vertical_tick(rainbow_power_up());
    for (int reset = 0; reset < 2; reset++) { /* 1 is ahead of 8 */
        machine.reset = reset == 1;
        rainbow_written written = rainbow_write_port(machine, NULL, 0, NULL, 0, 0x0C, 0x08);
        expect(written.refusal == 1 && same(written.machine, machine), "write_port");
        rainbow_byte_read read = rainbow_read_8088(machine, NULL, 0, NULL, 0, NULL, 0, 0xEE000);
        expect(read.refusal == 1 && read.byte == 0, "read_8088");
        expect(rainbow_store_8088(machine, NULL, 0, NULL, 0, NULL, 0, 0xEE000, 1) == 1, "store_8088");
        rainbow_stored stored = rainbow_store_with_picture(machine, NULL, 0, NULL, 0, NULL, 0, NULL, 0, 0xEE000, 1);
        expect(stored.refusal == 1 && stored.marks == 0, "store_with_picture");
        rainbow_stored_for_viewers served =
            rainbow_store_for_viewers(machine, viewers, NULL, 0, NULL, 0, NULL, 0, NULL, 0, 0xEE000, 1);
        stored = served.stored;
        expect(stored.refusal == 1 && stored.marks == 0 && unchanged(served.viewers), "store_for_viewers");
        stored = rainbow_store_with_index(machine, NULL, 0, NULL, 0, NULL, 0, NULL, 0, NULL, 0, 0xEE000, 1);
        expect(stored.refusal == 1 && stored.marks == 0, "store_with_index");
        served = rainbow_store_with_index_for_viewers(machine, viewers, NULL, 0, NULL, 0, NULL, 0, NULL, 0, NULL, 0,
                                                      0xEE000, 1);
        stored = served.stored;
        expect(stored.refusal == 1 && stored.marks == 0 && unchanged(served.viewers), "store_with_index_for_viewers");
        expect(rainbow_index_readers(machine, NULL, 0, NULL, 0, NULL, 0) == 1, "index_readers");
        read = rainbow_read_shadow(machine, NULL, 0, 0);
        expect(read.refusal == 1 && read.byte == 0, "read_shadow");
        expect(rainbow_write_shadow(machine, NULL, 0, 0, 1) == 1, "write_shadow");
    }
    for (uint8_t held = 0; held < 2; held++) { /* 1 is ahead of 7 */
        machine.held = held;
        rainbow_byte_read read = rainbow_read_z80(machine, NULL, 0, NULL, 0, 0x0800);
        expect(read.refusal == 1 && read.byte == 0, "read_z80");
        expect(rainbow_store_z80(machine, NULL, 0, NULL, 0, 0x0800, 1) == 1, "store_z80");
    }
    rainbow_drawn drawn = rainbow_draw(machine, NULL, 0, NULL, 0, NULL, 0);
    expect(drawn.refusal == 1 && drawn.reads == 0 && !drawn.wild && drawn.wild_row == 0, "draw");
    rainbow_drawn_for_viewers served = rainbow_draw_for_viewers(machine, viewers, NULL, 0, NULL, 0, NULL, 0);
    drawn = served.drawn;
    expect(drawn.refusal == 1 && drawn.reads == 0 && !drawn.wild && drawn.wild_row == 0 && unchanged(served.viewers),
           "draw_for_viewers");
    rainbow_part_place part = rainbow_glyph_part(NULL, 0, 0x41);
    expect(part.refusal == 1 && part.at == 0 && part.length == 0, "glyph_part");
    expect(rainbow_scan_line(machine, NULL, 0, NULL, 0, 0, 1, NULL, 0) == 1, "scan_line");
    for (uint8_t latch = 9; latch <= 10; latch++) { /* 1 is ahead of 9 */
        machine.latch = latch;
        expect(rainbow_list_lines(machine, NULL, 0, NULL, 0) == 1, "list_lines");
    }
    for (size_t row = 24; row <= 25; row++) { /* 1 is ahead of 5 */
        rainbow_explained why = rainbow_explain(machine, NULL, 0, NULL, 0, row, 131);
        expect(why.refusal == 1 && why.answer == 0 && why.place == 0 && why.kind == 0 && why.tore == 0 &&
                   !why.linked && why.link == 0, "explain");
    }
    if (wrong == 0)
        puts("NULL is refused by 1 everywhere");
    return wrong;
}
