/* Makes calls of librainbow for a tester in another process: reads a call with the bytes that it is lent from standard
 * input, makes it, and writes the answer and those bytes, until the input ends. So the kit's archive is tried in a
 * program that the kit's own compiler and linker make. It uses no header of the C library, since the kit has none.
 * host/src/rainbow/served.rs has the other end.
 *
 * A call: the function's number, the machine, two numbers, the viewers, how many buffers, and for each whether there is
 * one, its length and its bytes. An answer: the refusal, two numbers, the machine, what a drawing says of a wild link,
 * which is two bytes, what is said of a cell that is explained, eight bytes, the viewers, and the bytes of each buffer.
 * Numbers have eight bytes, the marks of a viewer four, places of screen memory two, the lowest first. */
#include "rainbow.h"

long read(int file, void *bytes, size_t length);
long write(int file, const void *bytes, size_t length);

enum { GUARD = 64, MOST = 2 * RAINBOW_SHARED_BYTES, BUFFERS = 5, FUNCTIONS = 31, FIRST_OF_VIEWERS = 26 };

/* Each buffer has bytes before it and after it that no call may change. */
static uint8_t memory[BUFFERS][GUARD + MOST + GUARD];
static uint8_t *lent[BUFFERS];
static size_t length[BUFFERS];

static bool take(void *into, size_t bytes)
{
    size_t done = 0;
    while (done < bytes) {
        long more = read(0, (uint8_t *)into + done, bytes - done);
        if (more <= 0)
            return false;
        done += (size_t)more;
    }
    return true;
}

static bool give(const void *from, size_t bytes)
{
    size_t done = 0;
    while (done < bytes) {
        long more = write(1, (const uint8_t *)from + done, bytes - done);
        if (more <= 0)
            return false;
        done += (size_t)more;
    }
    return true;
}

static bool take_bytes(uint64_t *number, size_t many)
{
    uint8_t bytes[8];
    if (!take(bytes, many))
        return false;
    *number = 0;
    for (size_t at = many; at > 0; at--)
        *number = *number << 8 | bytes[at - 1];
    return true;
}

static bool take_number(uint64_t *number)
{
    return take_bytes(number, 8);
}

static bool take_viewers(rainbow_viewers *viewers)
{
    uint64_t marks;
    for (int viewer = 0; viewer < RAINBOW_VIEWERS; viewer++) {
        if (!take_bytes(&marks, 4))
            return false;
        viewers->waiting[viewer] = (uint32_t)marks;
    }
    return true;
}

static bool give_bytes(uint64_t number, size_t many)
{
    uint8_t bytes[8];
    for (size_t at = 0; at < many; at++)
        bytes[at] = (uint8_t)(number >> 8 * at);
    return give(bytes, many);
}

static bool give_number(uint64_t number)
{
    return give_bytes(number, 8);
}

static bool give_viewers(const rainbow_viewers *viewers)
{
    for (int viewer = 0; viewer < RAINBOW_VIEWERS; viewer++)
        if (!give_bytes(viewers->waiting[viewer], 4))
            return false;
    return true;
}

static uint8_t guard(int buffer, size_t at)
{
    return (uint8_t)(at * 37 + (size_t)buffer * 21 + 11);
}

static bool take_buffer(int buffer)
{
    uint8_t there;
    uint64_t bytes;
    if (!take(&there, 1) || !take_number(&bytes) || bytes > MOST)
        return false;
    length[buffer] = (size_t)bytes;
    lent[buffer] = there ? memory[buffer] + GUARD : NULL;
    for (size_t at = 0; at < GUARD; at++) {
        memory[buffer][at] = guard(buffer, at);
        memory[buffer][GUARD + length[buffer] + at] = guard(buffer, at);
    }
    return take(memory[buffer] + GUARD, length[buffer]);
}

static bool is_guarded(int buffer)
{
    for (size_t at = 0; at < GUARD; at++)
        if (memory[buffer][at] != guard(buffer, at) ||
            memory[buffer][GUARD + length[buffer] + at] != guard(buffer, at))
            return false;
    return true;
}

/* What a call answers. */
typedef struct {
    uint8_t refusal;
    uint64_t value, length;
    rainbow_machine machine;
    rainbow_drawn drawn;
    rainbow_explained explained;
    rainbow_viewers viewers;
} answer;

static answer read_byte(rainbow_byte_read read)
{
    answer a = {read.refusal, read.byte, 0, {0}, {0}, {0}, {{0}}};
    return a;
}

/* A bool goes out as the byte that it is. */
static bool give_explained(rainbow_explained why)
{
    uint8_t linked = *(const uint8_t *)&why.linked;
    uint8_t bytes[8] = {why.answer, (uint8_t)why.place, (uint8_t)(why.place >> 8), why.kind,
                        why.tore,   linked,             (uint8_t)why.link,         (uint8_t)(why.link >> 8)};
    return give(bytes, sizeof bytes);
}

/* The functions of the viewers by their numbers. */
static answer serve_viewers(uint8_t function, rainbow_machine machine, rainbow_viewers viewers, uint64_t m, uint64_t n)
{
    uint8_t **b = lent;
    size_t *l = length;
    answer a = {0, 0, 0, {0}, {0}, {0}, {{0}}};
    switch (function) {
    case 26: a.viewers = rainbow_start_viewers(); break;
    case 27: {
        rainbow_asked asked = rainbow_ask(viewers, m);
        a.refusal = asked.refusal;
        a.value = asked.marks;
        a.viewers = asked.viewers;
        break;
    }
    case 28: {
        rainbow_drawn_for_viewers served =
            rainbow_draw_for_viewers(machine, viewers, b[0], l[0], b[1], l[1], b[2], l[2]);
        a.drawn = served.drawn;
        a.refusal = a.drawn.refusal;
        a.value = a.drawn.reads;
        a.viewers = served.viewers;
        break;
    }
    default: {
        rainbow_stored_for_viewers served =
            function == 29
                ? rainbow_store_for_viewers(machine, viewers, b[0], l[0], b[1], l[1], b[2], l[2], b[3], l[3],
                                            (uint32_t)m, (uint8_t)n)
                : rainbow_store_with_index_for_viewers(machine, viewers, b[0], l[0], b[1], l[1], b[2], l[2], b[3],
                                                       l[3], b[4], l[4], (uint32_t)m, (uint8_t)n);
        a.refusal = served.stored.refusal;
        a.value = served.stored.marks;
        a.viewers = served.viewers;
    }
    }
    return a;
}

/* The other functions by their numbers. */
static answer call(uint8_t function, rainbow_machine machine, uint64_t m, uint64_t n)
{
    uint8_t **b = lent;
    size_t *l = length;
    answer a = {0, 0, 0, {0}, {0}, {0}, {{0}}};
    switch (function) {
    case 0: a.value = rainbow_version(); break;
    case 1: a.machine = rainbow_power_up(); break;
    case 2: a.machine = rainbow_vertical_tick(machine); break;
    case 3: a.machine = rainbow_watchdog_tick(machine); break;
    case 4: a.value = rainbow_columns(machine); break;
    case 5: a.value = rainbow_z80_runs(machine); break;
    case 6: a.value = rainbow_blanked(machine); break;
    case 7: a.value = rainbow_graphics(machine); break;
    case 8: a.value = rainbow_scroll_latch(machine); break;
    case 9: a.value = rainbow_dots_of_line(machine); break;
    case 10: {
        rainbow_written written = rainbow_write_port(machine, b[0], l[0], b[1], l[1], (uint16_t)m, (uint8_t)n);
        a.refusal = written.refusal;
        a.machine = written.machine;
        break;
    }
    case 11: return read_byte(rainbow_read_8088(machine, b[0], l[0], b[1], l[1], b[2], l[2], (uint32_t)m));
    case 12:
        a.refusal = rainbow_store_8088(machine, b[0], l[0], b[1], l[1], b[2], l[2], (uint32_t)m, (uint8_t)n);
        break;
    case 13: return read_byte(rainbow_read_z80(machine, b[0], l[0], b[1], l[1], (uint16_t)m));
    case 14: a.refusal = rainbow_store_z80(machine, b[0], l[0], b[1], l[1], (uint16_t)m, (uint8_t)n); break;
    case 15: return read_byte(rainbow_read_shadow(machine, b[0], l[0], m));
    case 16: a.refusal = rainbow_write_shadow(machine, b[0], l[0], m, (uint8_t)n); break;
    case 17:
        a.drawn = rainbow_draw(machine, b[0], l[0], b[1], l[1], b[2], l[2]);
        a.refusal = a.drawn.refusal;
        a.value = a.drawn.reads;
        break;
    case 18: {
        rainbow_stored stored = rainbow_store_with_picture(machine, b[0], l[0], b[1], l[1], b[2], l[2], b[3], l[3],
                                                           (uint32_t)m, (uint8_t)n);
        a.refusal = stored.refusal;
        a.value = stored.marks;
        break;
    }
    case 19: a.value = rainbow_is_marked((uint32_t)m, n); break;
    case 20: {
        rainbow_part_place part = rainbow_glyph_part(b[0], l[0], (uint8_t)m);
        a.refusal = part.refusal;
        a.value = part.at;
        a.length = part.length;
        break;
    }
    case 21: a.refusal = rainbow_scan_line(machine, b[0], l[0], b[1], l[1], m, n, b[2], l[2]); break;
    case 22: a.refusal = rainbow_list_lines(machine, b[0], l[0], b[1], l[1]); break;
    case 23:
        a.explained = rainbow_explain(machine, b[0], l[0], b[1], l[1], m, n);
        a.refusal = a.explained.refusal;
        break;
    case 24: a.refusal = rainbow_index_readers(machine, b[0], l[0], b[1], l[1], b[2], l[2]); break;
    default: {
        rainbow_stored stored = rainbow_store_with_index(machine, b[0], l[0], b[1], l[1], b[2], l[2], b[3], l[3], b[4],
                                                         l[4], (uint32_t)m, (uint8_t)n);
        a.refusal = stored.refusal;
        a.value = stored.marks;
    }
    }
    return a;
}

/* Makes one call; false if the input ends, if it is no call, or if a byte outside of a buffer changed. */
static bool serve(void)
{
    uint8_t function, buffers;
    rainbow_machine machine;
    rainbow_viewers viewers;
    uint64_t m, n;
    if (!take(&function, 1) || function >= FUNCTIONS || !take(&machine, sizeof machine))
        return false;
    if (!take_number(&m) || !take_number(&n) || !take_viewers(&viewers) || !take(&buffers, 1) || buffers > BUFFERS)
        return false;
    for (int buffer = 0; buffer < buffers; buffer++)
        if (!take_buffer(buffer))
            return false;
    answer a = function < FIRST_OF_VIEWERS ? call(function, machine, m, n)
                                           : serve_viewers(function, machine, viewers, m, n);
    if (!give(&a.refusal, 1) || !give_number(a.value) || !give_number(a.length) ||
        !give(&a.machine, sizeof a.machine) || !give(&a.drawn.wild, 1) || !give(&a.drawn.wild_row, 1) ||
        !give_explained(a.explained) || !give_viewers(&a.viewers))
        return false;
    for (int buffer = 0; buffer < buffers; buffer++)
        if (!is_guarded(buffer) || !give(memory[buffer] + GUARD, length[buffer]))
            return false;
    return true;
}

int main(void)
{
    while (serve())
        continue;
    return 0;
}
