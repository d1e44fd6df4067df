"""Tests of rainbow.py and rows.py: python3 -m unittest discover -s python

The cases P1 to P13 are those of document 01, with the row that ticket 5 of document 02 adds. Wild
links are those of ticket 1, a Z80 that is held is that of ticket 2, the watchdog that of ticket 3,
the whole screen that of ticket 5, why a cell shows what it shows is ticket 6, the viewers are those
of ticket 7, and the index is that of ticket 8.
"""
import copy
import ctypes
import os
import pickle
import random
import re
import shutil
import subprocess
import sys
import tempfile
import types
import unittest
from unittest import mock

import rainbow
from rainbow import Computer, Drawing, Refused, Row, Why

HERE = os.path.dirname(os.path.abspath(__file__))
ROOT = os.path.dirname(HERE)
if os.environ.get("RAINBOW_LIBRARY"):  # the example is run in other folders too
    os.environ["RAINBOW_LIBRARY"] = os.path.abspath(os.environ["RAINBOW_LIBRARY"])

SCREEN, ATTRIBUTE = 0xEE000, 0xEF000
DARK_ROW = Row(0, 3, rainbow.DARK, 0)
LAST_ROW = rainbow.ROWS - 1
ALL_EMPTY = 3 * rainbow.ROWS  # the bytes read of rows that have no cells
ALL_ROWS = 0x1FFFFFF  # the marks of rows 0 to 24
PLAIN = 0x0E  # the attribute of a cell that is neither bold, blinking, underlined nor reverse


def header(name):
    """A header without its comments."""
    with open(os.path.join(ROOT, "include", name), encoding="ascii") as file:
        return re.sub(r"/\*.*?\*/", "", file.read(), flags=re.S)


def defines(text):
    """The numbers that a header defines, by name without the prefix."""
    found = re.findall(r"^#define RAINBOW_(\w+) +(\d+) *$", text, flags=re.M)
    return {name: int(number) for name, number in found}


def sizes(text):
    """The sizes that a header states."""
    found = re.findall(r"^RAINBOW_SIZE\((\w+), (\d+)\);", text, flags=re.M)
    return {name: int(number) for name, number in found}


def structs(text):
    """The structs of a header: for each the type, name and array length of every field."""
    found = re.findall(r"typedef struct (\w+) \{(.*?)\} (\w+);", text, flags=re.S)
    fields = r"(\w+) (\w+)(?:\[RAINBOW_(\w+)\])?;"
    return {name: re.findall(fields, body) for name, body, _ in found}


def declarations(text):
    """The functions that a header declares: for each its answer, and type and name of its parts."""
    found = re.findall(r"^(\w+) (rainbow_\w+)\(([^()]*)\);", text, flags=re.M)
    return {name: (answer, parts(given)) for answer, name, given in found}


def parts(given):
    """Type and name of each part of a declaration's list; a pointer's type ends with a star."""
    if given == "void":
        return []
    given = [" ".join(part.replace("const ", "").split()) for part in given.split(",")]
    found = [re.fullmatch(r"(\w+(?: \*)?) ?(\w+)", part) for part in given]
    return [part.groups() for part in found]


def lines_shown(kinds, latch):
    """The lines of the whole screen, by document 02, ticket 5, with a latch of 0 to 9."""
    run = re.search("1+", "".join("1" if kind & 4 else "0" for kind in kinds))
    if run is None or latch == 0:
        return [(row, scan) for row in range(24) for scan in range(1, 11)]
    lines = []
    for row in range(25):
        scans = list(range(1, 11))
        if row == run.end() - 1:
            scans = [scan for scan in scans if scan <= latch]
        if row == run.start():
            scans = [scan for scan in scans if scan > latch]
        lines += [(row, scan) for scan in scans]
    return lines


C_TYPES = {
    "bool": ctypes.c_bool, "uint8_t": ctypes.c_uint8, "uint16_t": ctypes.c_uint16,
    "uint32_t": ctypes.c_uint32, "size_t": ctypes.c_size_t,
    "uint8_t *": ctypes.POINTER(ctypes.c_uint8), "rainbow_machine": rainbow.Machine,
    "rainbow_byte_read": rainbow.ByteRead, "rainbow_written": rainbow.Written,
    "rainbow_drawn": rainbow.Drawn, "rainbow_stored": rainbow.Stored,
    "rainbow_explained": rainbow.Explained, "rainbow_part_place": rainbow.PartPlace,
    "rainbow_viewers": rainbow.Viewers, "rainbow_asked": rainbow.Asked,
    "rainbow_drawn_for_viewers": rainbow.DrawnForViewers,
    "rainbow_stored_for_viewers": rainbow.StoredForViewers, "rainbow_computer": Computer,
}


class Case(unittest.TestCase):
    """What the tests share."""

    def setUp(self):
        self.computer = Computer()

    def refused(self, number, call, *given):
        """The call is refused by this number and changes no byte."""
        before = bytes(self.computer)
        with self.assertRaises(Refused) as caught:
            call(*given)
        self.assertEqual(caught.exception.number, number)
        self.assertEqual(bytes(self.computer), before)

    def changes(self, before):
        """The places of the computer that changed, with what they hold now."""
        after = bytes(self.computer)
        return {at: after[at] for at in range(len(after)) if after[at] != before[at]}

    def fresh_index(self):
        """The index as it is worked out into another buffer."""
        computer, index = self.computer, (ctypes.c_uint8 * rainbow.INDEX_BYTES)()
        refusal = rainbow.library.rainbow_index_readers(
            computer.machine, computer.screen, 4096, computer.attribute, 4096, index, len(index))
        self.assertEqual(refusal, 0)
        return bytes(index)

    def chain(self, kind, end):
        """Row 1 starts at 100 hex, is of this kind and has its FF so many bytes further on."""
        screen, attribute = bytearray(4096), bytearray(4096)
        screen[0:3] = 0xFF, 0x00, 0x01
        attribute[1] = kind
        screen[0x100 + end] = 0xFF
        self.computer.load(screen, attribute)
        return self.computer.row(1)


class Worked(Case):
    """The worked cases of document 01."""

    def test_p1_all_ff(self):
        self.assertEqual(self.computer.load(b"\xff" * 4096, bytes(4096)), Drawing(75, 0))
        self.assertEqual(self.computer.row(0), Row(0, 3, 0, 0))
        for row in range(1, 25):
            self.assertEqual(self.computer.row(row), Row(4095, 0, 0, 0))

    def test_p2_all_zero(self):
        self.assertEqual(self.computer.draw(), Drawing(81, None))
        self.assertEqual(self.computer.row(0), Row(0, 3, 255, 80))
        self.assertTrue(self.computer.row(0).torn)
        self.assertFalse(self.computer.row(0).dark)
        for row in range(1, 25):
            self.assertEqual(self.computer.row(row), DARK_ROW)
            self.assertTrue(self.computer.row(row).dark)
            self.assertFalse(self.computer.row(row).torn)

    def test_p3_p4_link(self):
        for high, wild_row in ((0x01, None), (0xF1, 0)):
            drawing = self.computer.load(bytes([0xFF, 0x50, high]) + bytes(4093), bytes(4096))
            self.assertEqual(drawing, Drawing(3 + 41, wild_row))
            self.assertEqual(self.computer.row(1).start, 336)

    def test_p5_normal(self):
        self.assertEqual(self.chain(3, 80), Row(256, 3, 80, 80))
        self.assertEqual(self.chain(3, 81), Row(256, 3, rainbow.TORN, 80))
        self.assertEqual(self.chain(7, 81), Row(256, 7, rainbow.TORN, 80))

    def test_p5_at_132_columns(self):
        self.computer.write_port(0x04, 0x10)
        self.assertEqual(self.chain(3, 132), Row(256, 3, 132, 132))
        self.assertEqual(self.chain(3, 133), Row(256, 3, rainbow.TORN, 132))

    def test_p6_double_width(self):
        self.assertEqual(self.chain(2, 40), Row(256, 2, 40, 40))
        self.assertEqual(self.chain(2, 41), Row(256, 2, rainbow.TORN, 40))

    def test_p7_z80(self):
        self.computer.write_port(0x0A, 0x01)
        for address, memory, place in ((0x07FF, "private_memory", 2047), (0x0800, "shared", 2048)):
            before = bytes(self.computer)
            self.computer.store_z80(address, 0x5A)
            at = getattr(Computer, memory).offset + place
            self.assertEqual(self.changes(before), {at: 0x5A})
            self.assertEqual(self.computer.read_z80(address), 0x5A)

    def test_p8_8088(self):
        self.computer.store(0xEE000, 0x12)
        self.computer.store(0xEFFFF, 0x34)
        self.computer.store(0x0FFFF, 0x56)
        self.assertEqual(self.computer.screen[0], 0x12)
        self.assertEqual(self.computer.attribute[4095], 0x34)
        self.assertEqual(self.computer.shared[65535], 0x56)
        reads = [self.computer.read(address) for address in (0xEE000, 0xEFFFF, 0x0FFFF)]
        self.assertEqual(reads, [0x12, 0x34, 0x56])
        for address in (0xEDFFF, 0xF0000, 0x10000, 0xFFFFFFFF):
            self.refused(2, self.computer.read, address)
            self.refused(2, self.computer.store, address, 1)

    def test_p9_interlace(self):
        for codes, interlaced in (((0x00, 0x20), False), ((0x20, 0x00), True)):
            for code in codes:
                self.computer.write_port(0x04, code)
            self.assertIs(self.computer.machine.interlace, interlaced)

    def dots(self, row, scan, count):
        """The first dots of a line, 1 for a lit one."""
        line = self.computer.scan_line(row, scan)
        self.assertEqual(len(line), self.computer.dots)
        self.assertLessEqual(set(line), {0, 2})
        return "".join("1" if dot else "0" for dot in line[:count])

    def test_p10_glyph_byte(self):
        self.computer.glyph(0x41)[0] = 0xA5  # scan 2
        self.computer.load(b"A" + bytes(4095), bytes([PLAIN]) * 4096)
        self.computer.write_port(0x0A, 0x02)
        self.assertEqual(self.dots(0, 2, 10), "1010010111")
        self.computer.write_port(0x04, 0x10)
        self.assertEqual(self.dots(0, 2, 9), "101001011")
        self.assertEqual(self.dots(0, 3, 9), "000000000")

    def test_p11_halves(self):
        for scan in range(1, 11):
            self.computer.glyph(0x41)[(scan - 2) % 16] = scan
        self.computer.write_port(0x0A, 0x02)
        for kind, scan, glyph_scan in ((1, 10, 5), (0, 1, 6), (0, 7, 9)):
            self.chain(kind, 1)
            self.computer.store(SCREEN + 0x100, 0x41)
            self.computer.store(ATTRIBUTE + 0x100, PLAIN)
            wide = self.dots(1, scan, 16)
            self.assertEqual(wide[0::2], wide[1::2])
            self.assertEqual(int(wide[0::2], 2), glyph_scan)

    def test_p12_one_recall(self):
        self.computer.nvm[:] = range(256)
        self.computer.write_port(0x0A, 0x83)
        self.assertEqual(bytes(self.computer.shadow), bytes(range(256)))
        self.computer.write_shadow(7, 0xF9)
        self.computer.write_port(0x0A, 0x83)
        self.assertEqual(self.computer.shadow[7], 9)
        self.assertEqual(self.computer.machine.held, 0x83)

    def test_p13_marks(self):
        self.computer.load(b"\xff" + bytes(4095), b"\x03" * 4096)
        marks = self.computer.store(SCREEN + 2, 1)
        self.assertEqual(marks, 0x1FFFFFE)
        self.assertEqual(rainbow.marked_rows(marks), list(range(1, 25)))
        self.assertEqual(self.computer.row(0), Row(0, 3, 0, 0))
        self.assertEqual(self.computer.row(1), Row(256, 3, rainbow.TORN, 80))
        self.assertEqual(self.computer.row(2), DARK_ROW)


class Wild(Case):
    """The first row whose link has any of its top four bits set."""

    def links(self, high):
        """Draws rows of no cells, eight places apart. The links of some have other high bytes."""
        screen = bytearray(b"A" * 4096)
        for row in range(rainbow.ROWS):
            screen[8 * row:8 * row + 3] = 0xFF, 8 * row + 8, high.get(row, 0)
        return self.computer.load(screen, b"\x03" * 4096)

    def test_each_bit_and_row(self):
        for high in (0x10, 0x20, 0x40, 0x80, 0xF0):
            for row in (0, 1, 12, LAST_ROW - 1):
                drawing = self.links({row: high, LAST_ROW: 0x10})
                self.assertEqual(drawing, Drawing(ALL_EMPTY, row))
            self.assertEqual(self.links({LAST_ROW: high}), Drawing(ALL_EMPTY, LAST_ROW))

    def test_none(self):
        drawing = self.links({})
        self.assertEqual(drawing, (ALL_EMPTY, None))
        self.assertEqual((drawing.wild, drawing.wild_row), (False, None))
        for low, high in ((0x00, 0x08), (0x00, 0x0F), (0xFF, 0x00), (0xF0, 0x07)):
            drawing = self.computer.load(bytes([0xFF, low, high]) + bytes(4093), b"\x03" * 4096)
            self.assertEqual(drawing, Drawing(3 + 81, None))
            self.assertEqual(self.computer.row(1).start, 256 * high + low)

    def test_first(self):
        drawing = self.links({5: 0x80, 6: 0x10, LAST_ROW: 0xF0})
        self.assertEqual((drawing.reads, drawing.wild, drawing.wild_row),
                         (ALL_EMPTY, True, 5))
        self.assertEqual(self.computer.power_up(), drawing)
        self.assertEqual(self.computer.store(SCREEN + 8 * 5 + 2, 0x00), 0)
        self.assertEqual(self.computer.draw(), Drawing(ALL_EMPTY, 6))

    def test_loop(self):
        screen = bytearray(4096)
        screen[0:3], screen[256:259], screen[512:515] = b"\xff\0\1", b"\xff\0\2", b"\xff\0\x91"
        self.assertEqual(self.computer.load(screen, b"\x03" * 4096), Drawing(ALL_EMPTY, 2))

    def test_torn_and_dark(self):
        for end, wild_row in ((80, 0), (81, None)):
            screen = bytearray(b"\xf1" * 4096)
            screen[end] = 0xFF
            self.assertEqual(self.computer.load(screen, b"\x03" * 4096).wild_row, wild_row)
        self.computer.write_port(0x04, 0x10)
        self.assertEqual(self.computer.draw(), Drawing(84 + 133, 0))
        screen[0:3] = 0xFF, 0x00, 0x02  # row 1 is torn, and the others are dark
        self.assertEqual(self.computer.load(screen, b"\x03" * 4096), Drawing(3 + 133, None))

    def test_past_the_last_place(self):
        for end, high in ((4093, 4095), (4094, 0), (4095, 1)):
            screen = bytearray(b"\1" * 4096)
            screen[2:5] = 0xFF, 0xF0, 0x0F
            screen[end] = 0xFF
            for byte, wild_row in ((0x01, None), (0x41, 1)):
                screen[high] = byte
                drawing = self.computer.load(screen, b"\x03" * 4096)
                self.assertEqual(drawing, Drawing(5 + end - 4080 + 3 + 81, wild_row))

    def test_refused(self):
        self.links({3: 0x10})
        self.refused(1, self.computer.load, b"\xff" * 4096, bytes(4095))


class Held(Case):
    """The Z80 runs only while bit 0 of port 0A is 1."""

    def setUp(self):
        super().setUp()
        self.computer.private_memory[0x7FF], self.computer.shared[0x800] = 0x11, 0x22

    def held(self):
        """The Z80 is held: it is refused by 7, and no byte changes."""
        self.assertIs(self.computer.z80_runs, False)
        for address in (0x0000, 0x07FF, 0x0800, 0xFFFF):
            self.refused(7, self.computer.read_z80, address)
            self.refused(7, self.computer.store_z80, address, 0x5A)

    def runs(self):
        """The Z80 runs: at 07FF and 0800 it reads, stores, and reads what it stored."""
        self.assertIs(self.computer.z80_runs, True)
        for address, byte in ((0x07FF, 0x11), (0x0800, 0x22)):
            self.assertEqual(self.computer.read_z80(address), byte)
            self.computer.store_z80(address, 0x5A)
            self.assertEqual(self.computer.read_z80(address), 0x5A)
            self.computer.store_z80(address, byte)

    def test_power_up(self):
        self.held()
        self.computer.write_port(0x0A, 0x83)
        self.runs()
        self.computer.power_up()
        self.held()

    def test_every_byte(self):
        for held in range(256):
            self.computer.machine.held = held
            self.assertIs(self.computer.z80_runs, held % 2 == 1)
            if held % 2 == 1:
                self.runs()
            else:
                self.refused(7, self.computer.read_z80, 0x07FF)
                self.refused(7, self.computer.store_z80, 0x0800, 0x5A)

    def test_codes(self):
        for code, runs in ((0x01, True), (0xBE, False), (0xBF, True), (0x02, False), (0x83, True)):
            self.computer.write_port(0x0A, code)
            (self.runs if runs else self.held)()

    def test_a_refused_write_leaves_it(self):
        self.refused(6, self.computer.write_port, 0x0A, 0xC1)
        self.held()
        self.computer.write_port(0x0A, 0x01)
        self.refused(6, self.computer.write_port, 0x0A, 0xC0)
        self.runs()

    def test_other_calls_leave_it(self):
        for code, check in ((0xBE, self.held), (0x01, self.runs)):
            self.computer.write_port(0x0A, code)
            for port in (0x04, 0x0C, 0x10C):
                self.computer.write_port(port, 0x00)
            self.computer.tick()
            check()

    def test_the_8088_is_not_held(self):
        self.assertEqual(self.computer.store(0x00800, 0x33), 0)
        self.assertEqual(self.computer.read(0x00800), 0x33)
        self.computer.write_port(0x0A, 0x01)
        self.assertEqual(self.computer.read_z80(0x0800), 0x33)

    def test_says_why(self):
        with self.assertRaises(Refused) as caught:
            self.computer.store_z80(0x0800, 1)
        self.assertEqual(str(caught.exception), "7, the Z80 is held")


class Watchdog(Case):
    """Reset of the 8088 begins at the 128th tick without code 09, and ends at the 128th after."""

    def setUp(self):
        super().setUp()
        self.computer.store(SCREEN, 0x41)
        self.computer.write_port(0x0A, 0x03)  # the Z80 runs, and the display is not blanked

    def ticks(self, many):
        """So many ticks of the watchdog's clock."""
        for _ in range(many):
            self.computer.watchdog_tick()

    def into_reset(self):
        """The watchdog is enabled, and reset begins."""
        self.computer.write_port(0x0C, 0x00)
        self.ticks(128)
        self.assertIs(self.computer.machine.reset, True)

    def watch(self, count, reset, watchdog):
        """The watchdog's part of the machine. In reset the 8088 is refused by 8, and else not."""
        machine = self.computer.machine
        wanted = (count, reset, watchdog)
        self.assertEqual((machine.count, machine.reset, machine.watchdog), wanted)
        if reset:
            self.refused(8, self.computer.read, SCREEN)
        else:
            self.assertEqual(self.computer.read(SCREEN), 0x41)

    def test_power_up(self):
        self.watch(0, False, False)

    def test_begins_at_tick_128(self):
        for code in range(12):  # each of them enables
            self.computer.write_port(0x0C, code)
            self.watch(0, False, True)
            self.ticks(1)
            self.watch(1, False, True)
            self.ticks(126)
            self.watch(127, False, True)
            self.ticks(1)
            self.watch(0, True, True)
            self.ticks(128)
            self.computer.write_port(0x10C, 0x00)

    def test_ends_at_tick_256(self):
        self.into_reset()
        for _ in range(3):  # it begins again, as long as no code 09 comes
            self.watch(0, True, True)
            self.ticks(127)
            self.watch(127, True, True)
            self.ticks(1)
            self.watch(0, False, True)
            self.ticks(127)
            self.watch(127, False, True)
            self.ticks(1)

    def test_acknowledged_in_time(self):
        self.computer.write_port(0x0C, 0x00)
        for _ in range(20):
            self.ticks(127)
            self.watch(127, False, True)
            self.computer.write_port(0x0C, 0x09)
            self.watch(0, False, True)
        self.ticks(128)
        self.watch(0, True, True)

    def test_nothing_else_changes(self):
        for byte, number in ((False, 0x00), (True, 0xFF)):
            machine = rainbow.Machine(*[byte] * 3, number, *[byte] * 3, True, 0, False, number)
            self.computer.machine = machine
            before = bytes(self.computer)
            at = Computer.machine.offset + rainbow.Machine.count.offset
            for tick in range(1, 257):
                self.computer.watchdog_tick()
                wanted = bytearray(before)
                wanted[at:at + 2] = tick % 128, 128 <= tick < 256
                self.assertEqual(bytes(self.computer), bytes(wanted), tick)

    def test_refused_in_reset(self):
        computer = self.computer
        for enabled in (True, False):
            self.into_reset()
            computer.machine.watchdog = enabled
            for address in (0x00000, 0x0FFFF, SCREEN, ATTRIBUTE, 0xEFFFF):
                self.refused(8, computer.read, address)
                self.refused(8, computer.store, address, 0x5A)
            for place in (0, 255):
                self.refused(8, computer.read_shadow, place)
                self.refused(8, computer.write_shadow, place, 0x0A)
            for port in (0x0C, 0x10C):
                for code in range(12):
                    self.refused(8, computer.write_port, port, code)
            for port, code in ((0x04, 0x10), (0x04, 0x20), (0x0A, 0x43), (0x0A, 0x00)):
                self.refused(8, computer.write_port, port, code)
            self.ticks(128)
            self.watch(0, False, enabled)

    def test_ahead_of_2_to_6(self):
        computer = self.computer
        cases = ((2, computer.read, 0x10000), (2, computer.store, 0xFFFFFFFF, 1),
                 (3, computer.write_port, 5, 0), (4, computer.write_port, 0x04, 0x01),
                 (4, computer.write_port, 0x0C, 0x0C), (4, computer.write_port, 0x10C, 0xFF),
                 (5, computer.read_shadow, 256), (5, computer.write_shadow, 2 ** 64 - 1, 1),
                 (6, computer.write_port, 0x0A, 0xC0))
        for number, *call in cases:
            self.refused(number, *call)
        self.into_reset()
        for _, *call in cases:
            self.refused(8, *call)

    def test_the_z80_goes_on(self):
        self.into_reset()
        for address in (0x07FF, 0x0800):
            self.computer.store_z80(address, 0x5A)
            self.assertEqual(self.computer.read_z80(address), 0x5A)
        self.computer.machine.held = 0x02
        self.refused(7, self.computer.read_z80, 0x0800)
        self.refused(7, self.computer.store_z80, 0x0800, 1)

    def test_drawings_and_ticks_go_on(self):
        self.computer.glyph(0x41)[0] = 0xA5  # scan 2
        self.computer.attribute[0] = PLAIN
        self.into_reset()
        self.assertEqual(self.computer.draw(), Drawing(81, None))
        self.assertEqual(self.computer.row(0), Row(0, 3, rainbow.TORN, 80))
        self.assertEqual(self.computer.text(0)[:2], "A.")
        self.assertEqual(self.computer.scan_line(0, 2)[:8], bytes([2, 0, 2, 0, 0, 2, 0, 2]))
        self.assertEqual(self.settings(), (80, 800, True, False, False, 0))
        self.computer.tick()
        self.assertTrue(self.computer.machine.interrupt)
        self.watch(0, True, True)
        self.computer.watchdog_tick()
        self.watch(1, True, True)
        self.refused(5, self.computer.scan_line, rainbow.ROWS, 1)

    def settings(self):
        """What the machine is asked."""
        computer = self.computer
        return (computer.columns, computer.dots, computer.z80_runs, computer.blanked,
                computer.graphics, computer.scroll_latch)

    def test_power_up_ends_it(self):
        self.into_reset()
        self.computer.power_up()
        self.watch(0, False, False)

    def test_other_codes_leave_the_count(self):
        self.computer.write_port(0x0C, 0x00)
        self.ticks(100)
        for code in range(12):
            if code != 0x09:
                self.computer.write_port(0x0C, code)
                self.watch(100, False, True)
        for port, code in ((0x04, 0x10), (0x04, 0x30), (0x0A, 0x83), (0x0A, 0x43)):
            self.computer.write_port(port, code)
            self.watch(100, False, True)
        self.computer.tick()
        self.watch(100, False, True)
        self.ticks(27)
        self.watch(127, False, True)
        self.ticks(1)
        self.watch(0, True, True)

    def test_a_refused_write_leaves_the_count(self):
        self.computer.write_port(0x0C, 0x00)
        self.ticks(100)
        for number, port, code in ((3, 0x10D, 0x09), (4, 0x0C, 0x0C), (4, 0x0C, 0x19),
                                   (4, 0x10C, 0xFF), (4, 0x04, 0x09), (6, 0x0A, 0xC9)):
            self.refused(number, self.computer.write_port, port, code)
            self.watch(100, False, True)

    def test_disabling(self):
        for code in range(12):
            self.computer.write_port(0x0C, 0x00)
            self.ticks(127)
            self.computer.write_port(0x10C, code)
            self.watch(0, False, False)
            self.ticks(300)
            self.watch(0, False, False)

    def test_enabling(self):
        for code in range(12):  # a machine that the library never makes: a count while disabled
            self.computer.machine.watchdog, self.computer.machine.count = False, 100
            self.computer.write_port(0x0C, code)
            self.watch(0, False, True)
            self.computer.machine.watchdog, self.computer.machine.count = False, 200
            self.computer.write_port(0x10C, code)
            self.watch(0, False, False)

    def test_reset_while_disabled(self):
        self.computer.machine.reset = True
        self.ticks(127)
        self.watch(127, True, False)
        self.ticks(1)
        self.watch(0, False, False)
        self.ticks(300)
        self.watch(0, False, False)

    def test_every_machine(self):
        for count in range(256):
            for reset, watchdog in ((False, False), (False, True), (True, False), (True, True)):
                machine = self.computer.machine
                machine.count, machine.reset, machine.watchdog = count, reset, watchdog
                self.computer.watchdog_tick()
                if not reset and not watchdog:
                    self.watch(0, False, False)
                elif count < 127:
                    self.watch(count + 1, reset, watchdog)
                else:
                    self.watch(0, not reset, watchdog)

    def test_says_why(self):
        self.into_reset()
        with self.assertRaises(Refused) as caught:
            self.computer.write_port(0x0C, 0x09)
        self.assertEqual(str(caught.exception), "8, the 8088 is in reset")


class WholeScreen(Case):
    """The lines of the whole screen, with rows that scroll."""

    at_rest = [(line // 10, line % 10 + 1) for line in range(240)]

    def rows(self, *scrolling, others=3):
        """Draws rows of no cells; those of these numbers have the scrolling bit."""
        screen, attribute = bytearray(4096), bytearray(4096)
        for row in range(rainbow.ROWS):
            screen[8 * row:8 * row + 3] = 0xFF, 8 * row + 8, 0
            attribute[8 * row + 1] = others | (4 if row + 1 in scrolling else 0)
        self.computer.load(screen, attribute)

    def listed(self, latch):
        """The list with this latch, of which every line can be drawn."""
        self.computer.machine.latch = latch
        lines = self.computer.list_lines()
        self.assertEqual(len(lines), rainbow.LINES)
        self.assertEqual(bytes(self.computer.list), bytes(sum(lines, ())))
        return lines

    def scans(self, lines, row):
        """The scans of a row that show."""
        return [scan for at, scan in lines if at == row]

    def test_no_run(self):
        self.rows()
        for latch in range(10):
            self.assertEqual(self.listed(latch), self.at_rest)

    def test_latch_0(self):
        for scrolling in ([5], range(1, 25), range(6, 20)):
            self.rows(*scrolling)
            for latch in (0, 16, 0xF0):
                self.assertEqual(self.listed(latch), self.at_rest)

    def test_run(self):
        self.rows(7, 8, 9)
        for latch in range(1, 10):
            lines = self.listed(latch)
            self.assertEqual(self.scans(lines, 7), list(range(latch + 1, 11)))
            self.assertEqual(self.scans(lines, 9), list(range(1, latch + 1)))
            for row in set(range(25)) - {7, 9}:
                self.assertEqual(self.scans(lines, row), list(range(1, 11)))
            self.assertEqual(lines, sorted(lines))

    def test_run_of_one_row(self):
        for row in (1, 12, LAST_ROW):
            self.rows(row)
            for latch in range(1, 10):
                lines = self.listed(latch)
                self.assertEqual(self.scans(lines, row), [])
                self.assertEqual({at for at, _ in lines}, set(range(25)) - {row})

    def test_first_run(self):
        self.rows(3, 5, 6, 24)
        lines = self.listed(9)
        self.assertEqual(lines, [(row, scan) for row in range(25) if row != 3
                                 for scan in range(1, 11)])

    def test_every_run(self):
        for first in range(rainbow.ROWS):
            for end in range(first + 1, rainbow.ROWS + 1):
                kinds = [7 if first <= row < end else 3 for row in range(rainbow.ROWS)]
                for row, kind in enumerate(kinds):
                    self.computer.picture[row * rainbow.RECORD_BYTES + rainbow.KIND_AT] = kind
                for latch in (0, 1, 5, 9):
                    self.assertEqual(self.listed(latch), lines_shown(kinds, latch))

    def test_latch_is_read_modulo_16(self):
        self.rows(7, 8, 9)
        for latch in range(10):
            for above in (16, 0x70, 0xF0):
                self.assertEqual(self.listed(latch + above), self.listed(latch))

    def test_latch_over_9(self):
        for scrolling in ([], [4], range(1, 25)):
            self.rows(*scrolling)
            self.computer.list[:] = bytes(range(240)) * 2
            for latch in range(256):
                self.computer.machine.latch = latch
                if latch % 16 > 9:
                    self.refused(9, self.computer.list_lines)
        self.computer.machine.latch = 10
        with self.assertRaises(Refused) as caught:
            self.computer.list_lines()
        self.assertEqual(str(caught.exception),
                         "9, a whole screen is asked for with the scroll latch over 9")

    def test_latch_by_its_port(self):
        self.rows(7, 8, 9)
        for code in (0x01, 0x06):
            self.computer.write_port(0x0C, code)
        self.assertEqual(self.scans(self.computer.list_lines(), 7), [10])
        self.computer.write_port(0x0C, 0x02)
        self.refused(9, self.computer.list_lines)

    def test_length_ahead_of_latch(self):
        picture, listed = self.computer.picture, self.computer.list
        for latch in (0, 9, 10, 15, 26):
            machine = rainbow.Machine(latch=latch)
            before = bytes(self.computer)
            for sizes_lent in ((6699, 480), (6701, 480), (6700, 479), (6700, 481), (0, 0)):
                lent = picture, sizes_lent[0], listed, sizes_lent[1]
                self.assertEqual(rainbow.library.rainbow_list_lines(machine, *lent), 1)
            self.assertEqual(bytes(self.computer), before)

    def test_any_kind(self):
        """The picture may hold any bytes: of a kind the low three bits count."""
        for kind in range(256):
            self.rows()
            self.computer.picture[5 * rainbow.RECORD_BYTES + rainbow.KIND_AT] = kind
            shown = self.at_rest if kind & 4 == 0 else lines_shown([3] * 5 + [7] + [3] * 19, 6)
            self.assertEqual(self.listed(6), shown)

    def test_each_line_is_drawn(self):
        self.rows(*range(6, 25))
        for row, scan in self.listed(5):
            self.assertEqual(len(self.computer.scan_line(row, scan)), 800)

    def test_in_reset(self):
        self.rows(7, 8, 9)
        wanted = self.listed(4)
        self.computer.machine.reset = True
        self.assertEqual(self.computer.list_lines(), wanted)


def cell(place, kind, link=None):
    """The answer that a cell stands there."""
    return Why(rainbow.WHY_CELL, place, kind, None, link)


def fill(place, link=None):
    """The answer that the row has its FF at a place."""
    return Why(rainbow.WHY_FILL, place, None, None, link)


def past(link=None):
    """The answer that the row has no such column."""
    return Why(rainbow.WHY_PAST, None, None, None, link)


def dark(tore):
    """The answer that a row tore."""
    return Why(rainbow.WHY_DARK, None, None, tore, None)


class WhyCells(Case):
    """Why a cell shows what it shows."""

    def why(self, row, *columns):
        """The answers for some columns of a row."""
        return [self.computer.why(row, column) for column in columns]

    def test_row_0(self):
        self.computer.load(b"HERD\xff\0\1".ljust(4096, b"A"), b"\3" * 4096)
        self.assertEqual(self.why(0, 0, 3, 4, 79, 80, 131),
                         [cell(0, 3), cell(3, 3), fill(4), fill(4), past(), past()])
        self.computer.write_port(0x04, 0x10)
        self.assertEqual(self.why(0, 3, 4, 80, 131), [cell(3, 3), fill(4), fill(4), fill(4)])

    def test_link_and_kind(self):
        for kind in range(8):
            capacity = 80 if kind % 4 == 3 else 40
            self.chain(kind, capacity)  # FF at the very capacity: nothing is fill
            self.assertEqual(self.why(1, 0, capacity - 1, capacity),
                             [cell(256, kind, 1), cell(255 + capacity, kind, 1), past(1)])
            self.chain(kind, capacity - 1)
            self.assertEqual(self.why(1, capacity - 1, capacity),
                             [fill(255 + capacity, 1), past(1)])

    def test_torn_and_dark(self):
        self.chain(2, 41)
        self.assertEqual(self.why(1, 39, 40, 131), [cell(256 + 39, 2, 1), past(1), past(1)])
        for row in (2, 3, LAST_ROW):
            self.assertEqual(self.why(row, 0, 40, 131), [dark(1)] * 3)
        self.computer.load(bytes(4096), bytes(4096))
        self.assertEqual(self.why(0, 79, 80), [cell(79, 3), past()])
        self.assertEqual(self.why(1, 0) + self.why(LAST_ROW, 131), [dark(0)] * 2)

    def test_past_the_last_place(self):
        screen = bytearray(b"A" * 4096)
        screen[2:5] = 0xFF, 0xFE, 0x0F
        self.computer.load(screen, b"\7" * 4096)
        places = 4094, 4095, 0, 1
        self.assertEqual(self.why(1, 0, 1, 2, 3), [cell(place, 7, 3) for place in places])
        self.assertEqual(self.why(1, 4, 79, 80), [fill(2, 3), fill(2, 3), past(3)])
        self.computer.load(b"\xff" * 4096, bytes(4096))
        self.assertEqual(self.why(2, 0, 39, 40), [fill(4095, 0), fill(4095, 0), past(0)])

    def test_names(self):
        self.chain(2, 5)
        for column, name in ((0, "cell"), (5, "fill"), (40, "past")):
            self.named(self.computer.why(1, column), name)
        self.computer.load(bytes(4096), bytes(4096))
        self.named(self.computer.why(1, 0), "dark")

    def named(self, why, name):
        """The answer has this name and no other."""
        names = [other for other in ("cell", "fill", "past", "dark") if getattr(why, other)]
        self.assertEqual(names, [name])

    def test_refused(self):
        for row, column in ((25, 0), (0, 132), (2 ** 64 - 1, 0), (0, 2 ** 64 - 1), (25, 132)):
            self.refused(5, self.computer.why, row, column)
        with self.assertRaises(Refused) as caught:
            self.computer.why(0, 132)
        why = "a row over 24, a column over 131, a scan outside 1 to 10, a shadow place over 255"
        self.assertEqual(str(caught.exception), "5, " + why)

    def test_changes_nothing(self):
        self.chain(2, 41)
        self.computer.picture[:] = bytes(6700)
        for reset in (False, True):
            self.computer.machine.reset = reset
            before = bytes(self.computer)
            answers = self.why(1, 0, 40) + self.why(2, 0)
            self.assertEqual(answers, [cell(256, 2, 1), past(1), dark(1)])
            self.assertEqual(bytes(self.computer), before)
        self.assertEqual(self.computer.explain(1, 0), self.computer.why(1, 0))

    def test_what_the_picture_shows(self):
        """On screens of any bytes: a cell shows the byte that is named, and all else 20, 0E."""
        chance, computer, answers = random.Random(6), self.computer, {}
        for code in (0x00, 0x10) * 4:
            computer.write_port(0x04, code)
            every = chance.randrange(5, 60)
            screen = [0xFF if chance.randrange(every) == 0 else chance.randrange(255)
                      for _ in range(4096)]
            attribute = chance.choices(range(256), k=4096)
            computer.load(bytes(screen), bytes(attribute))
            for row in range(rainbow.ROWS):
                pairs = bytes(computer.picture)[268 * row + rainbow.PAIRS_AT:268 * (row + 1)]
                for column in range(rainbow.COLUMNS):
                    why = computer.why(row, column)
                    answers[why.answer] = answers.get(why.answer, 0) + 1
                    shown = ((screen[why.place], attribute[why.place] % 16) if why.cell
                             else (0x20, PLAIN))
                    self.assertEqual(tuple(pairs[2 * column:2 * column + 2]), shown)
                    self.assertTrue(self.holds(computer.row(row), why))
        self.assertEqual(set(answers), {1, 2, 3, 4})

    def holds(self, row, why):
        """What the answer names stands where it is said to."""
        computer = self.computer
        if why.dark or row.dark:
            return why.dark and row.dark and computer.row(why.tore).torn
        if why.link is not None and computer.screen[why.link] != row.start % 256:
            return False
        if why.fill:
            end = (row.start + row.count) % 4096
            return computer.screen[why.place] == 0xFF and why.place == end
        return not why.cell or why.kind == row.kind

    def test_promise(self):
        """A byte stored into the place of a cell that no earlier row reads shows in that cell."""
        computer = self.computer
        computer.load(b"H\xff\0\1".ljust(256) + b"BERTA\xff\2\1".ljust(3840), b"\3" * 4096)
        earlier = bytes(computer.picture)[:268]
        # Row 2 begins in column 2 of row 1, and leads to itself.
        for column, rows in ((0, [1]), (3, list(range(1, 25)))):
            place = computer.why(1, column).place
            self.assertEqual(place, 256 + column)
            marks = computer.store(SCREEN + place, 0x5A)
            self.assertEqual(rainbow.marked_rows(marks), rows)
            self.assertEqual(computer.text(1)[column], "Z")
            self.assertEqual(bytes(computer.picture)[:268], earlier)


class Watching(Case):
    """Eight viewers on one screen."""

    def setUp(self):
        super().setUp()
        # Rows 0 to 2 have three cells each; the others are row 2 again.
        screen = bytearray(b"ABC\xff\0\1".ljust(256) + b"DEF\xff\0\2".ljust(256)
                           + b"GHI\xff\0\2".ljust(3584))
        self.computer.load(screen, b"\3" * 4096)
        self.asked()

    def asked(self):
        """What each viewer is handed, viewer 0 first."""
        return [self.computer.ask(viewer) for viewer in range(rainbow.VIEWERS)]

    def waiting(self):
        """What waits for each viewer."""
        return list(self.computer.viewers.waiting)

    def test_start(self):
        computer = Computer()
        for viewer in (7, 0, 3):
            self.assertEqual([computer.ask(viewer) for _ in range(3)], [ALL_ROWS, 0, 0])
        self.assertEqual(list(computer.viewers.waiting),
                         [0, ALL_ROWS, ALL_ROWS, 0, ALL_ROWS, ALL_ROWS, ALL_ROWS, 0])
        self.assertEqual(computer.marked_rows(ALL_ROWS), list(range(25)))

    def test_a_store_adds_its_marks_to_all(self):
        self.assertEqual(self.computer.store(SCREEN, 0x5A), 1)
        self.assertEqual(self.waiting(), [1] * 8)
        self.assertEqual(self.computer.store(SCREEN + 256, 0x5A), 2)
        self.assertEqual(self.waiting(), [3] * 8)
        self.assertEqual(self.computer.store(SCREEN + 256, 0x5A), 0)
        self.assertEqual(self.computer.store(SCREEN + 4000, 0x5A), 0)
        self.assertEqual(self.computer.store(0, 0x5A), 0)
        self.assertEqual(self.asked(), [3] * 8)
        self.assertEqual(self.asked(), [0] * 8)

    def test_an_ask_changes_no_other(self):
        for viewer in range(rainbow.VIEWERS):
            self.computer.store(SCREEN, 0x30 + viewer)
            before = bytes(self.computer)
            self.assertEqual(self.computer.ask(viewer), 1)
            at = Computer.viewers.offset + 4 * viewer
            self.assertEqual(self.changes(before), {at: 0})
        self.assertEqual(self.asked(), [1] * 7 + [0])

    def test_since_the_last_ask(self):
        self.computer.store(SCREEN, 0x30)
        self.assertEqual(self.computer.ask(2), 1)
        self.computer.store(SCREEN + 512, 0x30)
        self.assertEqual(self.computer.ask(2), 0x1FFFFFC)
        self.assertEqual(self.computer.ask(6), 0x1FFFFFD)

    def test_a_drawing_sets_all_for_all(self):
        self.computer.store(SCREEN, 0x30)
        for again in (self.computer.draw, self.computer.power_up,
                      lambda: self.computer.write_port(0x04, 0x10),
                      lambda: self.computer.load(bytes(4096), bytes(4096))):
            again()
            self.assertEqual(self.waiting(), [ALL_ROWS] * 8)
            self.computer.store(SCREEN, 0x31)
            self.assertEqual(self.asked(), [ALL_ROWS] * 8)
        self.computer.write_port(0x04, 0x10)  # the setting as it is
        self.assertEqual(self.waiting(), [0] * 8)

    def test_refused(self):
        self.computer.store(SCREEN, 0x30)
        for viewer in (8, 9, 255, 256, 2 ** 32, 2 ** 64 - 1):
            self.refused(10, self.computer.ask, viewer)
        self.refused(2, self.computer.store, 0xF0000, 0x30)
        self.computer.machine.reset = True
        self.refused(8, self.computer.store, SCREEN, 0x31)
        self.assertEqual(self.asked(), [1] * 8)  # an ask is no access of the 8088

    def test_says_why(self):
        with self.assertRaises(Refused) as caught:
            self.computer.ask(8)
        self.assertEqual(str(caught.exception), "10, a viewer over 7")

    def test_any_numbers(self):
        numbers = [0, 1, 2 ** 25, 2 ** 31, 2 ** 32 - 1, ALL_ROWS, 0xA5A5A5A5, 7]
        self.computer.viewers.waiting[:] = numbers
        self.computer.store(SCREEN + 256, 0x30)
        self.assertEqual(self.asked(), [number | 2 for number in numbers])

    def test_calls_for_one_screen_change_none(self):
        computer = self.computer
        rainbow.library.rainbow_draw(computer.machine, computer.screen, 4096, computer.attribute,
                                     4096, computer.picture, len(computer.picture))
        stored = rainbow.library.rainbow_store_with_picture(
            computer.machine, computer.shared, 65536, computer.screen, 4096, computer.attribute,
            4096, computer.picture, len(computer.picture), SCREEN, 0x30)
        self.assertEqual((stored.refusal, stored.marks), (0, 1))
        self.assertEqual(self.asked(), [0] * 8)


class Index(Case):
    """The first row that reads each place of screen, and then of attribute memory."""

    def setUp(self):
        super().setUp()
        # Rows 0 and 1 have two cells each; row 2 at 512 has none, and so have the others, which are
        # row 2 again.
        screen = bytearray(b"AB\xff\0\1".ljust(256) + b"CD\xff\0\2".ljust(256)
                           + b"\xff\0\2".ljust(3584))
        self.computer.load(screen, b"\3" * 4096)

    def rows(self):
        """The entries that name a row, by the row: places of screen memory, and of attribute
        memory."""
        computer, found = self.computer, {}
        for place in range(4096):
            for beside in (False, True):
                row = computer.first_row(place, beside)
                if row is not None:
                    found.setdefault(row, ([], []))[beside].append(place)
        return found

    def store(self, address, byte):
        """A store with the index as it is, for no viewer: the marks."""
        c = self.computer
        stored = rainbow.library.rainbow_store_with_index(
            c.machine, c.shared, 65536, c.screen, 4096, c.attribute, 4096, c.picture,
            len(c.picture), c.index, len(c.index), address, byte)
        self.assertEqual(stored.refusal, 0)
        return stored.marks

    def test_three_rows(self):
        self.assertEqual(self.rows(), {0: ([0, 1, 2, 3, 4], [0, 1, 3]),
                                       1: ([256, 257, 258, 259, 260], [256, 257, 259]),
                                       2: ([512, 513, 514], [513])})
        self.assertEqual(set(self.computer.index), {0, 1, 2, rainbow.NO_ROW})

    def test_torn(self):
        self.computer.load(bytes(4096), bytes(4096))
        self.assertEqual(self.rows(), {0: (list(range(81)), list(range(80)))})
        self.computer.write_port(0x04, 0x10)
        self.assertEqual(self.rows(), {0: (list(range(133)), list(range(132)))})

    def test_row_24(self):
        screen = bytearray(4096)
        for row in range(26):
            screen[8 * row:8 * row + 3] = 0xFF, 8 * row + 8, 0
        self.computer.load(screen, b"\3" * 4096)
        self.assertEqual(self.computer.first_row(8 * 24), 24)
        self.assertEqual(self.computer.first_row(8 * 24 + 1, beside=True), 24)
        self.assertIsNone(self.computer.first_row(8 * 25))

    def test_a_link_moves_rows(self):
        self.assertEqual(self.computer.store(SCREEN + 4, 3), 0x1FFFFFE)  # row 1 is torn at 768
        self.assertEqual(self.rows(), {0: ([0, 1, 2, 3, 4], [0, 1, 3]),
                                       1: (list(range(768, 849)), list(range(768, 848)))})
        self.assertEqual(bytes(self.computer.index), self.fresh_index())
        self.assertEqual(self.computer.store(SCREEN + 4, 1), 0x1FFFFFE)
        self.assertEqual(self.computer.first_row(260), 1)

    def test_f_is_taken_from_the_index(self):
        picture = bytes(self.computer.picture)
        self.computer.index[0] = 2
        self.assertEqual(self.store(SCREEN, 0x5A), 0)  # row 0 reads it, and is not mended
        self.assertEqual(bytes(self.computer.picture), picture)
        self.assertEqual(self.computer.first_row(0), 0)
        self.assertEqual(self.store(SCREEN, 0x5B), 1)

    def test_over_24_is_no_row(self):
        for entry in (25, 26, 254, 255):
            self.computer.index[0], self.computer.index[99] = entry, 24
            index, picture = bytes(self.computer.index), bytes(self.computer.picture)
            self.assertEqual(self.store(SCREEN, entry), 0)
            self.assertEqual(bytes(self.computer.index), index)
            self.assertEqual(bytes(self.computer.picture), picture)
            self.assertEqual(self.computer.screen[0], entry)
        self.computer.index[0] = 24
        self.store(SCREEN, 0x41)
        self.assertEqual(bytes(self.computer.index), self.fresh_index())

    def test_entries_under_f_stay(self):
        wrong = {3: 0, 300: 4, 301: 5, 302: 24, 303: 25, 4096: 4, 4097: 9}
        for entry, row in wrong.items():
            self.computer.index[entry] = row
        self.computer.index[256] = 5
        self.store(SCREEN + 256, 0x5A)
        fresh = bytearray(self.fresh_index())
        fresh[300] = fresh[4096] = 4  # under 5; the others became those of the memories
        self.assertEqual(bytes(self.computer.index), bytes(fresh))

    def test_shared_memory_has_no_entry(self):
        self.computer.index[:] = [0] * rainbow.INDEX_BYTES
        before = bytes(self.computer)
        self.assertEqual(self.computer.store(0xEE0, 0x5A), 0)
        self.assertEqual(self.changes(before), {0xEE0: 0x5A})

    def test_made_afresh(self):
        for again in (self.computer.draw, self.computer.power_up,
                      lambda: self.computer.write_port(0x04, 0x10),
                      lambda: self.computer.load(bytes(4096), bytes(4096))):
            self.computer.index[:] = [7] * rainbow.INDEX_BYTES
            again()
            self.assertEqual(bytes(self.computer.index), self.fresh_index())

    def test_refused(self):
        self.computer.index[:] = [1] * rainbow.INDEX_BYTES
        self.refused(2, self.computer.store, 0xF0000, 0x30)
        self.computer.machine.reset = True
        self.refused(8, self.computer.store, SCREEN, 0x31)
        self.refused(5, self.computer.first_row, 4096)
        self.refused(5, self.computer.first_row, 2 ** 64 - 1, True)

    def test_any_entry_of_a_first_row(self):
        for entry in (24, 25, 254, 255):
            self.computer.index[7] = entry
            self.assertEqual(self.computer.first_row(7), 24 if entry == 24 else None)

    def test_with_a_true_index(self):
        """A store does what one without an index does."""
        for place in (0, 2, 3, 4, 5, 256, 258, 259, 260, 513, 514, 600):
            for memory, byte in ((SCREEN, 0x01), (SCREEN, 0xFF), (ATTRIBUTE, 0x02)):
                self.setUp()
                c = copy.copy(self.computer)
                marks = self.computer.store(memory + place, byte)
                stored = rainbow.library.rainbow_store_for_viewers(
                    c.machine, c.viewers, c.shared, 65536, c.screen, 4096, c.attribute, 4096,
                    c.picture, len(c.picture), memory + place, byte)
                self.assertEqual(marks, stored.stored.marks)
                for part in ("shared", "screen", "attribute", "picture"):
                    self.assertEqual(bytes(getattr(c, part)), bytes(getattr(self.computer, part)))
                self.assertEqual(list(stored.viewers.waiting), list(self.computer.viewers.waiting))
                self.assertEqual(bytes(self.computer.index), self.fresh_index())


class Calls(Case):
    """Each method beside the rule of its call."""

    def test_new(self):
        machine_at = Computer.machine.offset
        picture_at = Computer.picture.offset
        self.assertEqual(bytes(self.computer)[machine_at:machine_at + 11], bytes(11))
        self.assertEqual(bytes(self.computer)[:picture_at], bytes(picture_at))
        self.assertEqual(list(self.computer.viewers.waiting), [ALL_ROWS] * 8)
        kept = bytes(self.computer.picture)
        self.assertNotEqual(kept, bytes(rainbow.PICTURE_BYTES))
        self.computer.draw()
        self.assertEqual(bytes(self.computer.picture), kept)

    def test_power_up_keeps_memories(self):
        self.computer.load(b"\xff" * 4096, bytes(4096))
        drawn = bytes(self.computer)
        self.computer.write_port(0x04, 0x10)
        self.computer.picture[0] = 9
        self.assertEqual(self.computer.power_up(), Drawing(ALL_EMPTY, 0))
        self.assertEqual(bytes(self.computer), drawn)

    def settings(self):
        """What the machine is asked."""
        computer = self.computer
        return (computer.columns, computer.dots, computer.z80_runs, computer.blanked,
                computer.graphics, computer.scroll_latch)

    def test_settings(self):
        self.assertEqual(self.settings(), (80, 800, False, True, False, 0))
        for port, code in ((0x04, 0x10), (0x0A, 0x07), (0x0C, 0x02), (0x10C, 0x05)):
            self.computer.write_port(port, code)
        self.assertEqual(self.settings(), (132, 1188, True, False, True, 6))

    def test_machine(self):
        self.computer.tick()
        self.assertTrue(self.computer.machine.interrupt)
        for port, code, field, value in (
                (0x0C, 0x09, "interrupt", False), (0x0C, 0x08, "blink", True),
                (0x10C, 0x0A, "reverse", True), (0x10C, 0x0B, "reverse", False),
                (0x0C, 0x00, "watchdog", True), (0x10C, 0x00, "watchdog", False),
                (0x04, 0x30, "hertz50", True), (0x04, 0x20, "hertz50", False)):
            self.computer.write_port(port, code)
            self.assertIs(getattr(self.computer.machine, field), value, (port, code))
        self.assertIn("blink=True", repr(self.computer.machine))

    def test_ports_refused(self):
        self.refused(3, self.computer.write_port, 5, 0)
        self.refused(3, self.computer.write_port, 0xFFFF, 0xFF)
        self.refused(4, self.computer.write_port, 0x04, 0x01)
        self.refused(4, self.computer.write_port, 0x0C, 0x0C)
        self.refused(6, self.computer.write_port, 0x0A, 0xC0)

    def test_save(self):
        self.computer.shadow[:] = range(256)
        self.assertEqual(self.computer.write_port(0x0A, 0x40), 0)
        self.assertEqual(bytes(self.computer.nvm), bytes(range(256)))

    def test_shadow(self):
        self.computer.write_shadow(255, 0x5A)
        self.assertEqual(self.computer.shadow[255], 0x0A)
        self.computer.shadow[255] = 0x7C
        self.assertEqual(self.computer.read_shadow(255), 0x0C)
        self.refused(5, self.computer.read_shadow, 256)
        self.refused(5, self.computer.write_shadow, 2 ** 64 - 1, 0)

    def test_scan_line(self):
        for row, scan in ((LAST_ROW + 1, 1), (0, 0), (0, 11), (2 ** 64 - 1, 2 ** 64 - 1)):
            self.refused(5, self.computer.scan_line, row, scan)
        self.computer.line[799], self.computer.line[1187] = 3, 3
        self.assertEqual(self.computer.scan_line(LAST_ROW, 10), bytes(800))
        self.assertEqual(bytes(self.computer.line), bytes(1188))

    def test_glyph(self):
        view = self.computer.glyph(3)
        view[:] = bytes(range(16))
        self.assertEqual(self.computer.glyphs[48:64], list(range(16)))
        self.assertEqual(sum(self.computer.glyphs), sum(range(16)))
        del self.computer
        self.assertEqual(view.tolist(), list(range(16)))

    def test_rows_and_text(self):
        screen, attribute = bytearray(b"A" * 4096), bytearray(4096)
        screen[0:8] = b"HERD\x01\xff\x50\x01"
        attribute[6] = 6  # the row pointed to is wide and scrolls
        self.computer.load(screen, attribute)
        self.assertEqual(self.computer.row(0), Row(0, 3, 5, 5))
        self.assertEqual(self.computer.text(0), "HERD.")
        self.assertEqual(self.computer.row(1), Row(0x150, 6, rainbow.TORN, 40))
        self.assertEqual(self.computer.text(1), "A" * 40)
        self.assertEqual((self.computer.row(2), self.computer.text(2)), (DARK_ROW, ""))
        self.assertEqual(self.computer.write_port(0x04, 0x10), 2)
        self.assertEqual(self.computer.text(1), "A" * 66)
        self.assertEqual(self.computer.write_port(0x04, 0x10), 0)
        self.assertEqual(self.computer.row(LAST_ROW), DARK_ROW)
        for row in (LAST_ROW + 1, 2 ** 64 - 1):
            self.refused(5, self.computer.row, row)
            self.refused(5, self.computer.text, row)

    def test_text_is_printable(self):
        for first in range(0, 255, 51):
            codes = bytes(range(first, first + 51))
            self.computer.load(codes + b"\xff" + bytes(4044), bytes(4096))
            wanted = "".join(chr(code) if 32 <= code <= 126 else "." for code in codes)
            self.assertEqual(self.computer.text(0), wanted)

    def test_text_of_a_count_too_great(self):
        self.computer.picture[rainbow.COUNT_AT] = 200
        self.assertEqual(self.computer.row(0).cells, 132)
        self.assertEqual(self.computer.text(0), "." * 80 + " " * 52)

    def test_marked_rows(self):
        self.assertEqual(self.computer.marked_rows(0x3000005), [0, 2, 24])
        self.assertEqual(rainbow.marked_rows(0), [])

    def test_load(self):
        screen, attribute = bytes([1, 0xFF] * 2048), bytearray([3, 5] * 2048)
        ctypes_array = (ctypes.c_uint8 * 4096).from_buffer_copy(screen)
        drawing = self.computer.load(ctypes_array, memoryview(attribute))
        self.assertEqual(drawing, Drawing(1 + ALL_EMPTY, 0))
        self.assertEqual(bytes(self.computer.screen), screen)
        self.assertEqual(bytes(self.computer.attribute), attribute)
        self.computer.load(self.computer.attribute, self.computer.screen)
        self.assertEqual(bytes(self.computer.screen), attribute)
        self.assertEqual(bytes(self.computer.attribute), screen)
        self.computer.load_glyphs(screen)
        self.assertEqual(bytes(self.computer.glyphs), screen)

    def test_load_refused(self):
        good = b"\xff" * 4096
        for wrong in (b"", good[1:], good + good[:1]):
            self.refused(1, self.computer.load, good, wrong)
            self.refused(1, self.computer.load, wrong, good)
            self.refused(1, self.computer.load_glyphs, wrong)
        for wrong in (4096, "\0" * 4096, None):
            self.assertRaises(TypeError, self.computer.load, good, wrong)
            self.assertRaises(TypeError, self.computer.load_glyphs, wrong)
        self.assertEqual(bytes(self.computer), bytes(Computer()))

    def test_refused_says_why(self):
        with self.assertRaises(Refused) as caught:
            self.computer.read(0x10000)
        why = "the 8088's address lies in none of its three ranges"
        self.assertEqual(caught.exception.text, why)
        self.assertEqual(str(caught.exception), "2, " + why)
        again = pickle.loads(pickle.dumps(caught.exception))
        self.assertEqual((again.number, again.text), (2, why))

    def test_copy(self):
        self.computer.store(SCREEN, 0x41)
        other = copy.copy(self.computer)
        self.assertEqual(bytes(other), bytes(self.computer))
        other.store(SCREEN, 0x42)
        self.assertEqual((self.computer.read(SCREEN), other.read(SCREEN)), (0x41, 0x42))


class Numbers(Case):
    """Numbers that the C type does not hold."""

    def test_do_not_fit(self):
        computer = self.computer
        computer.write_port(0x0A, 0x01)
        for call, given, most in (
                (computer.read, [0], [0xFFFFFFFF]),
                (computer.store, [0, 0], [0xFFFFFFFF, 0xFF]),
                (computer.read_z80, [0], [0xFFFF]),
                (computer.store_z80, [0, 0], [0xFFFF, 0xFF]),
                (computer.read_shadow, [0], [2 ** 64 - 1]),
                (computer.write_shadow, [0, 0], [2 ** 64 - 1, 0xFF]),
                (computer.write_port, [0x0C, 8], [0xFFFF, 0xFF]),
                (computer.scan_line, [0, 1], [2 ** 64 - 1, 2 ** 64 - 1]),
                (computer.why, [0, 0], [2 ** 64 - 1, 2 ** 64 - 1]),
                (computer.ask, [0], [2 ** 64 - 1]),
                (computer.first_row, [0], [2 ** 64 - 1]),
                (computer.glyph, [0], [0xFF]),
                (computer.row, [0], [2 ** 64 - 1]),
                (computer.text, [0], [2 ** 64 - 1]),
                (computer.marked_rows, [0], [0xFFFFFFFF])):
            for at, top in enumerate(most):
                with self.subTest(call=call.__name__, at=at):
                    self.do_not_fit(call, given, at, top)

    def do_not_fit(self, call, given, at, top):
        """One number of a call is wrong. What would be left of most of them is accepted."""
        before = bytes(self.computer)
        for number in (-1, top + 1, -top, 2 * (top + 1), 2 ** 70, 10 ** 5000):
            with self.assertRaisesRegex(ValueError, f"range 0 to {top:#x}$"):
                call(*given[:at], number, *given[at + 1:])
        for number in (1.0, "1", b"A", None):
            self.assertRaises(TypeError, call, *given[:at], number, *given[at + 1:])
        self.assertEqual(bytes(self.computer), before)

    def test_the_greatest_fits(self):
        self.computer.write_port(0x0A, 0x01)
        self.computer.store_z80(0xFFFF, 0xFF)
        self.assertEqual(self.computer.read_z80(0xFFFF), 0xFF)
        self.assertEqual(self.computer.read(0xFFFF), 0xFF)
        self.assertEqual(len(self.computer.glyph(0xFF)), 16)
        self.assertEqual(rainbow.marked_rows(0xFFFFFFFF), list(range(rainbow.ROWS)))


class Headers(unittest.TestCase):
    """The module beside include/rainbow.h and include/rainbow_computer.h."""

    calls, whole = header("rainbow.h"), header("rainbow_computer.h")

    def test_numbers(self):
        wanted = defines(self.calls)
        self.assertGreaterEqual(len(wanted), 41)
        self.assertEqual({name: getattr(rainbow, name, None) for name in wanted}, wanted)
        pairs = (rainbow.RECORD_BYTES - rainbow.PAIRS_AT) // 2
        self.assertEqual(rainbow.PAIRS, pairs)
        self.assertEqual(defines(self.whole), {"PAIRS": pairs, "TEXT_BYTES": pairs + 1})

    def test_sizes(self):
        wanted = {**sizes(self.calls), **sizes(self.whole)}
        self.assertEqual(wanted.pop("rainbow_row"), 6)  # a tuple here
        self.assertEqual({name: size for name, (_, size) in rainbow.SIZES.items()}, wanted)
        for name, size in wanted.items():
            self.assertEqual(ctypes.sizeof(C_TYPES[name]), size, name)
            self.assertIs(rainbow.SIZES[name][0], C_TYPES[name])

    def test_other_size(self):
        with self.assertRaisesRegex(ImportError, "^rainbow_drawn has 6 bytes .*, not 4$"):
            rainbow.check_sizes({"rainbow_drawn": (rainbow.Drawn, 4)})

    def test_fields(self):
        wanted = {**structs(self.calls), **structs(self.whole)}
        self.assertEqual({name for _, name, _ in wanted.pop("rainbow_row")} - {"refusal"},
                         set(Row._fields))
        self.assertEqual(len(wanted), 12)
        for name, fields in wanted.items():
            fields = [(field, C_TYPES[kind] * getattr(rainbow, length) if length else C_TYPES[kind])
                      for kind, field, length in fields]
            self.assertEqual(C_TYPES[name]._fields_, fields, name)

    def test_functions(self):
        wanted = declarations(self.calls)
        self.assertEqual(len(wanted), 31)
        self.assertEqual(list(rainbow.FUNCTIONS), list(wanted))
        for name, (answer, given) in wanted.items():
            function = getattr(rainbow.library, name)
            self.assertIs(function.restype, C_TYPES[answer], name)
            self.assertEqual(function.argtypes, [C_TYPES[kind] for kind, _ in given], name)

    def test_methods(self):
        """Each function of rainbow_computer.h is a method."""
        names = re.findall(r"^static inline .*\brainbow_computer_(\w+)\(", self.whole, flags=re.M)
        self.assertEqual(len(names), 18)
        for name in names:
            self.assertTrue(callable(getattr(Computer, name)), name)

    def test_refusal_texts(self):
        numbers = defines(self.calls)
        found = re.findall(r'case RAINBOW_(\w+):\s+return "(.*)";', self.whole)
        wanted = {numbers[name]: text for name, text in found}
        self.assertEqual(dict(enumerate(rainbow.REFUSAL_TEXTS)), wanted)
        self.assertEqual(list(wanted), list(range(11)))


class Lent(Case):
    """The functions of the library with buffers that they have to refuse."""

    numbers = {"address": SCREEN, "byte": 1, "value": 1, "place": 0, "port": 0x0C, "code": 8,
               "row": 0, "scan": 1, "column": 0}
    of_the_8088 = {"rainbow_write_port", "rainbow_read_8088", "rainbow_store_8088",
                   "rainbow_read_shadow", "rainbow_write_shadow", "rainbow_store_with_picture",
                   "rainbow_store_for_viewers", "rainbow_store_with_index",
                   "rainbow_store_with_index_for_viewers"}
    waiting = 0, 2, 4, 8, 16, 32, 64, 2 ** 32 - 1  # a drawing changes each of these, a store most

    def arguments(self, given):
        """Arguments that are accepted, a buffer of the computer for each pointer."""
        arguments = []
        for kind, name in given:
            if kind == "uint8_t *":
                buffer = getattr(self.computer, "glyphs" if name == "table" else name)
                arguments += [buffer, len(buffer)]
            elif name == "machine":
                arguments.append(self.computer.machine)
            elif name == "viewers":
                arguments.append(rainbow.Viewers(self.waiting))
            elif not name.endswith("_length"):
                arguments.append(self.numbers[name])
        return arguments

    def refusal(self, answer):
        """The refusal of an answer. If it is one, all its other numbers are 0."""
        if isinstance(answer, int):
            return answer
        (first, _), *others = answer._fields_
        refusal = self.refusal(getattr(answer, first))  # a number, or an answer in this one
        if refusal != 0:
            for name, kind in others:
                value = getattr(answer, name)
                if kind is rainbow.Machine:
                    self.assertEqual(bytes(value), bytes(self.computer.machine))
                elif kind is rainbow.Viewers:
                    self.assertEqual(tuple(value.waiting), self.waiting)
                else:
                    self.assertEqual(value, 0, name)
        return refusal

    def test_refused(self):
        self.computer.tick()
        self.computer.write_port(0x0A, 0x01)
        self.computer.screen[:] = b"\xff" * 4096  # every link is wild
        functions = 0
        for name, (_, given) in declarations(header("rainbow.h")).items():
            lengths = [at for at, (_, part) in enumerate(given) if part.endswith("_length")]
            if not lengths:
                continue
            functions += 1
            call, arguments = getattr(rainbow.library, name), self.arguments(given)
            self.assertEqual(len(arguments), len(given), name)
            before = bytes(self.computer)
            for at in lengths:
                self.one_refused(name, call, arguments, at)
            self.assertEqual(bytes(self.computer), before, name)
            if name == "rainbow_list_lines":
                self.latch_refused(name, call, arguments, lengths)
            if name == "rainbow_explain":
                self.place_refused(name, call, arguments, lengths)
            if name.endswith("_z80"):
                self.held_refused(name, call, arguments, lengths)
            if name in self.of_the_8088:
                self.reset_refused(name, call, arguments, lengths)
            else:
                self.assertEqual(self.in_reset(call, arguments), 0, name)
            self.assertEqual(self.refusal(call(*arguments)), 0, name)
        self.assertEqual(functions, 18)

    def latch_refused(self, name, call, arguments, lengths):
        """The latch is over 9: 9, but 1 where a length is wrong too."""
        before, latched = bytes(self.computer), [rainbow.Machine(latch=10), *arguments[1:]]
        self.assertEqual(self.refusal(call(*latched)), 9, name)
        for at in lengths:
            self.one_refused(name, call, latched, at)
        self.assertEqual(bytes(self.computer), before, name)

    def place_refused(self, name, call, arguments, lengths):
        """There is no such row or column: 5, but 1 where a length is wrong too."""
        before = bytes(self.computer)
        for row, column in ((rainbow.ROWS, 0), (0, rainbow.COLUMNS), (2 ** 64 - 1, 2 ** 64 - 1)):
            outside = [*arguments[:-2], row, column]
            self.assertEqual(self.refusal(call(*outside)), 5, name)
            for at in lengths:
                self.one_refused(name, call, outside, at)
        self.assertEqual(bytes(self.computer), before, name)

    def held_refused(self, name, call, arguments, lengths):
        """The Z80 is held: 7, but 1 where a length is wrong too."""
        before, held = bytes(self.computer), [rainbow.Machine(), *arguments[1:]]
        self.assertEqual(self.refusal(call(*held)), 7, name)
        for at in lengths:
            self.one_refused(name, call, held, at)
        self.assertEqual(bytes(self.computer), before, name)

    def in_reset(self, call, arguments):
        """The refusal while the 8088 is in reset. The arguments have the computer's own machine."""
        self.computer.machine.reset = True
        refusal = self.refusal(call(*arguments))
        self.computer.machine.reset = False
        return refusal

    def reset_refused(self, name, call, arguments, lengths):
        """The 8088 is in reset: 8, but 1 where a length is wrong too."""
        before = bytes(self.computer)
        self.assertEqual(self.in_reset(call, arguments), 8, name)
        self.computer.machine.reset = True
        for at in lengths:
            self.one_refused(name, call, arguments, at)
        self.computer.machine.reset = False
        self.assertEqual(bytes(self.computer), before, name)

    def one_refused(self, name, call, arguments, at):
        """One buffer is NULL, or has another length."""
        right = arguments[at]
        wrong = [0, 1, right - 1, right + 1, 2 * right, 2 ** 32 + right, 2 ** 64 - 1]
        for pointer, lengths in ((None, wrong + [right]), (arguments[at - 1], wrong)):
            for length in lengths:
                changed = list(arguments)
                changed[at - 1:at + 1] = pointer, length
                with self.subTest(name, null=pointer is None, length=length):
                    self.assertEqual(self.refusal(call(*changed)), 1)


class Runs(Case):
    """A long run of calls."""

    calls = 30000

    def setUp(self):
        super().setUp()
        self.random = random.Random(1)
        self.named = set()  # the rows that drawings named
        # The picture as each viewer has it.
        self.copies = [bytearray(rainbow.PICTURE_BYTES) for _ in range(rainbow.VIEWERS)]
        fill = self.random.choices(range(256), k=65536)
        self.computer.shared[:] = fill
        self.computer.nvm[:] = fill[:256]
        self.computer.load_glyphs(bytes(fill[:4096]))
        screen = [0xFF if self.random.random() < 0.05 else code % 16 for code in fill[:4096]]
        self.computer.load(bytes(screen), bytes(fill[4096:8192]))

    def byte(self):
        """Any byte, but often FF or one that makes no link wild."""
        return self.random.choice((0xFF, self.random.randrange(16), self.random.randrange(256)))

    def in_a_row(self):
        """An address of screen or attribute memory that a row is likely to read."""
        row = self.computer.row(self.random.randrange(rainbow.ROWS))
        place = row.start + self.random.randrange(row.cells + 3)
        return self.random.choice((SCREEN, ATTRIBUTE)) + place % 4096

    def one_call(self):
        """Makes one call. The answer is its name, its marks if it has any, and a read that must
        give the byte stored, if one was."""
        computer, below, byte = self.computer, self.random.randrange, self.byte()
        kind = below(13)
        if kind < 6:
            address = (below(0x10000) if kind == 0 else SCREEN - 32 + below(0x2040) if kind == 1
                       else self.in_a_row())
            return "store", computer.store(address, byte), (computer.read, address, byte)
        if kind == 6:
            address = below(0x1000)
            computer.store_z80(address, byte)
            return "store_z80", 0, (computer.read_z80, address, byte)
        if kind == 7:
            port = self.random.choice((0x04, 0x04, 0x04, 0x0A, 0x0C, 0x10C, 0x05))
            code = self.random.choice((0x00, 0x10, 0x20, 0x30, below(16), byte))
            if port == 0x0A:  # the Z80 is held by half of the codes
                code = below(256)
            return "write_port", computer.write_port(port, code), None
        if kind == 8:
            place = below(300)
            computer.write_shadow(place, byte)
            return "write_shadow", 0, (computer.read_shadow, place, byte % 16)
        if kind == 9:
            for _ in range(below(100)):
                computer.watchdog_tick()
            computer.tick()
            return "ticks", 0, None
        if kind == 10:
            shown = lines_shown(self.kinds(), computer.scroll_latch)
            self.assertEqual(computer.list_lines(), shown)
            return "list_lines", 0, None
        if kind == 11:
            return self.asked(below(10)), 0, None
        computer.scan_line(below(rainbow.ROWS + 2), below(rainbow.LAST_SCAN + 2))
        return "scan_line", 0, None

    def asked(self, viewer):
        """A viewer asks, takes over the rows that are marked, and then has the picture."""
        rows, picture = rainbow.marked_rows(self.computer.ask(viewer)), self.computer.picture
        for row in rows:
            record = slice(row * rainbow.RECORD_BYTES, (row + 1) * rainbow.RECORD_BYTES)
            self.copies[viewer][record] = bytes(picture[record])
        self.assertEqual(self.copies[viewer], bytes(picture))
        return "ask" if rows else "ask in vain"

    def kinds(self):
        """The kind of each row."""
        return [self.computer.row(row).kind for row in range(rainbow.ROWS)]

    def first_wild(self):
        """The first row whose link is wild, by the kept picture and the screen."""
        for number in range(rainbow.ROWS):
            row = self.computer.row(number)
            if row.torn or row.dark:
                return None
            if self.computer.screen[(row.start + row.count + 2) % 4096] >= 0x10:
                return number
        return None

    def drawn_afresh(self):
        """The picture as it is drawn into another buffer, by a drawing that names the right row."""
        computer, picture = self.computer, (ctypes.c_uint8 * rainbow.PICTURE_BYTES)()
        drawn = rainbow.library.rainbow_draw(computer.machine, computer.screen, 4096,
                                             computer.attribute, 4096, picture, len(picture))
        self.assertEqual(drawn.refusal, 0)
        wild_row = self.first_wild()
        self.named.add(wild_row)
        self.assertEqual((drawn.wild, drawn.wild_row), (wild_row is not None, wild_row or 0))
        return bytes(picture)

    def changed_rows(self, before):
        """The rows whose records differ from those of an earlier picture."""
        after = bytes(self.computer.picture)
        size = rainbow.RECORD_BYTES
        records = [slice(row * size, (row + 1) * size) for row in range(rainbow.ROWS)]
        return [row for row, record in enumerate(records) if before[record] != after[record]]

    def test_kept_picture(self):
        seen = {}
        for number in range(self.calls):
            before, columns = bytes(self.computer), self.computer.columns
            picture = bytes(self.computer.picture)
            try:
                name, marks, stored = self.one_call()
            except Refused as refused:
                self.assertEqual(bytes(self.computer), before)
                self.count(seen, refused.number)
                continue
            self.count(seen, name)
            self.count(seen, "marks", marks != 0)
            self.count(seen, "columns", self.computer.columns != columns)
            self.assertEqual(rainbow.marked_rows(marks), self.changed_rows(picture))
            if stored is not None:
                read, place, byte = stored
                self.assertEqual(read(place), byte)
            if number % 50 == 0:
                self.assertEqual(bytes(self.computer.picture), self.drawn_afresh())
            self.assertEqual(bytes(self.computer.index), self.fresh_index())
        self.assertEqual(bytes(self.computer.picture), self.drawn_afresh())
        # The run went everywhere that it should.
        for name, least in (("store", 6000), ("store_z80", 500), (7, 500), ("write_port", 500),
                            ("write_shadow", 500), ("scan_line", 500), ("ticks", 500), (8, 2000),
                            ("list_lines", 500), (9, 100), ("marks", 500), ("columns", 100), (2, 5),
                            (3, 100), (4, 100), (5, 100), (6, 1), ("ask", 500),
                            ("ask in vain", 100), (10, 100)):
            self.assertGreaterEqual(seen.get(name, 0), least, name)
        self.assertLessEqual({None, 0, 1, 2, 3, 4}, self.named)

    @staticmethod
    def count(seen, name, holds=True):
        """Counts what was seen."""
        seen[name] = seen.get(name, 0) + holds


class Lister(unittest.TestCase):
    """The example, run as a user runs it."""

    def run_rows(self, *arguments, given=b"", folder=None):
        """What rows.py does: exit status, standard output, standard error."""
        command = [sys.executable, os.path.join(HERE, "rows.py"), *arguments]
        done = subprocess.run(command, input=given, stdout=subprocess.PIPE, stderr=subprocess.PIPE,
                              cwd=folder, timeout=60, check=False)
        return done.returncode, done.stdout, done.stderr

    def told(self, *arguments):
        """What is told in one line on standard error."""
        status, printed, told = self.run_rows(*arguments)
        self.assertEqual((status, printed), (2, b""))
        self.assertRegex(told.decode(), r"\Arows\.py: [^\n]+\n\Z")
        return told.decode()

    def test_zeros(self):
        wanted = b"columns 80 reads 81\n0 0000 3 torn\n"
        self.assertEqual(self.run_rows(given=bytes(8192)), (0, wanted, b""))

    def test_lengths(self):
        for length in (0, 4096, 8191, 8193, 100000):
            self.assertEqual(self.run_rows(given=bytes(length)), (0, b"refused 1\n", b""), length)

    def test_sample(self):
        name = os.path.join(ROOT, "crates", "rows", "stdin")
        with open(name, "rb") as file:
            dump = file.read()
        with open(os.path.join(ROOT, "crates", "rows", "stdout"), "rb") as file:
            wanted = file.read()
        self.assertEqual(self.run_rows(given=dump), (0, wanted, b""))
        with tempfile.TemporaryDirectory() as folder:
            self.assertEqual(self.run_rows(name, folder=folder), (0, wanted, b""))

    def test_text(self):
        dump = b"|HERD\x01\xff\x50\x01".ljust(4096, b"A") + bytes(4096)
        wanted = b"columns 80 reads 50\n0 0000 3 6 ||HERD.|\n1 0150 0 torn |" + b"A" * 40 + b"|\n"
        self.assertEqual(self.run_rows("--text", given=dump), (0, wanted, b""))
        with tempfile.TemporaryDirectory() as folder:
            with open(os.path.join(folder, "dump"), "wb") as file:
                file.write(dump)
            self.assertEqual(self.run_rows("dump", "--text", folder=folder), (0, wanted, b""))

    def test_wild(self):
        for high, told in ((0x01, b""), (0x91, b"rows.py: the link of row 0 is wild\n")):
            dump = bytes([0xFF, 0x50, high]).ljust(8192, b"\0")
            wanted = b"columns 80 reads 44\n0 0000 3 0\n1 0150 0 torn\n"
            self.assertEqual(self.run_rows(given=dump), (0, wanted, told))
            self.assertEqual(self.run_rows(given=dump[:-1]), (0, b"refused 1\n", b""))

    def test_bad_arguments(self):
        for arguments in (["a", "b"], ["--txt"], ["-h"], ["--text", "a", "b"]):
            self.assertIn("[--text] [FILE]", self.told(*arguments))

    def test_bad_files(self):
        self.assertIn("no/such", self.told("no/such"))
        self.assertIn("directory", self.told(HERE))

    def test_no_library(self):
        with mock.patch.dict(os.environ, RAINBOW_LIBRARY="/no/such/librainbow.so"):
            self.assertIn("make library", self.told())


class Finding(unittest.TestCase):
    """Where the library is looked for."""

    script = ("import sys; sys.path.insert(0, sys.argv[1])\n"
              "try:\n    import rainbow; print(rainbow.library._name)\n"
              "except (OSError, ImportError) as error:\n    print(type(error).__name__, error)")

    def imported(self, folder=HERE, work=ROOT, **environment):
        """What an import of a folder's rainbow.py comes to, in a working folder."""
        outer = {name: value for name, value in os.environ.items() if name != "RAINBOW_LIBRARY"}
        done = subprocess.run([sys.executable, "-c", self.script, folder], stdout=subprocess.PIPE,
                              env={**outer, **environment}, cwd=work, timeout=60, check=True)
        return done.stdout.decode()

    def test_named_file_is_not_there(self):
        told = self.imported(RAINBOW_LIBRARY="/no/such/librainbow.so")
        self.assertRegex(told, r"\AOSError librainbow cannot be loaded "
                               r"\(/no/such/librainbow\.so: [^\n]*\): run `make library`, "
                               r"or set RAINBOW_LIBRARY to the library's file\n\Z")

    def test_named_file_is_another_library(self):
        other = getattr(sys.modules["_ctypes"], "__file__", None)
        if other is None:
            self.skipTest("this Python has no library of its own")
        told = self.imported(RAINBOW_LIBRARY=other)
        self.assertRegex(told, r"\AImportError a function of librainbow is missing \(.*version\)\n")

    def test_named_file(self):
        """A name with no folder is a file of the working folder, not one of the loader's."""
        file = self.library_file()
        with tempfile.TemporaryDirectory() as folder:
            shutil.copy(file, os.path.join(folder, "other.so"))
            told = self.imported(work=folder, RAINBOW_LIBRARY="other.so")
            self.assertEqual(told, os.path.join(os.path.realpath(folder), "other.so") + "\n")
            told = self.imported(RAINBOW_LIBRARY="other.so", LD_LIBRARY_PATH=folder)
            self.assertRegex(told, r"\AOSError .*/other\.so: ")

    def test_installed(self):
        file = self.library_file()
        with tempfile.TemporaryDirectory() as folder:
            os.mkdir(os.path.join(folder, "python"))
            shutil.copy(os.path.join(HERE, "rainbow.py"), os.path.join(folder, "python"))
            shutil.copy(file, os.path.join(folder, f"librainbow.so.{rainbow.VERSION}"))
            told = self.imported(os.path.join(folder, "python"), LD_LIBRARY_PATH=folder)
            self.assertEqual(told, f"librainbow.so.{rainbow.VERSION}\n")

    def library_file(self):
        """The file of the library that is being tested."""
        name = rainbow.library._name
        if not os.path.isabs(name):
            self.skipTest("the library came from the loader")
        return name

    def tried(self, found, **environment):
        """The places that are tried, one after the other, if the library is at none."""
        with mock.patch.dict(os.environ, environment), \
                mock.patch("ctypes.CDLL", side_effect=OSError("it is not there")) as load, \
                mock.patch("ctypes.util.find_library", return_value=found):
            if "RAINBOW_LIBRARY" not in environment:
                os.environ.pop("RAINBOW_LIBRARY", None)
            with self.assertRaisesRegex(OSError, "it is not there.*make library.*RAINBOW_LIBRARY"):
                rainbow.load_library()
        return [call[0][0] for call in load.call_args_list]

    def test_order(self):
        built = os.path.join(os.path.realpath(ROOT), "target", "library", "librainbow.so")
        places = [built, f"librainbow.so.{rainbow.VERSION}", "librainbow.so"]
        self.assertEqual(self.tried(None), places)
        self.assertEqual(self.tried("librainbow.so.9"), places + ["librainbow.so.9"])
        self.assertEqual(self.tried("librainbow.so.9", RAINBOW_LIBRARY="/a/b"), ["/a/b"])
        self.assertEqual(self.tried(None, RAINBOW_LIBRARY=""), places)

    def test_version(self):
        self.assertEqual(rainbow.library.rainbow_version(), rainbow.VERSION)
        wrong = rainbow.VERSION - 1
        other = types.SimpleNamespace(rainbow_version=lambda: wrong)
        told = f"version {wrong}, .* for {rainbow.VERSION}$"
        with self.assertRaisesRegex(ImportError, told):
            rainbow.set_up(other)

    def test_function_missing(self):
        other = types.SimpleNamespace(rainbow_version=lambda: rainbow.VERSION)
        with self.assertRaisesRegex(ImportError, "rainbow_power_up"):
            rainbow.set_up(other)


if __name__ == "__main__":
    unittest.main()
