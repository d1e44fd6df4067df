"""The DEC Rainbow 100's screen, memories and ports: librainbow from Python.

    import rainbow
    computer = rainbow.Computer()
    computer.load(screen, attribute)
    print(computer.text(0))

A Computer holds all memories, the picture, the index, the viewers and the machine. Its methods are
the functions of include/rainbow_computer.h; include/rainbow.h has the rule of each call. A call
that is refused raises Refused and changes nothing. A number that the C type cannot hold raises
ValueError.
"""
import ctypes
import ctypes.util
import operator
import os
from ctypes import c_bool, c_size_t, c_uint8, c_uint16, c_uint32
from typing import NamedTuple, Optional

# The numbers of include/rainbow.h, by the same names: first its version.
VERSION = 9
SHARED_BYTES, PRIVATE_BYTES = 65536, 2048
SCREEN_BYTES, ATTRIBUTE_BYTES, GLYPH_BYTES = 4096, 4096, 4096
NVM_BYTES, SHADOW_BYTES = 256, 256
PICTURE_BYTES, LINE_BYTES, LIST_BYTES, INDEX_BYTES = 6700, 1188, 480, 8192
ACCEPTED, REFUSED_LENGTH, REFUSED_ADDRESS, REFUSED_PORT = 0, 1, 2, 3
REFUSED_CODE, REFUSED_PLACE, REFUSED_EDGES = 4, 5, 6
REFUSED_Z80_HELD, REFUSED_IN_RESET, REFUSED_LATCH, REFUSED_VIEWER = 7, 8, 9, 10
ROWS, RECORD_BYTES, KIND_AT, COUNT_AT, PAIRS_AT = 25, 268, 2, 3, 4
PAIRS = 132
TORN, DARK = 255, 254
NO_ROW = 255
COLUMNS = 132
WHY_CELL, WHY_FILL, WHY_PAST, WHY_DARK = 1, 2, 3, 4
FIRST_SCAN, LAST_SCAN = 1, 10
LINES, ROWS_AT_REST = 240, 24
VIEWERS = 8

# What each number of refusal says.
REFUSAL_TEXTS = (
    "accepted",
    "a lent buffer's length differs from the list",
    "the 8088's address lies in none of its three ranges",
    "the port is none of 04, 0A, 0C, 10C",
    "the code is not in that port's list",
    "a row over 24, a column over 131, a scan outside 1 to 10, a shadow place over 255",
    "bits 6 and 7 of port 0A both rise in one write",
    "the Z80 is held",
    "the 8088 is in reset",
    "a whole screen is asked for with the scroll latch over 9",
    "a viewer over 7",
)


class Refused(Exception):
    """A call was refused: `number` says why, 1 to 10, and `text` says it in words."""

    def __init__(self, number):
        super().__init__(number)
        self.number, self.text = number, REFUSAL_TEXTS[number]

    def __str__(self):
        return f"{self.number}, {self.text}"


class Drawing(NamedTuple):
    """What a drawing answers."""

    reads: int  # how many bytes of screen memory were read
    wild_row: Optional[int]  # the first row whose link is wild, or None

    @property
    def wild(self):
        """Whether a row's link has one of its top four bits set. A torn or dark row has no link."""
        return self.wild_row is not None


class Row(NamedTuple):
    """What the picture says of a row."""

    start: int  # its place in screen memory
    kind: int  # 0 to 7
    count: int  # cells before FF, or TORN, or DARK
    cells: int  # cells that it has, 132 at the most: its capacity if torn, none if dark

    @property
    def torn(self):
        """Whether the row has no FF where one has to be."""
        return self.count == TORN

    @property
    def dark(self):
        """Whether a row before it is torn."""
        return self.count == DARK


class Why(NamedTuple):
    """Why a cell shows what it shows. What the answer does not have is None."""

    answer: int  # WHY_CELL, WHY_FILL, WHY_PAST or WHY_DARK
    place: Optional[int]  # a cell: the place that holds it; fill: that of the FF that ended the row
    kind: Optional[int]  # a cell: the kind of its row, 0 to 7
    tore: Optional[int]  # dark: the row that tore
    link: Optional[int]  # the place of the low link byte that led to the row, which row 0 has not

    @property
    def cell(self):
        """Whether a cell of the row stands there."""
        return self.answer == WHY_CELL

    @property
    def fill(self):
        """Whether the row's FF comes before it, or stands there."""
        return self.answer == WHY_FILL

    @property
    def past(self):
        """Whether the row's capacity ends before it."""
        return self.answer == WHY_PAST

    @property
    def dark(self):
        """Whether an earlier row is torn."""
        return self.answer == WHY_DARK


class Machine(ctypes.Structure):
    """The machine's own state. `count` is the watchdog's count of ticks, 0 to 127; `reset` says
    whether the 8088 is in reset."""

    _fields_ = [("columns132", c_bool), ("hertz50", c_bool), ("interlace", c_bool),
                ("latch", c_uint8), ("blink", c_bool), ("interrupt", c_bool), ("reverse", c_bool),
                ("watchdog", c_bool), ("count", c_uint8), ("reset", c_bool), ("held", c_uint8)]

    def __repr__(self):
        fields = (f"{name}={getattr(self, name)}" for name, _ in self._fields_)
        return f"Machine({', '.join(fields)})"


class ByteRead(ctypes.Structure):
    """The answer of a read."""
    _fields_ = [("refusal", c_uint8), ("byte", c_uint8)]


class Written(ctypes.Structure):
    """The answer of a write to a port."""
    _fields_ = [("refusal", c_uint8), ("machine", Machine)]


class Drawn(ctypes.Structure):
    """The answer of a drawing."""
    _fields_ = [("refusal", c_uint8), ("reads", c_uint16), ("wild", c_bool), ("wild_row", c_uint8)]


class Stored(ctypes.Structure):
    """The answer of a store with a picture lent."""
    _fields_ = [("refusal", c_uint8), ("marks", c_uint32)]


class Viewers(ctypes.Structure):
    """The marks that wait for each of eight viewers."""
    _fields_ = [("waiting", c_uint32 * VIEWERS)]


class Asked(ctypes.Structure):
    """The answer of an ask."""
    _fields_ = [("refusal", c_uint8), ("marks", c_uint32), ("viewers", Viewers)]


class DrawnForViewers(ctypes.Structure):
    """The answer of a drawing that serves viewers."""
    _fields_ = [("drawn", Drawn), ("viewers", Viewers)]


class StoredForViewers(ctypes.Structure):
    """The answer of a store that serves viewers."""
    _fields_ = [("stored", Stored), ("viewers", Viewers)]


class Explained(ctypes.Structure):
    """The answer of what explains a cell."""
    _fields_ = [("refusal", c_uint8), ("answer", c_uint8), ("place", c_uint16), ("kind", c_uint8),
                ("tore", c_uint8), ("linked", c_bool), ("link", c_uint16)]


class PartPlace(ctypes.Structure):
    """Where a code's part of a glyph table starts, and how long it is."""
    _fields_ = [("refusal", c_uint8), ("at", c_size_t), ("length", c_size_t)]


# What each function answers, and what it is given.
_LENT = [ctypes.POINTER(c_uint8), c_size_t]
FUNCTIONS = {
    "rainbow_version": (c_uint32, []),
    "rainbow_power_up": (Machine, []),
    "rainbow_vertical_tick": (Machine, [Machine]),
    "rainbow_watchdog_tick": (Machine, [Machine]),
    "rainbow_columns": (c_size_t, [Machine]),
    "rainbow_scroll_latch": (c_uint8, [Machine]),
    "rainbow_z80_runs": (c_bool, [Machine]),
    "rainbow_blanked": (c_bool, [Machine]),
    "rainbow_graphics": (c_bool, [Machine]),
    "rainbow_write_port": (Written, [Machine] + _LENT * 2 + [c_uint16, c_uint8]),
    "rainbow_read_8088": (ByteRead, [Machine] + _LENT * 3 + [c_uint32]),
    "rainbow_store_8088": (c_uint8, [Machine] + _LENT * 3 + [c_uint32, c_uint8]),
    "rainbow_read_z80": (ByteRead, [Machine] + _LENT * 2 + [c_uint16]),
    "rainbow_store_z80": (c_uint8, [Machine] + _LENT * 2 + [c_uint16, c_uint8]),
    "rainbow_read_shadow": (ByteRead, [Machine] + _LENT + [c_size_t]),
    "rainbow_write_shadow": (c_uint8, [Machine] + _LENT + [c_size_t, c_uint8]),
    "rainbow_draw": (Drawn, [Machine] + _LENT * 3),
    "rainbow_store_with_picture": (Stored, [Machine] + _LENT * 4 + [c_uint32, c_uint8]),
    "rainbow_index_readers": (c_uint8, [Machine] + _LENT * 3),
    "rainbow_store_with_index": (Stored, [Machine] + _LENT * 5 + [c_uint32, c_uint8]),
    "rainbow_is_marked": (c_bool, [c_uint32, c_size_t]),
    "rainbow_start_viewers": (Viewers, []),
    "rainbow_ask": (Asked, [Viewers, c_size_t]),
    "rainbow_draw_for_viewers": (DrawnForViewers, [Machine, Viewers] + _LENT * 3),
    "rainbow_store_for_viewers": (StoredForViewers,
                                  [Machine, Viewers] + _LENT * 4 + [c_uint32, c_uint8]),
    "rainbow_store_with_index_for_viewers": (StoredForViewers, [Machine, Viewers] + _LENT * 5
                                             + [c_uint32, c_uint8]),
    "rainbow_explain": (Explained, [Machine] + _LENT * 2 + [c_size_t] * 2),
    "rainbow_glyph_part": (PartPlace, _LENT + [c_uint8]),
    "rainbow_scan_line": (c_uint8, [Machine] + _LENT * 2 + [c_size_t] * 2 + _LENT),
    "rainbow_dots_of_line": (c_size_t, [Machine]),
    "rainbow_list_lines": (c_uint8, [Machine] + _LENT * 2),
}


def _number(value, kind):
    """The value, if the C type holds it: ctypes by itself cuts off what is too long."""
    value, most = operator.index(value), 256 ** ctypes.sizeof(kind) - 1
    if not 0 <= value <= most:
        raise ValueError(f"{value:#x} is not in the range 0 to {most:#x}")
    return value


def _refusal(answer):
    """The refusal of an answer: the answer itself, a field of it, or a field of its first part."""
    while not isinstance(answer, int):
        answer = getattr(answer, answer._fields_[0][0])
    return answer


def _call(name, *given):
    """The answer of a function that may refuse. A buffer is lent with its length after it."""
    arguments = []
    for part in given:
        arguments += [part, len(part)] if isinstance(part, ctypes.Array) else [part]
    for at, kind in enumerate(FUNCTIONS[name][1]):
        if kind in (c_uint8, c_uint16, c_uint32, c_size_t):
            arguments[at] = _number(arguments[at], kind)
    answer = getattr(library, name)(*arguments)
    if _refusal(answer) != ACCEPTED:
        raise Refused(_refusal(answer))
    return answer


def _copy(given, length):
    """The bytes of a bytes-like object, which must have this length."""
    copy = bytes(memoryview(given))
    if len(copy) != length:
        raise Refused(REFUSED_LENGTH)
    return copy


def marked_rows(marks):
    """The numbers of the rows that are marked."""
    marks = _number(marks, c_uint32)
    return [row for row in range(ROWS) if library.rainbow_is_marked(marks, row)]


class Computer(ctypes.Structure):
    """A whole Rainbow: at first all zeros, the machine at power-up, the picture drawn and the index
    worked out.

    The picture and the index of first readers are kept as long as memories and machine change by
    the methods alone. After a change of screen, attribute, index or machine by hand, call draw().
    Each store goes by the index, so that one into a byte which no row reads costs little. Each
    store and each drawing serves the eight viewers: ask() tells one which rows to take over.
    """

    _fields_ = [("shared", c_uint8 * SHARED_BYTES), ("private_memory", c_uint8 * PRIVATE_BYTES),
                ("screen", c_uint8 * SCREEN_BYTES), ("attribute", c_uint8 * ATTRIBUTE_BYTES),
                ("glyphs", c_uint8 * GLYPH_BYTES), ("nvm", c_uint8 * NVM_BYTES),
                ("shadow", c_uint8 * SHADOW_BYTES), ("picture", c_uint8 * PICTURE_BYTES),
                ("line", c_uint8 * LINE_BYTES), ("list", c_uint8 * LIST_BYTES),
                ("index", c_uint8 * INDEX_BYTES), ("viewers", Viewers), ("machine", Machine)]

    marked_rows = staticmethod(marked_rows)

    def __init__(self):
        super().__init__()
        self.power_up()

    def power_up(self):
        """Sets the machine as at power-up and the viewers as at their start, and draws; no memory
        changes. Answers as draw() does."""
        self.machine = library.rainbow_power_up()
        self.viewers = library.rainbow_start_viewers()
        return self.draw()

    def draw(self):
        """Draws the picture and works the index out, both afresh, and all rows wait for all
        viewers. The answer is a Drawing: how many bytes of screen memory were read, and the first
        row whose link is wild."""
        memories = self.screen, self.attribute
        served = _call("rainbow_draw_for_viewers", self.machine, self.viewers, *memories,
                       self.picture)
        _call("rainbow_index_readers", self.machine, *memories, self.index)
        self.viewers, drawn = served.viewers, served.drawn
        return Drawing(drawn.reads, drawn.wild_row if drawn.wild else None)

    def load(self, screen, attribute):
        """Copies in two memories of 4,096 bytes each. Draws, and answers as draw() does.
        Refused: 1."""
        screen, attribute = _copy(screen, SCREEN_BYTES), _copy(attribute, ATTRIBUTE_BYTES)
        self.screen[:], self.attribute[:] = screen, attribute
        return self.draw()

    def load_glyphs(self, table):
        """Copies in a glyph table of 4,096 bytes. Refused: 1."""
        self.glyphs[:] = _copy(table, GLYPH_BYTES)

    def read(self, address):
        """The byte that the 8088 reads. Refused: 8, 2."""
        memories = self.shared, self.screen, self.attribute
        return _call("rainbow_read_8088", self.machine, *memories, address).byte

    def store(self, address, byte):
        """The 8088 stores, picture and index are mended from the row that the index names for the
        byte, and the marks wait for each viewer. The answer is the marks: bit r is set exactly when
        record r changed. Refused: 8, 2."""
        memories = self.shared, self.screen, self.attribute, self.picture, self.index
        served = _call("rainbow_store_with_index_for_viewers", self.machine, self.viewers,
                       *memories, address, byte)
        self.viewers = served.viewers
        return served.stored.marks

    def ask(self, viewer):
        """Viewer 0 to 7 asks. The answer is the marks of the rows that were marked since it last
        asked; a drawing marks all rows for all viewers. No other viewer's marks change.
        Refused: 10."""
        asked = _call("rainbow_ask", self.viewers, viewer)
        self.viewers = asked.viewers
        return asked.marks

    def first_row(self, place, beside=False):
        """The first row that reads a place of screen memory, 0 to 4095, or the attribute byte
        beside it, as the index has it; None if no row does. Refused: 5."""
        if _number(place, c_size_t) >= SCREEN_BYTES:
            raise Refused(REFUSED_PLACE)
        row = self.index[SCREEN_BYTES + place if beside else place]
        return row if row < ROWS else None

    def read_z80(self, address):
        """The byte that the Z80 reads. Refused: 7."""
        memories = self.private_memory, self.shared
        return _call("rainbow_read_z80", self.machine, *memories, address).byte

    def store_z80(self, address, byte):
        """The Z80 stores. Refused: 7."""
        memories = self.private_memory, self.shared
        _call("rainbow_store_z80", self.machine, *memories, address, byte)

    def read_shadow(self, place):
        """The byte at a place of the shadow, modulo 16. Refused: 8, 5."""
        return _call("rainbow_read_shadow", self.machine, self.shadow, place).byte

    def write_shadow(self, place, value):
        """Writes the value, modulo 16, to a place of the shadow. Refused: 8, 5."""
        _call("rainbow_write_shadow", self.machine, self.shadow, place, value)

    def write_port(self, port, code):
        """Writes a code to a port. If the column setting changes, picture and index are made
        afresh, and the answer is the marks of the records that changed, else 0; for the viewers it
        is a drawing. Refused: 8, 3, 4, 6."""
        columns = self.columns
        written = _call("rainbow_write_port", self.machine, self.shadow, self.nvm, port, code)
        self.machine = written.machine
        if self.columns == columns:
            return 0
        before = [self._record(row) for row in range(ROWS)]
        self.draw()
        return sum(1 << row for row in range(ROWS) if self._record(row) != before[row])

    def tick(self):
        """A vertical tick: sets the vertical interrupt."""
        self.machine = library.rainbow_vertical_tick(self.machine)

    def watchdog_tick(self):
        """A tick of the watchdog's clock, 0.85 ms on the Rainbow. While the watchdog is enabled,
        reset of the 8088 begins at the 128th tick after the last code 09, enabling or end of reset,
        and ends at the 128th tick after it began. In reset the 8088's calls are refused by 8."""
        self.machine = library.rainbow_watchdog_tick(self.machine)

    def scan_line(self, row, scan):
        """Draws scan 1 to 10 of a row into `line`. The answer is its dots, 0 to 3 each.
        Refused: 5."""
        memories = self.picture, self.glyphs
        _call("rainbow_scan_line", self.machine, *memories, row, scan, self.line)
        return bytes(self.line)[:self.dots]

    def list_lines(self):
        """Lists the 240 lines of the whole screen in `list`. The answer is a pair for each line
        from the top: the row and the scan that it shows. Refused: 9."""
        _call("rainbow_list_lines", self.machine, self.picture, self.list)
        listed = bytes(self.list)
        return list(zip(listed[0::2], listed[1::2]))

    def why(self, row, column):
        """Why a row, 0 to 24, shows what it shows in a column, 0 to 131, by the memories as they
        are. The answer is a Why. Refused: 5."""
        memories = self.screen, self.attribute
        said = _call("rainbow_explain", self.machine, *memories, row, column)
        cell, dark = said.answer == WHY_CELL, said.answer == WHY_DARK
        return Why(said.answer, said.place if cell or said.answer == WHY_FILL else None,
                   said.kind if cell else None, said.tore if dark else None,
                   said.link if said.linked else None)

    explain = why  # its name in rainbow_computer.h

    def glyph(self, code):
        """The sixteen scan bytes of a code: a view of `glyphs`, which can be written to."""
        part = _call("rainbow_glyph_part", self.glyphs, code)
        return memoryview(self.glyphs).cast("B")[part.at:part.at + part.length]

    def row(self, row):
        """What the picture says of a row. Refused: 5."""
        if _number(row, c_size_t) >= ROWS:
            raise Refused(REFUSED_PLACE)
        record = self._record(row)
        kind, count = record[KIND_AT], record[COUNT_AT]
        capacity = self.columns if kind & 3 == 3 else self.columns // 2
        cells = {TORN: capacity, DARK: 0}.get(count, min(count, PAIRS))
        return Row(int.from_bytes(record[:KIND_AT], "big"), kind, count, cells)

    def text(self, row):
        """A row's cells as text: a point stands for what is no printable ASCII. Refused: 5."""
        cells = self.row(row).cells
        characters = self._record(row)[PAIRS_AT::2][:cells]
        return "".join(chr(code) if 0x20 <= code < 0x7F else "." for code in characters)

    @property
    def columns(self):
        """The column setting: 80 or 132."""
        return library.rainbow_columns(self.machine)

    @property
    def z80_runs(self):
        """Whether the Z80 runs."""
        return library.rainbow_z80_runs(self.machine)

    @property
    def blanked(self):
        """Whether the display is blanked."""
        return library.rainbow_blanked(self.machine)

    @property
    def graphics(self):
        """Whether the graphics board is selected."""
        return library.rainbow_graphics(self.machine)

    @property
    def scroll_latch(self):
        """The scroll latch, 0 to 15."""
        return library.rainbow_scroll_latch(self.machine)

    @property
    def dots(self):
        """How many dots a line has: 800 or 1,188."""
        return library.rainbow_dots_of_line(self.machine)

    def _record(self, row):
        """The bytes of a row's record."""
        return bytes(self.picture[row * RECORD_BYTES:(row + 1) * RECORD_BYTES])


# The sizes in bytes that the library was made for.
SIZES = {"size_t": (c_size_t, 8), "bool": (c_bool, 1), "rainbow_machine": (Machine, 11),
         "rainbow_byte_read": (ByteRead, 2), "rainbow_written": (Written, 12),
         "rainbow_drawn": (Drawn, 6), "rainbow_stored": (Stored, 8),
         "rainbow_viewers": (Viewers, 32), "rainbow_asked": (Asked, 40),
         "rainbow_drawn_for_viewers": (DrawnForViewers, 40),
         "rainbow_stored_for_viewers": (StoredForViewers, 40),
         "rainbow_explained": (Explained, 10), "rainbow_part_place": (PartPlace, 24),
         "rainbow_computer": (Computer, 96988)}


def check_sizes(sizes):
    """Raises ImportError if Python lays a struct out otherwise."""
    for name, (kind, size) in sizes.items():
        if ctypes.sizeof(kind) != size:
            raise ImportError(f"{name} has {ctypes.sizeof(kind)} bytes in this Python, not {size}")


def places():
    """The files that may be the library, in the order in which they are tried."""
    named = os.environ.get("RAINBOW_LIBRARY")
    if named:
        yield os.path.abspath(named)
        return
    root = os.path.dirname(os.path.dirname(os.path.realpath(__file__)))
    yield os.path.join(root, "target", "library", "librainbow.so")
    yield f"librainbow.so.{VERSION}"
    yield "librainbow.so"
    found = ctypes.util.find_library("rainbow")
    if found:
        yield found


def load_library():
    """The library, from the first place where it can be loaded."""
    reasons = []
    for place in places():
        try:
            return ctypes.CDLL(place)
        except OSError as error:
            reasons.append(error)
    raise OSError(f"librainbow cannot be loaded ({reasons[0]}): run `make library`, or set "
                  "RAINBOW_LIBRARY to the library's file")


def set_up(loaded):
    """Gives each function its types. Raises ImportError if the library has another version."""
    try:
        loaded.rainbow_version.restype, loaded.rainbow_version.argtypes = c_uint32, []
        version = loaded.rainbow_version()
        if version != VERSION:
            raise ImportError(f"librainbow has version {version}, this module is for {VERSION}")
        for name, (answer, given) in FUNCTIONS.items():
            function = getattr(loaded, name)
            function.restype, function.argtypes = answer, given
    except AttributeError as error:
        raise ImportError(f"a function of librainbow is missing ({error})") from None
    return loaded


check_sizes(SIZES)
library = set_up(load_library())
