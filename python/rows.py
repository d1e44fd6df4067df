"""Lists the rows that a screen shows at 80 columns: python3 rows.py [--text] [FILE]

FILE, or else standard input, has 8,192 bytes: a screen memory, then its attribute memory. A line is
a row: its number, start, kind and count. With --text, the text of the row stands after it in bars.
The first row whose link is wild is told on standard error.
"""
import sys


def tell(what):
    """Tells something in one line on standard error."""
    print(f"rows.py: {what}", file=sys.stderr)


def give_up(why):
    """Tells why, and ends the program."""
    tell(why)
    sys.exit(2)


try:
    import rainbow
except (ImportError, OSError) as problem:
    give_up(problem)


def listing(dump, with_text):
    """The lines that are printed of a dump, and the first row whose link is wild, or None."""
    computer = rainbow.Computer()
    try:
        drawing = computer.load(dump[:rainbow.SCREEN_BYTES], dump[rainbow.SCREEN_BYTES:])
    except rainbow.Refused as refused:
        return f"refused {refused.number}\n", None
    lines = [f"columns {computer.columns} reads {drawing.reads}\n"]
    for number in range(rainbow.ROWS):
        row = computer.row(number)
        if row.dark:
            continue
        count = "torn" if row.torn else row.count
        text = f" |{computer.text(number)}|" if with_text else ""
        lines.append(f"{number} {row.start:04X} {row.kind} {count}{text}\n")
    return "".join(lines), drawing.wild_row


def main(arguments):
    """Reads the dump and prints its rows."""
    files = [argument for argument in arguments if argument != "--text"]
    if len(files) > 1 or any(name.startswith("-") for name in files):
        give_up("the arguments are [--text] [FILE]")
    place = repr(files[0]) if files else "standard input"
    try:
        with open(files[0] if files else 0, "rb", closefd=bool(files)) as source:
            # One byte more than is wanted tells a dump that is too long.
            dump = source.read(rainbow.SCREEN_BYTES + rainbow.ATTRIBUTE_BYTES + 1)
        place = "standard output"
        lines, wild_row = listing(dump, "--text" in arguments)
        with open(1, "wb", closefd=False) as printed:
            printed.write(lines.encode("ascii"))
    except OSError as problem:
        give_up(f"{place}: {problem.strerror}")
    if wild_row is not None:
        tell(f"the link of row {wild_row} is wild")


if __name__ == "__main__":
    main(sys.argv[1:])
