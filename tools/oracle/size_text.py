"""The size table in the words of the program `size_table`, by the model's table (model.py, item 13), and all that the program prints of an input.

The words are no document's: docs/DECISIONS.md, item 13, and crates/size_lines/specs/Bars.antt have them. Nothing here is taken from there but the words.
"""
from model import BANDS, MOST_RECORDS, PRINTING, SizeTable, adding_sizes

WIDTH = 13  # of a band's words
LONGEST = 40  # marks of a bar


def words(n):
    """The frame lengths of a band."""
    if n == len(BANDS) - 1:
        return "above"
    return str(BANDS[n][0]) if len(BANDS[n]) == 1 else f"{BANDS[n][0]} to {BANDS[n][-1]}"


def lines(sizes):
    """A line for each band, with a mark for each so many frames, and a last line that says how many."""
    unit = max(sizes.frames) // LONGEST + 1
    rows = [f"{words(n):{WIDTH}}{frames} {octets} " + "#" * -(-frames // unit) for n, (frames, octets) in enumerate(zip(sizes.frames, sizes.octets))]
    return rows + [f"frames to a mark {unit}"]


def size_lines(data):
    """What the program `size_table` prints of these octets."""
    if len(data) % 2 or len(data) > 2 * MOST_RECORDS:
        return b"bad input\n"
    _, sizes = adding_sizes(SizeTable(), PRINTING, list(data[1::2]), list(data[::2]))
    return "".join(line + "\n" for line in lines(sizes)).encode()
