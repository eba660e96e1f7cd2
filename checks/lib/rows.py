"""The worked rows: for its words and its input the program must write these bytes, and end with this status.

They stand in checks/lib/rows, a file for each order and one for words of none. A row is a group of lines, and an empty line ends it.
What a line is says its first character:

  $ plain --summary     the words, written as for a shell
  < object a 1          a line of the input
  > ok 64:0             a line of the output
  ! 2                   the status, where it isn't 0

In lines of input and output \\x and two hexadecimal digits are a byte, and \\ at the end says that the line has no end.
"""
import dataclasses
import pathlib
import re
import shlex

FOLDER = pathlib.Path(__file__).with_name("rows")
EXAMPLES = pathlib.Path(__file__).resolve().parents[2] / "examples"
# The order that runs an example script, by the ending of its name.
ORDERS = {".dym": "plain", ".late": "late"}
BYTE = re.compile(rb"\\x([0-9a-f]{2})")


@dataclasses.dataclass
class Row:
    place: str
    words: list
    input: bytes
    output: bytes
    status: int


def written(lines):
    """The bytes that lines of input or of output stand for."""
    text = b"".join(line[:-1] if line.endswith(b"\\") else line + b"\n" for line in lines)
    return BYTE.sub(lambda it: bytes([int(it[1], 16)]), text)


def row_of(place, lines):
    kinds = {b"$": [], b"<": [], b">": [], b"!": []}
    for line in lines:
        kinds[line[:1]].append(line[2:])
    [words], status = kinds[b"$"], int((kinds[b"!"] or [b"0"])[0])
    return Row(place, shlex.split(words.decode()), written(kinds[b"<"]), written(kinds[b">"]), status)


def every():
    """Each row, with its file and line."""
    for file in sorted(FOLDER.iterdir()):
        lines, first = [], 1
        for number, line in enumerate([*file.read_bytes().split(b"\n"), b""], 1):
            if line:
                lines.append(line)
                continue
            if lines:
                yield row_of(f"{file.name}, the row at line {first}", lines)
            lines, first = [], number + 1


def examples():
    """The example scripts, each as a row: its output stands in the file beside it."""
    for file in sorted(EXAMPLES.iterdir()):
        if file.suffix in ORDERS:
            output = file.with_suffix(".out").read_bytes()
            yield Row(f"examples/{file.name}", [ORDERS[file.suffix]], file.read_bytes(), output, 0)
