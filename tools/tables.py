#!/usr/bin/env python3
"""Makes, from the tables of docs/FIELDS.md and docs/NUMBERS.md, what code, definitions and the C header have of them.

usage: tools/tables.py            writes it
       tools/tables.py --check    compares; prints the first line that differs, with status 1
"""

import itertools
import pathlib
import re
import sys

ROOT = pathlib.Path(__file__).resolve().parent.parent
FIELDS, NUMBERS, HEADER = "docs/FIELDS.md", "docs/NUMBERS.md", "include/gateway.h"

# What the cells of the papers look like. A leaf stands in at most three blocks, since a row has a column for each.
NUMBER, TEXT, NAME, BLOCKS = r"\d+", r"`[a-z0-9_.\[\]]+`", r"`[a-z0-9_]+`", r"[1-9](, [1-9]){0,2}"
INDICES = r"(\w to [\d,]+(, \w to [\d,]+)?)?"
# The bytes of a row, and those of its text and a blank.
ROW, ROW_TEXT = 59, 46
GREATEST_INDEX = 8191
# One more in each index, as a word: in those of a block and in those of a leaf.
BLOCK_STEPS = [
    f"""// One more in the first and in the second index of a name word: the names of a list of structures are so far apart.
pub const FIRST: u64 = {2**12};""",
    f"pub const SECOND: u64 = {2**25};",
]
LEAF_STEPS = [
    f"""// One more in the third and in the fourth index of a name word, those of a leaf.
pub const THIRD: u64 = {2**38};""",
    f"pub const FOURTH: u64 = {2**51};",
]
# The numbers of show files, which the header does not have.
SHOW_FILES = {23, 24, 39}
# What the text of a leaf begins with that has no name in code: a reading adds `resource` to the leaf without it.
RESOURCE = "resource."


def read(path):
    return (ROOT / path).read_bytes().decode()


def table(paper, title, *patterns):
    """The rows below a title: each line with a bar at its beginning, after the two of the table's head."""
    inside, lines = False, []
    for n, line in enumerate(read(paper).splitlines(), 1):
        if line.startswith("#"):
            inside = line == title
        elif inside and line.startswith("|"):
            cells = [cell.strip() for cell in line.split("|")[1:-1]]
            if len(lines) > 1 and not (len(cells) == len(patterns) and all(map(re.fullmatch, patterns, cells))):
                sys.exit(f"{paper}:{n}: not a row of its table\n  there: {line}")
            lines.append([cell.strip("`") for cell in cells])
    return lines[2:]


class Name:
    """A block or a leaf: its number and text, its row in `name_table`, its name in code, and what a comment says of it."""

    def __init__(self, kind, exceptions, number, text, indices, blocks=""):
        self.number, self.text = int(number), text
        greatest = {letter: int(n.replace(",", "")) for letter, n in re.findall(r"(\w) to ([\d,]+)", indices)}
        letters = "ij" if kind == "block" else "km"
        self.letters = re.findall(r"\[(\w)\]", text)
        if not self.letters == list(greatest) == list(letters[: len(greatest)]):
            sys.exit(f"{FIELDS}: {kind} {number} does not have the indices of its text")
        form = re.sub(r"\[\w\]", "[]", text)
        first, second = (greatest.get(letter, 0) for letter in letters)
        if len(form) >= ROW_TEXT or max(first, second) > GREATEST_INDEX:
            sys.exit(f"{FIELDS}: {kind} {number} has a text or an index that is too long for a row")
        self.row = f"{form:{ROW_TEXT}}{first:04} {second:04} {blocks.replace(', ', ''):3}"
        name = text.split(".")[-1] if kind == "block" else re.sub(r"s\[\w\]\.", "_", text)
        name = re.sub(r"\[\w\]", "", name).replace(".", "_")
        self.name, self.told = exceptions.pop(f"{kind} {number}", (name, ""))


def names(kind, exceptions, rows):
    """The blocks or the leaves."""
    made = [Name(kind, exceptions, *row) for row in rows]
    if [one.number for one in made] != list(range(1, len(made) + 1)):
        sys.exit(f"{FIELDS}: {kind} numbers are not 1, 2, 3 and so on")
    if len({one.name for one in made}) < len(made):
        sys.exit(f"{FIELDS}: one name in code for more than one {kind}")
    return made


def constants(leaves):
    """The name in code of each leaf, its number, and a comment; in the place of a resource's leaves how much further they are."""
    numbers = {leaf.text: leaf.number for leaf in leaves}
    resource = [leaf for leaf in leaves if leaf.text.startswith(RESOURCE)]
    further = {leaf.number - numbers.get(leaf.text.removeprefix(RESOURCE), 0) for leaf in resource}
    if len(further) != 1:
        sys.exit(f"{FIELDS}: what begins with `{RESOURCE}` is not always as far from what does not")
    comment = "how much further the leaves of a resource are that is named: `resource.type` for `type`"
    for leaf in leaves:
        if leaf not in resource:
            yield leaf.name, leaf.number, f"`{leaf.text}` {leaf.told}".strip() if leaf.text != leaf.name else ""
        elif leaf is resource[0]:
            yield "resource", further.pop(), comment


def rust_constant(name, number, comment):
    if comment and not comment.startswith("`"):
        comment = f"{comment[0].upper()}{comment[1:]}."
    return (f"// {comment}\n" if comment else "") + f"pub const {name.upper()}: u64 = {number};"


def definition(name, value, comment, letters=()):
    name = re.sub(r"_(?=\d)", "", name)
    parameters = "".join(f" {letter}" for letter in letters)
    comment = f"-- {comment}\n" if comment else ""
    return f"{comment}abbrev pub {name} : {'ℕ → ' * len(letters)}ℕ\n{name}{parameters} = {value}"


def block_definition(block):
    parts = zip(("first", "second"), block.letters)
    value = " + ".join([f"256 * {block.number}", *(f"{part} * {letter}" for part, letter in parts)])
    return definition(block.name, value, f"`{block.text}`", block.letters)


def whole(head, made):
    """A file that is made whole."""
    return head + "\n\n".join(made) + "\n"


def replaced(path, text, begin, made):
    """The text of a file with what is made in the place of the lines from the one that begins so to the one like its last."""
    pattern = rf"^{re.escape(begin)}.*?^{re.escape(made[-1])}$"
    text, count = re.subn(pattern, lambda _: "\n".join(made), text, flags=re.M | re.S)
    if count != 1:
        sys.exit(f"{path}: no place, or more than one, for what begins with {begin}")
    return text


def array(path, text, name, rows):
    made = [f"const {name}: [&[u8]; {len(rows)}] = [", *(f'    b"{row}",' for row in rows), "];"]
    return replaced(path, text, f"const {name}: ", made)


def texts(path, text, name, rows):
    made = [f"{name} =", f'    "{rows[0]}"', *(f'    ∷ "{row}"' for row in rows[1:]), "    ∷ []"]
    return replaced(path, text, f"{name} =", made)


def header(numbers):
    """The header, in which words stand beside each number."""
    before, enum, after = re.split(r"(^enum GatewayNumber \{$.*?^\};$)", read(HEADER), flags=re.M | re.S)
    beside = re.compile(r"( = (\d+),? +/\* ).*( \*/)$", re.M)
    expected = [number for number in numbers if number not in SHOW_FILES]
    if [int(found[2]) for found in beside.finditer(enum)] != expected or enum.count(" = ") != len(expected):
        sys.exit(f"{HEADER}: its numbers, each with words beside it, are not those of {NUMBERS}")
    return before + beside.sub(lambda found: found[1] + numbers[int(found[2])] + found[3], enum) + after


def made():
    """Each file that has something made: its path, its paper and its text."""
    exceptions = {which: row for which, *row in table(FIELDS, "## Names in code", r"(block|leaf) \d+", NAME, ".*")}
    blocks = names("block", exceptions, table(FIELDS, "## Blocks", NUMBER, TEXT, INDICES))
    leaves = names("leaf", exceptions, table(FIELDS, "## Leaves", NUMBER, TEXT, INDICES, BLOCKS))
    if exceptions:
        sys.exit(f"{FIELDS}: a name in code for what is not there: {', '.join(exceptions)}")

    block_rows, leaf_rows = ([" " * ROW, *(one.row for one in them)] for them in (blocks, leaves))
    path = "crates/name_table/src/lib.rt"
    yield path, FIELDS, array(path, array(path, read(path), "BLOCKS", block_rows), "LEAVES", leaf_rows)
    path = "crates/name_table/specs/Table.antt"
    yield path, FIELDS, texts(path, texts(path, read(path), "blocks", block_rows), "leaves", leaf_rows)

    head = "// The blocks of names (docs/FIELDS.md), as words.\n"
    constant = (rust_constant(block.name, 256 * block.number, "") for block in blocks)
    yield "crates/rules/src/block.rt", FIELDS, whole(head, [*constant, *BLOCK_STEPS])
    head = """\
-- What the names of each block begin with (docs/FIELDS.md): `prefix`, with the indices that its text has.
use Rattle.std.specs.Prelude.{ℕ, ◌+◌, ◌*◌}
use Rattle.rules.specs.Name.{first, second}

"""
    yield "crates/rules/specs/Block.antt", FIELDS, whole(head, map(block_definition, blocks))
    head = "The leaves of names (docs/FIELDS.md).\n"
    yield "crates/rules/src/leaf.rt", FIELDS, whole(f"// {head}", [*itertools.starmap(rust_constant, constants(leaves)), *LEAF_STEPS])
    head = f"-- {head}use Rattle.std.specs.Prelude.{{ℕ}}\n\n"
    yield "crates/rules/specs/Leaf.antt", FIELDS, whole(head, itertools.starmap(definition, constants(leaves)))

    numbers = {int(number): words for number, words in table(NUMBERS, "# Numbers", NUMBER, r'[^`"\\]+')}
    other = re.search(r"Every other number has the words `(.*?)`", read(NUMBERS))
    if not other or list(numbers) != sorted(numbers):
        sys.exit(f"{NUMBERS}: the words of every other number are not there, or numbers are not in their order")
    meanings = [numbers.get(number, other[1]) for number in range(max(numbers) + 1)]
    if max(map(len, meanings)) >= ROW:
        sys.exit(f"{NUMBERS}: words that are too long for a row")
    path = "crates/numbers/src/lib.rt"
    yield path, NUMBERS, array(path, read(path), "MEANINGS", meanings)
    path = "crates/numbers/specs/Meaning.antt"
    yield path, NUMBERS, texts(path, read(path), "meanings", [f"{words + '|':{ROW}}" for words in meanings])
    yield HEADER, NUMBERS, header(numbers)


def main(arguments):
    if arguments not in ([], ["--check"]):
        sys.exit(__doc__)
    for path, paper, text in list(made()):
        there = read(path)
        if there == text:
            continue
        if arguments:
            lines = itertools.zip_longest(there.split("\n"), text.split("\n"))
            n, (old, new) = next((n, pair) for n, pair in enumerate(lines, 1) if pair[0] != pair[1])
            sys.exit(f"{path}:{n}: not what is made from {paper}\n  there: {old}\n  made:  {new}")
        (ROOT / path).write_bytes(text.encode())
        print(f"{path} is made from {paper}")


main(sys.argv[1:])
