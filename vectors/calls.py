#!/usr/bin/env python3
"""The eight calls stated once more, and cases for them.

    calls.py CASES EXPECTED

writes a script to one file and its answers to the other. Each line of a script is one of these; HEX is bytes in
hexadecimal with small letters, and `-` where there are none:

    # NAME                  names the case; answered by the same line
    tree HEX                the file becomes these bytes
    add COUNT HEX HEX       appends COUNT times the first bytes, the number 1 to COUNT, and the second bytes
    book NAME               the book becomes home, plain or open, the open layer over home; home at the start
    cards N                 the drawer becomes N blank cards
    card K BYTE STATE       the card K becomes this; nothing happens if K is past the drawer
    drawer                  answered by `drawer N:`, N the length, and the cards up to the last that is not blank,
                            each as BYTE.STATE
    read | remove CARD | open | count | look CARD | more CARD NUMBER | size | write ROOM

The lines `tree` to `card` are not answered. A call is answered by

    ok N                    a number; for a granted write its bytes follow, and `rest kept` if the bytes of the buffer
                            behind them are as they were, else `rest changed`
    ok                      a granted open
    card LEVEL IDENTIFIER TAG PAYLOAD
                            IDENTIFIER is - where there is none; PAYLOAD is none, void, pointer ID or text HEX
    line HEX | none         a further line of a text, or none
    refused N               a refusal without a place
    refused N line L byte B and for 18 `missing T`

Every rule is stated here after docs/FORMAT.md, as plainly as it goes and with no care for speed, but that trees of
65,535 cards have to be answered in a few seconds. Nothing is taken over from the definitions that the code is proved
against, so that the two can be held against each other.
"""

import re
import sys
from collections import namedtuple

import kinds
import lines

MARK = lines.MARK
MOST_BYTES = 16_777_216
MOST_CARDS = 65_535

# ---------------------------------------------------------------- books

TOP = "top"

Row = namedtuple("Row", "type required many")

KIND_NAMES = ("nothing text flag integer word words texts date period exact time age name version pointer "
              "anything").split()
EMPTIED = (1, 2, 6, 7, 8, 11, 15)

HOME_ROWS = """
top  HEAD 0 !, INDI 1 +, FAM 2 +, SNOTE 3 +, SUBM 4 +
0    GEDC 5 !, DATE 6, SUBM 7, NOTE 8
1    RESN 11, NAME 12 +, SEX 13, BIRT 14 +, DEAT 15 +, FAMC 16 +, FAMS 17 +, ALIA 19 +, NOTE 8 +, SNOTE 18 +
2    HUSB 32, WIFE 33, CHIL 34 +, MARR 31 +, NOTE 8 +, SNOTE 18 +
4    NAME 20 !
5    VERS 9 !
6    TIME 10
12   TYPE 21, GIVN 22 +, SURN 23 +
14   DATE 24, PLAC 25, AGE 26
15   DATE 24, PLAC 25, AGE 26
24   TIME 10, PHRASE 27
25   MAP 28
28   LATI 29 !, LONG 30 !
31   DATE 24, PLAC 25
32   PHRASE 27
33   PHRASE 27
34   PHRASE 27
"""

# the kind of each type from 0; the kind's own number behind a colon
HOME_KINDS = """0 0 0 1 0 0 9 14:4 1 13 10 5:1 12 4:0 2 2 14:2 14:2 14:3 14:1 1 4:2 1 1 7 6 11 1 0 1 1 2 14:1 14:1
14:1"""


class Listed:
    """A book that is written as a list of rows and a list of kinds."""

    def __init__(self, rows, kind_list):
        self.rows = {}
        self.needed = {}
        for line in rows.strip().splitlines():
            context, listed = line.split(None, 1)
            context = TOP if context == "top" else int(context)
            for entry in listed.split(","):
                tag, number, *marks = entry.split()
                row = Row(int(number), "!" in marks, "+" in marks)
                self.rows[context, tag.encode()] = row
                if row.required:
                    self.needed.setdefault(context, []).append(row.type)
        self.kinds = [tuple(map(int, (k + ":0").split(":")[:2])) for k in kind_list.split()]

    def types(self):
        return len(self.kinds)

    def row(self, context, tag):
        return self.rows.get((context, tag))

    def needs(self, context):
        return self.needed.get(context, [])

    def kind(self, number):
        return self.kinds[number]


class Plain:
    def types(self):
        return 1

    def row(self, context, tag):
        return Row(0, False, True)

    def needs(self, context):
        return []

    def kind(self, number):
        return 15, 0


class Open:
    """The open layer over a book with fewer than 1,000 types."""

    def __init__(self, below):
        self.below = below
        self.further = below.types()

    def types(self):
        return self.further + 1

    def row(self, context, tag):
        if context == self.further:
            return Row(self.further, False, True)
        row = self.below.row(context, tag)
        if row is None and tag.startswith(b"_"):
            return Row(self.further, False, True)
        return row

    def needs(self, context):
        return [] if context == self.further else self.below.needs(context)

    def kind(self, number):
        return (15, 0) if number == self.further else self.below.kind(number)


HOME = Listed(HOME_ROWS, HOME_KINDS)
BOOKS = {"home": HOME, "plain": Plain(), "open": Open(HOME)}

# ---------------------------------------------------------------- files

BANNED = re.compile("[" + "".join(map(chr, sorted(lines.BANNED))) + "]")

# one structure, or the trailer, with its place in the file
Entry = namedtuple("Entry", "level identifier tag payload line byte")

NONE = ("none",)
VOID = ("void",)


def character_fault(data):
    if len(data) > MOST_BYTES:
        return 1, 0, 0
    try:
        text = data.decode("utf-8", "strict")
    except UnicodeDecodeError as trouble:
        return 2, lines.line_of(data, trouble.start), trouble.start
    banned = BANNED.search(text)
    if banned:
        byte = len(text[:banned.start()].encode("utf-8"))
        return 3, lines.line_of(data, byte), byte
    return None


def line_fault(found):
    """The refusals 5 to 10."""
    listed = [line for _, line in found]
    levels = [lines.level(line) for line in listed]
    last = len(listed) - 1
    # for each line the place of the last other line before it
    other_before = []
    other = None
    for i, line in enumerate(listed):
        other_before.append(other)
        if line["tag"] != b"CONT":
            other = i

    def breaks(number, i):
        line, level, other = listed[i], levels[i], other_before[i]
        tag = line["tag"]
        if number == 5:
            return level > 63
        if number == 6:
            return not lines.is_bare(line, b"HEAD") if i == 0 else level == 0 and tag == b"HEAD"
        if number == 7:
            return not lines.is_bare(line, b"TRLR") if i == last else level == 0 and tag == b"TRLR"
        if number == 8:
            return tag != b"CONT" and other is not None and level > levels[other] + 1
        if number == 9:
            return level > 0 and line["identifier"] is not None
        if tag != b"CONT":
            return tag == b"CONC"
        return (other is None or other == 0 or level != levels[other] + 1
                or listed[other]["pointer"] is not None or line["pointer"] is not None)

    for number in range(5, 11):
        for i in range(len(listed)):
            if breaks(number, i):
                return number, i + 1, found[i][0]
    return None


def shown(text):
    """A line of a text as the dataset has it: the first @ is written twice."""
    return text[1:] if text.startswith(b"@@") else text


def payload_of(line, further):
    """The payload of a line and the values of its CONT lines."""
    if line["pointer"] is not None:
        return VOID if line["pointer"] == b"@VOID@" else ("pointer", line["pointer"])
    if line["text"] is None and not further:
        return NONE
    return "text", [shown(text or b"") for text in [line["text"], *further]]


def entries_of(found):
    """The lines other than CONT, each with its whole payload."""
    others = []
    for i, (byte, line) in enumerate(found):
        if line["tag"] == b"CONT":
            others[-1][3].append(line["text"])
        else:
            others.append((i + 1, byte, line, []))
    return [Entry(lines.level(line), line["identifier"], line["tag"], payload_of(line, further), number, byte)
            for number, byte, line, further in others]


class File:
    """A file with its fault by the rules 1 to 10, or its entries."""

    def __init__(self, data):
        self.entries = None
        self.fault = character_fault(data)
        if self.fault is None:
            found, self.fault = lines.lines_of(data)
        if self.fault is None:
            self.fault = line_fault(found)
        if self.fault is None:
            self.entries = entries_of(found)
            self.by_byte = {entry.byte: entry for entry in self.entries}


# ---------------------------------------------------------------- datasets and books

def superstructures(entries):
    """For each entry the place of the one that it stands under, or nothing at the top."""
    above = []
    path = []
    for i, entry in enumerate(entries):
        del path[entry.level:]
        above.append(path[-1] if path else None)
        path.append(i)
    return above


def name_fault(entries):
    """The refusals 12 and 13."""
    seen = set()
    for entry in entries:
        if entry.identifier is not None:
            if entry.identifier in seen:
                return 12, entry.line, entry.byte
            seen.add(entry.identifier)
    for entry in entries:
        if entry.payload[0] == "pointer" and entry.payload[1] not in seen:
            return 13, entry.line, entry.byte
    return None


def takes(book, number, payload):
    """Whether the kind of a type takes a payload."""
    kind, own = book.kind(number)
    name = KIND_NAMES[kind]
    if payload == NONE:
        return kinds.takes(name, "<none>")
    if payload[0] in ("void", "pointer"):
        return kinds.takes(name, "<pointer>")
    if len(payload[1]) > 1:
        return kinds.takes(name, "<lines>")
    return kinds.takes_line(name, own, payload[1][0].decode("utf-8"))


def rows_of(book, structures, above):
    """The row of each structure, or nothing where its tag has none or it stands under such a one."""
    rows = []
    for structure, over in zip(structures, above):
        if over is None:
            rows.append(book.row(TOP, structure.tag))
        else:
            rows.append(rows[over] and book.row(rows[over].type, structure.tag))
    return rows


def book_fault(book, entries):
    """The refusals 14 to 19. The last entry is the trailer, which is asked none of them."""
    structures = entries[:-1]
    above = superstructures(structures)
    rows = rows_of(book, structures, above)
    places = range(len(structures))

    def told(number, i, *missing):
        return (number, structures[i].line, structures[i].byte) + missing

    for i in places:
        if rows[i] is None:
            return told(14, i)
    for i in places:
        if not takes(book, rows[i].type, structures[i].payload):
            return told(15, i)
    record_types = {s.identifier: row.type for s, row in zip(structures, rows) if s.identifier is not None}
    for i in places:
        kind, own = book.kind(rows[i].type)
        payload = structures[i].payload
        if kind == 14 and payload[0] == "pointer" and record_types[payload[1]] != own:
            return told(16, i)
    under = {over: set() for over in [None, *places]}
    for i in places:
        if rows[i].type in under[above[i]] and not rows[i].many:
            return told(17, i)
        under[above[i]].add(rows[i].type)
    for over in [None, *places]:
        for needed in book.needs(TOP if over is None else rows[over].type):
            if needed not in under[over]:
                return told(18, over or 0, needed)
    for i in places:
        if i > 0 and structures[i].payload == NONE and not under[i] and not is_excused(book, rows[i]):
            return told(19, i)
    return None


def is_excused(book, row):
    """Whether a structure may stand with neither payload nor substructure."""
    return row.required and book.kind(row.type)[0] in EMPTIED


# ---------------------------------------------------------------- drawers

AS_FILED, VOIDED, EMPTY, BLANK = range(4)
BLANK_CARD = (0, BLANK)


def held(file, drawer):
    """The entries of the dataset that a drawer holds, or nothing."""
    if file.fault is not None:
        return None
    count = 0
    while count < len(drawer) and drawer[count] != BLANK_CARD:
        count += 1
    if any(card != BLANK_CARD for card in drawer[count:]):
        return None
    kept = drawer[:count]
    if not 0 < count <= MOST_CARDS:
        return None
    if any(state == BLANK or byte not in file.by_byte for byte, state in kept):
        return None
    if any(kept[i][0] >= kept[i + 1][0] for i in range(count - 1)):
        return None
    entries = [file.by_byte[byte] for byte, _ in kept]
    # a line HEAD or TRLR at level 0 is the first or the last of the file
    for place, tag in ((0, b"HEAD"), (-1, b"TRLR")):
        if entries[place].level != 0 or entries[place].tag != tag:
            return None
    if any(entries[i + 1].level > entries[i].level + 1 for i in range(count - 1)):
        return None
    changed = []
    for entry, (_, state) in zip(entries, kept):
        points = entry.payload[0] in ("void", "pointer")
        if state == VOIDED and not points or state == EMPTY and points:
            return None
        payload = {AS_FILED: entry.payload, VOIDED: VOID, EMPTY: NONE}[state]
        changed.append(entry._replace(payload=payload))
    return None if name_fault(changed) else changed


def read(file, drawer, book):
    """The answer and the new drawer."""
    blank = [BLANK_CARD] * len(drawer)
    if file.fault is not None:
        return file.fault, blank
    entries = file.entries
    room = min(len(drawer), MOST_CARDS)
    if len(entries) > room:
        return (11, entries[room].line, entries[room].byte), blank
    fault = name_fault(entries) or book_fault(book, entries)
    if fault:
        return fault, blank
    return len(entries), [(entry.byte, AS_FILED) for entry in entries] + blank[len(entries):]


class Held(Exception):
    """A removal met a structure that has to stay as it is."""


def removal(book, entries, card):
    """Which cards go, and which is emptied, if any."""
    structures = entries[:-1]
    above = superstructures(structures)
    rows = rows_of(book, structures, above)
    gone = set()

    def must_stay(i):
        same = [j for j in range(len(structures)) if above[j] == above[i] and rows[j].type == rows[i].type]
        return rows[i].required and same == [i]

    def below(i):
        return [j for j in range(len(structures)) if j != i and i in path(j)]

    def path(j):
        steps = [j]
        while above[steps[-1]] is not None:
            steps.append(above[steps[-1]])
        return steps

    def is_left_bare(i):
        standing = [j for j in range(len(structures)) if above[j] == i and j not in gone]
        return structures[i].payload == NONE and not standing and i != 0 and not is_excused(book, rows[i])

    while True:
        if must_stay(card):
            kind = book.kind(rows[card].type)[0]
            if book.needs(rows[card].type) or not (kind == 14 or kind in EMPTIED):
                raise Held
            return gone | set(below(card)), card
        gone |= {card, *below(card)}
        if above[card] is None or not is_left_bare(above[card]):
            return gone, None
        card = above[card]


def remove(file, drawer, book, card):
    """The answer and the new drawer; a refusal is a tuple."""
    entries = held(file, drawer)
    if entries is None:
        return (20,), drawer
    if book_fault(book, entries):
        return (21,), drawer
    if card == 0 or card >= len(entries) - 1:
        return (22,), drawer
    try:
        gone, emptied = removal(book, entries, card)
    except Held:
        return (23,), drawer
    lost = {entries[i].identifier for i in gone} - {None}
    kept = []
    for i, (byte, state) in enumerate(drawer[:len(entries)]):
        payload = entries[i].payload
        if i in gone:
            continue
        if i == emptied:
            state = VOIDED if payload[0] in ("void", "pointer") else EMPTY
        elif payload[0] == "pointer" and payload[1] in lost:
            state = VOIDED
        kept.append((byte, state))
    return len(gone), kept + [BLANK_CARD] * (len(drawer) - len(kept))


# ---------------------------------------------------------------- views

def spelled(text):
    return b"@" + text if text.startswith(b"@") else text


def written(entries):
    """The written form of a dataset."""
    out = [MARK]
    for entry in entries:
        parts = [b"%d" % entry.level, entry.identifier, entry.tag]
        further = []
        if entry.payload == VOID:
            parts.append(b"@VOID@")
        elif entry.payload[0] == "pointer":
            parts.append(entry.payload[1])
        elif entry.payload[0] == "text":
            parts.append(spelled(entry.payload[1][0]) or None)
            further = entry.payload[1][1:]
        out.append(b" ".join(part for part in parts if part is not None) + b"\n")
        for text in further:
            out.append(b"%d CONT" % (entry.level + 1) + (b" " + spelled(text) if text else b"") + b"\n")
    return b"".join(out)


def hexed(data):
    return data.hex() or "-"


def look(entries, card):
    if card >= len(entries):
        return "refused 24"
    entry = entries[card]
    payload = entry.payload[0]
    if payload == "pointer":
        payload += " " + entry.payload[1].decode()
    elif payload == "text":
        payload += " " + hexed(entry.payload[1][0])
    identifier = entry.identifier.decode() if entry.identifier else "-"
    return f"card {entry.level} {identifier} {entry.tag.decode()} {payload}"


def more(entries, card, number):
    if card >= len(entries):
        return "refused 24"
    payload = entries[card].payload
    further = payload[1][1:] if payload[0] == "text" else []
    return "line " + hexed(further[number]) if number < len(further) else "none"


def write(entries, room):
    form = written(entries)
    if len(form) > MOST_BYTES:
        return "refused 25"
    if room < len(form):
        return "refused 26"
    return f"ok {len(form)} {form.hex()} rest kept"


# ---------------------------------------------------------------- scripts

class Session:
    """What a script of calls is carried out on."""

    def __init__(self):
        self.data = b""
        self.file = None
        self.book = HOME
        self.drawer = []

    def opened(self):
        if self.file is None:
            self.file = File(self.data)
        return self.file

    def answer(self, line):
        """The answer to one line, or nothing where none is due."""
        word, *rest = line.split()
        if word == "#":
            return line
        if word == "tree":
            self.data, self.file = unhexed(rest[0]), None
        elif word == "add":
            before, after = unhexed(rest[1]), unhexed(rest[2])
            self.data += b"".join(before + b"%d" % n + after for n in range(1, int(rest[0]) + 1))
            self.file = None
        elif word == "book":
            self.book = BOOKS[rest[0]]
        elif word == "cards":
            self.drawer = [BLANK_CARD] * int(rest[0])
        elif word == "card":
            place, byte, state = map(int, rest)
            if place < len(self.drawer):
                self.drawer[place] = (byte, state)
        elif word == "drawer":
            count = len(self.drawer)
            while count > 0 and self.drawer[count - 1] == BLANK_CARD:
                count -= 1
            return f"drawer {len(self.drawer)}:" + "".join(" %d.%d" % card for card in self.drawer[:count])
        else:
            return self.call(word, *map(int, rest))
        return None

    def call(self, word, *numbers):
        file = self.opened()
        if word in ("read", "remove"):
            carried_out = read if word == "read" else remove
            result, self.drawer = carried_out(file, self.drawer, self.book, *numbers)
            return f"ok {result}" if isinstance(result, int) else refused(*result)
        entries = held(file, self.drawer)
        if entries is None:
            return "refused 20"
        return {
            "open": lambda: "ok",
            "count": lambda: f"ok {len(entries)}",
            "look": lambda card: look(entries, card),
            "more": lambda card, number: more(entries, card, number),
            "size": lambda: f"ok {len(written(entries))}",
            "write": lambda room: write(entries, room),
        }[word](*numbers)


def refused(number, line=0, byte=0, missing=None):
    place = f" line {line} byte {byte}" if line else ""
    return f"refused {number}{place}" + (f" missing {missing}" if missing is not None else "")


def unhexed(text):
    return b"" if text == "-" else bytes.fromhex(text)


# ---------------------------------------------------------------- cases

ENDS = (b"\n", b"\r", b"\r\n")


def tree(*inner, end=b"\n", mark=b""):
    """A file with these lines between a header and a trailer."""
    return mark + b"".join(line + end for line in (b"0 HEAD", *inner, b"0 TRLR"))


def home(*inner, **form):
    """The same with the lines that the home book needs in the header."""
    return tree(b"1 GEDC", b"2 VERS 7.0", *inner, **form)


def put(data):
    return "tree " + hexed(data)


def add(count, before, after):
    return f"add {count} {hexed(before)} {hexed(after)}"


def lines_in(text):
    """The lines of a text that is written for the eye."""
    return [line.strip().encode() for line in text.strip().splitlines()]


# the examples of the page of rules
TOLD = """
0 HEAD / 1 GEDC / 2 VERS 7.0 / 0 TRLR
0 HEAD / 1  GEDC / 0 TRLR
0 HEAD / 64 NOTE x / 0 TRLR
0 HEAD / 0 HEAD / 0 TRLR
0 HEAD x / 0 TRLR
0 HEAD / 0 TRLR / 0 TRLR
0 HEAD / 0 @T@ TRLR
0 HEAD / 2 VERS 7.0 / 0 TRLR
0 HEAD / 1 @G@ GEDC / 0 TRLR
0 HEAD / 1 CONT x / 0 TRLR
0 HEAD / 1 SUBM @VOID@ / 2 CONT x / 0 TRLR
0 HEAD / 1 GEDC / 2 VERS 7.0 / 0 @A@ SNOTE x / 0 @A@ SNOTE y / 0 TRLR
0 HEAD / 1 GEDC / 2 VERS 7.0 / 1 SUBM @A@ / 0 TRLR
0 HEAD / 1 GEDC / 2 VERS 7.0 / 0 @A@ PLACE x / 0 TRLR
0 HEAD / 1 GEDC / 2 VERS 5.5.1 / 0 TRLR
0 HEAD / 1 GEDC / 2 VERS 7.0 / 3 CONT / 0 TRLR
0 HEAD / 1 GEDC / 2 VERS 7.0 / 1 SUBM @I@ / 0 @I@ INDI / 1 SEX F / 0 TRLR
0 HEAD / 1 GEDC / 2 VERS 7.0 / 1 NOTE a / 1 NOTE b / 0 TRLR
0 HEAD / 0 TRLR
0 HEAD / 1 GEDC / 0 TRLR
0 HEAD / 1 GEDC / 2 VERS 7.0 / 0 @I@ INDI / 0 TRLR
0 HEAD / 1 GEDC / 2 VERS 7.0 / 0 @I@ INDI / 1 NAME / 0 TRLR
0 HEAD / 1 NOTE @A@ / 1 @B@ GEDC / 2 VERS 7.0 / 0 TRLR
0 HEAD / 0 @A@ INDI / 0 @A@ FAMILY / 0 TRLR
"""


def examples():
    yield "# examples of the rules"
    yield "cards 12"
    for data in (b"", MARK, MARK[:2], home()[:-1]):
        yield put(data)
        yield "read"
    for line in TOLD.strip().splitlines():
        yield put(b"".join(part.encode() + b"\n" for part in line.split(" / ")))
        yield "read"
    yield "drawer"
    yield put(home())
    for count in (3, 4):
        yield f"cards {count}"
        yield "read"
        yield "drawer"


# for each rule a tree that breaks it near its start, in its middle and at its end
BROKEN = {
    12: """
        1 NOTE x | 0 @A@ SNOTE p | 0 @A@ SNOTE q | 0 @B@ SNOTE r | 0 SNOTE s
        0 @A@ SNOTE p | 0 @B@ SNOTE q | 1 CONT t | 0 @C@ SNOTE r | 0 @B@ SNOTE s | 0 SNOTE t
        0 @A@ SNOTE p | 0 @B@ SNOTE q | 0 @C@ INDI | 1 SEX F | 0 @A@ FAM | 1 HUSB @C@
        """,
    13: """
        1 SUBM @A@ | 0 @B@ SNOTE p
        0 @A@ SNOTE p | 0 @I@ INDI | 1 SNOTE @A@ | 1 SNOTE @AA@ | 0 SNOTE q
        0 @A@ SNOTE p | 0 @I@ INDI | 1 SNOTE @A@ | 1 SNOTE @B@
        """,
    14: """
        1 LANG en | 0 SNOTE p
        0 @A@ SNOTE p | 0 INDI | 1 NAME Ann | 2 GIVE Ann | 0 SNOTE q
        0 SNOTE p | 0 NOTE q
        """,
    15: """
        1 DATE MAY 1990 | 0 SNOTE p
        0 SNOTE p | 0 INDI | 1 NOTE n | 2 CONT m | 1 SEX | 0 SNOTE q
        0 SNOTE p | 0 INDI | 1 BIRT Y | 2 CONT
        """,
    16: """
        1 SUBM @A@ | 0 @A@ SNOTE p
        0 @A@ SNOTE p | 0 INDI | 1 SNOTE @A@ | 1 FAMC @A@ | 0 SNOTE q
        0 @A@ SNOTE p | 1 CONT r | 0 FAM | 1 CHIL @VOID@ | 1 CHIL @A@
        """,
    17: """
        1 GEDC | 2 VERS 7.0 | 0 SNOTE p
        0 SNOTE p | 0 INDI | 1 NAME Ann | 1 SEX F | 1 NAME Eve | 1 SEX F | 0 SNOTE q
        0 SNOTE p | 0 FAM | 1 HUSB @VOID@ | 2 PHRASE a | 1 HUSB @VOID@
        """,
    18: """
        -
        0 INDI | 1 BIRT | 2 PLAC Lund | 3 MAP | 4 LONG E2 | 0 SNOTE q
        0 SNOTE p | 1 CONT q | 0 SUBM
        """,
    19: """
        1 NOTE | 0 SNOTE p
        0 SNOTE p | 0 INDI | 1 NOTE a | 1 BIRT | 0 SNOTE q
        0 SNOTE p | 1 CONT | 0 SNOTE
        """,
}


def broken(rule, place, **form):
    text = BROKEN[rule].strip().splitlines()[place].strip()
    if text == "-":
        return tree(b"1 NOTE x", b"0 SNOTE p", **form)
    return home(*(line.encode() for line in text.split(" | ")), **form)


def rules():
    yield "cards 16"
    for rule in BROKEN:
        for place, where in enumerate(("first", "middle", "last")):
            yield f"# rule {rule} broken, {where}"
            for end in ENDS:
                for mark in (b"", MARK):
                    yield put(broken(rule, place, end=end, mark=mark))
                    yield "read"
    yield "drawer"
    for end in ENDS:
        for mark in (b"", MARK):
            yield "# rule 11 broken, first, middle, last"
            yield put(home(b"0 SNOTE p", b"1 CONT q", b"0 SNOTE r", end=end, mark=mark))
            for count in (0, 1, 4, 5, 6, 7):
                yield f"cards {count}"
                yield "read"
                yield "drawer"


def low_rules():
    """The rules 2 to 10, of which other cases have more."""
    yield "cards 9"
    for rule, inner in (
            (2, (b"0 SNOTE \xff",)), (2, (b"0 SNOTE p\xc3",)), (2, (b"0 SNOTE \xed\xa0\x80",)),
            (3, (b"0 SNOTE \x00",)), (3, (b"0 SNOTE p", b"0 SNOTE \xc2\x80q")), (3, (b"0 SNOTE \xef\xbf\xbf",)),
            (4, (b"0 SNOTE ",)), (4, (b"",)), (4, (b"0 snote p",)), (4, (b"0 @VOID@ SNOTE p",)), (4, (b"0 SNOTE @p",)),
            (5, (b"64 NOTE p",)), (5, (b"99999999999999999999 NOTE p",)),
            (6, (b"0 HEAD",)), (6, (b"0 @A@ HEAD p",)), (7, (b"0 TRLR",)), (7, (b"0 TRLR @VOID@",)),
            (8, (b"2 NOTE p", )), (8, (b"0 SNOTE p", b"1 CONT q", b"2 NOTE r")),
            (9, (b"1 @A@ NOTE p",)), (9, (b"0 SNOTE p", b"1 @A@ CONT q")),
            (10, (b"0 SNOTE p", b"1 CONC q")), (10, (b"0 INDI", b"1 SNOTE @VOID@", b"2 CONT q")),
            (10, (b"0 SNOTE p", b"1 CONT @VOID@")), (10, (b"0 SNOTE p", b"2 CONT q"))):
        yield f"# rule {rule} broken"
        for end, mark in ((b"\n", b""), (b"\r\n", MARK)):
            yield put(home(*inner, end=end, mark=mark))
            yield "read"
    yield "drawer"


# records that break one rule each
BREAKS = {
    2: [b"0 SNOTE \xff"],
    3: [b"0 SNOTE \x01"],
    4: [b"0  SNOTE p"],
    5: [b"64 NOTE p"],
    6: [b"0 HEAD"],
    7: [b"0 TRLR"],
    8: [b"0 SNOTE p", b"2 NOTE q"],
    9: [b"0 INDI", b"1 @Q@ NOTE p"],
    10: [b"0 INDI", b"1 CONC p"],
    12: [b"0 @A@ SNOTE p", b"0 @A@ SNOTE q"],
    13: [b"0 INDI", b"1 ALIA @NO@"],
    14: [b"0 INDI", b"1 WHAT p"],
    15: [b"0 INDI", b"1 SEX male"],
    16: [b"0 INDI", b"1 FAMC @Z@", b"0 @Z@ SNOTE p"],
    17: [b"0 INDI", b"1 SEX F", b"1 SEX F"],
    18: [b"0 INDI", b"1 BIRT", b"2 PLAC p", b"3 MAP", b"4 LATI N1"],
    19: [b"0 INDI", b"1 BIRT"],
}


def pairs():
    """Two rules broken at once, in both orders; the lower one is told, and of one rule the first line."""
    yield "cards 20"
    high = [rule for rule in BREAKS if rule >= 12]
    for first in high:
        yield f"# rule {first} broken, then each from 12 on"
        for second in high:
            again = [line.replace(b"@A@", b"@B@").replace(b"@Z@", b"@Y@") for line in BREAKS[second]]
            yield put(home(*BREAKS[first], *again))
            yield "read"
    for low, other in zip(range(2, 11), [19, 18, 17, 16, 15, 14, 13, 12, 19]):
        yield f"# rules {low} and {other} broken, in both orders"
        yield put(home(*BREAKS[low], *BREAKS[other]))
        yield "read"
        yield put(home(*BREAKS[other], *BREAKS[low]))
        yield "read"
    for other in [10, *high]:
        yield f"# rules 11 and {other} broken"
        yield put(home(*BREAKS[other], b"0 SNOTE p"))
        for count in (2, 5):
            yield f"cards {count}"
            yield "read"
    # two in one line
    yield "cards 20"
    yield "# two rules broken in one line"
    for inner in ((b"1 SUBM @A@",), (b"1 SNOTE @A@",), (b"0 @A@ SNOTE p", b"0 @A@ NOTE"), (b"0 INDI", b"1 WHAT"),
                  (b"0 INDI", b"1 SEX"), (b"0 INDI", b"1 SEX F", b"1 SEX f"), (b"0 INDI", b"1 FAMC"),
                  (b"0 INDI", b"1 SEX F", b"1 SEX"), (b"1 NOTE p", b"1 NOTE"), (b"0 SUBM",), (b"1 GEDC",),
                  (b"0 FAM", b"1 HUSB @A@", b"1 HUSB @A@", b"0 @A@ SNOTE p"), (b"0 @A@ INDI", b"1 ALIA @B@"),
                  (b"0 INDI @A@",), (b"0 @A@ INDI @A@",), (b"0 INDI @VOID@",)):
        yield put(home(*inner))
        yield "read"


def blanks():
    """A refused reading leaves no card of what the drawer held."""
    yield "cards 7"
    for rule, inner in BREAKS.items():
        yield f"# a full drawer, and then rule {rule} broken"
        yield put(home(b"0 @R@ SNOTE p", b"0 @S@ SNOTE q", b"0 SNOTE r"))
        yield "read"
        yield put(home(*inner))
        yield "read"
        yield "drawer"


RICH = """
    0 HEAD
    1 GEDC
    2 VERS 7.0.15
    1 DATE 3 MAR 1999
    2 TIME 12:30:15.5Z
    1 SUBM @U@
    1 NOTE first
    2 CONT
    2 CONT @@third
    0 @I1@ INDI
    1 RESN LOCKED, PRIVACY
    1 NAME Ann /Lee/
    2 TYPE BIRTH
    2 GIVN Ann
    2 SURN Lee
    1 NAME Annie
    1 SEX F
    1 BIRT
    2 DATE BET 1900 AND 1901
    3 PHRASE in winter
    2 PLAC Lund, Skåne
    3 MAP
    4 LATI N1
    4 LONG E2
    1 DEAT Y
    2 AGE > 3y
    1 FAMC @F1@
    1 FAMS @VOID@
    1 ALIA @I10@
    1 SNOTE @N@
    0 @I10@ INDI
    1 NAME Bob /Lee/
    0 @I@ INDI
    1 ALIA @I1@
    0 @F1@ FAM
    1 HUSB @I10@
    2 PHRASE step
    1 CHIL @I1@
    1 CHIL @I@
    1 MARR
    2 DATE 1890
    0 @N@ SNOTE
    1 CONT second
    0 @U@ SUBM
    1 NAME Eve
    0 TRLR
"""


def rich(end=b"\n", mark=b""):
    return mark + b"".join(line + end for line in lines_in(RICH))


def books():
    yield "cards 50"
    for end in ENDS:
        yield f"# a rich tree, its lines ended by {end.hex()}"
        yield put(rich(end, MARK if end == b"\r" else b""))
        for book in BOOKS:
            yield f"book {book}"
            yield "read"
        yield "drawer"
    own = [
        (b"1 _SRC x",), (b"1 _SRC",), (b"1 _SRC", b"2 NAME a", b"2 CONT"), (b"1 _SRC", b"2 NAME a", b"3 CONT b"),
        (b"1 _A x", b"1 _A y", b"1 _B"), (b"0 _REC x",), (b"0 @R@ _REC", b"1 ANY", b"2 THING z"),
        (b"0 @R@ _REC", b"1 ANY", b"2 THING"), (b"0 @R@ _REC x", b"1 HEAD y", b"1 TRLR @R@"),
        (b"0 INDI", b"1 NAME Ann", b"2 _NICK @VOID@"), (b"0 INDI", b"1 NAME Ann", b"2 NICK x"),
        (b"0 INDI", b"1 SEX F", b"2 _WHY x", b"3 SEX G", b"3 SEX G"), (b"0 INDI", b"1 SEX F", b"2 WHY x"),
        (b"0 @R@ _REC x", b"0 INDI", b"1 FAMC @R@"), (b"0 @R@ _REC x", b"0 INDI", b"1 _SEE @R@"),
        (b"0 @I@ INDI", b"1 SEX F", b"0 _REC @I@"), (b"0 _REC @NO@",), (b"0 @R@ _REC x", b"0 @R@ _REC y"),
        (b"0 INDI", b"1 __ x"), (b"0 INDI", b"1 _1 x"), (b"0 INDI", b"1 X_ x"), (b"0 INDI", b"1 BIRT", b"2 _X y"),
        (b"0 INDI", b"1 _X", b"2 MAP", b"3 LATI N1"), (b"0 INDI", b"1 _X", b"2 SUBM"), (b"0 _HEAD x", b"0 _TRLR y"),
        (b"0 SUBM", b"1 _NAME x"), (b"0 SUBM", b"1 NAME", b"2 _X"), (b"0 SUBM", b"1 NAME", b"2 _X y"),
    ]
    for inner in own:
        yield "# own tags: " + " | ".join(line.decode() for line in inner)
        yield put(home(*inner))
        for book in BOOKS:
            yield f"book {book}"
            yield "read"
    yield "# the plain book needs nothing"
    yield "book plain"
    for inner in ((), (b"1 X",), (b"1 X y",), (b"0 X",), (b"0 X y",), (b"0 X", b"1 CONT"),
                  (b"0 X", b"1 Y", b"2 Z @VOID@"), (b"0 X", b"1 Y", b"2 Z"), (b"0 X @X@",), (b"0 @X@ X @X@",),
                  (b"1 HEAD a", b"1 TRLR b"),
                  (b"0 X a", b"1 CONT b", b"0 X @@", b"0 X @VOID@")):
        yield put(tree(*inner))
        yield "read"
    yield "book home"


def needs():
    """Rule 18 and 19 around what is needed, and rule 17 by type."""
    yield "cards 16"
    map_of = [b"0 INDI", b"1 BIRT", b"2 PLAC Lund", b"3 MAP"]
    for name, inner in (
            ("both are missing", map_of), ("the first is missing", map_of + [b"4 LONG E2"]),
            ("the second is missing", map_of + [b"4 LATI N1"]), ("out of order", map_of + [b"4 LONG E2", b"4 LATI N1"]),
            ("both are bare", map_of + [b"4 LATI", b"4 LONG"]),
            ("one stands twice", map_of + [b"4 LATI N1", b"4 LONG E2", b"4 LATI N1"]),
            ("a bare name is excused", [b"0 SUBM", b"1 NAME"]), ("a name is missing", [b"0 @U@ SUBM"]),
            ("two places lack something", [b"0 SUBM", *map_of]),
            ("a name with two lines", [b"0 SUBM", b"1 NAME", b"2 CONT Eve"]),
            ("each under its own", [b"0 INDI", b"1 BIRT", b"2 DATE 1900", b"1 BIRT", b"2 DATE 1900"]),
            ("a second date", [b"0 INDI", b"1 BIRT", b"2 DATE 1900", b"2 PLAC p", b"2 DATE 1901"]),
            ("notes of a person", [b"0 INDI", b"1 NOTE a", b"1 NOTE b"]),
            ("a second header date", [b"1 DATE 1 MAY 1990", b"1 NOTE x", b"1 DATE 1 MAY 1990"]),
            ("void is right", [b"1 SUBM @VOID@", b"0 FAM", b"1 HUSB @VOID@", b"1 CHIL @VOID@"]),
            ("a wife of another type", [b"0 @F@ FAM", b"1 WIFE @F@"]),
            ("a pointer to its own record", [b"0 @I@ INDI", b"1 ALIA @I@"]),
            ("a pointer to a later record", [b"0 @I@ INDI", b"1 ALIA @J@", b"0 @J@ INDI", b"1 SEX F"]),
            ("a text in place of a pointer", [b"0 FAM", b"1 HUSB x"]),
            ("a pointer in place of a text", [b"0 @A@ SNOTE @A@"]),
            ("an empty text of two lines", [b"0 SNOTE", b"1 CONT"]), ("a bare shared note", [b"0 @A@ SNOTE"]),
            ("bare below", [b"0 INDI", b"1 BIRT", b"2 DATE"]),
            ("bare below, but not above", [b"0 INDI", b"1 BIRT Y", b"2 PLAC"]),
            ("a bare flag", [b"0 INDI", b"1 SEX F", b"1 DEAT"]), ("a text in a header that has none", [b"0 FAM x"])):
        yield f"# needs: {name}"
        yield put(home(*inner))
        yield "read"
    for inner in ((b"1 NOTE x",), (b"1 GEDC",), (b"1 GEDC", b"2 VERS 7.0"), (b"1 GEDC", b"0 SUBM"),
                  (b"1 NOTE x", b"1 GEDC", b"1 DATE 1 MAY 1990"), (b"0 SUBM", b"0 INDI")):
        yield "# needs of the header: " + " | ".join(line.decode() for line in inner)
        yield put(tree(*inner))
        yield "read"


def names():
    """Identifiers that are beginnings of one another, and pointers that name none of them."""
    yield "cards 12"
    long = b"@" + b"X" * 60
    for one, two, aimed in ((b"@I1@", b"@I10@", b"@I100@"), (b"@I10@", b"@I1@", b"@I@"), (b"@I@", b"@I1@", b"@I1@"),
                            (b"@A@", b"@B@", b"@A@"), (long + b"1@", long + b"2@", long + b"3@"),
                            (long + b"1@", long + b"@", long + b"@"), (b"@VOID1@", b"@VOI@", b"@VOID@"),
                            (b"@_@", b"@0@", b"@__@"), (b"@A@", b"@A@", b"@B@"), (b"@Z9@", b"@A0@", b"@A0@")):
        yield "# names " + " ".join(name.decode() for name in (one, two, aimed))
        first, second, pointer = b"0 " + one + b" INDI", b"0 " + two + b" INDI", b"1 ALIA " + aimed
        for inner in ((b"0 INDI", pointer, first, b"1 SEX F", second, b"1 SEX F"),
                      (first, pointer, second, b"1 ALIA " + one)):
            yield put(home(*inner))
            yield "read"


def sizes():
    """Drawers of every length around the count, whatever they held."""
    data = home(b"0 @A@ SNOTE p", b"1 CONT q", b"0 @B@ INDI", b"1 SNOTE @A@")
    yield "# drawers of every length"
    yield put(data)
    for count in (0, 1, 2, 6, 7, 8, 65536):
        yield f"cards {count}"
        yield "read"
        yield "drawer"
    yield "# what a drawer held does not matter"
    yield "cards 9"
    for card, byte, state in ((0, 7, 0), (3, 9, 3), (5, 4294967295, 1), (8, 1, 2), (9, 1, 2)):
        yield f"card {card} {byte} {state}"
    yield "drawer"
    yield "read"
    yield "drawer"
    yield put(data[:-1])
    yield "read"
    yield "drawer"
    yield put(data)
    yield "read"
    yield put(home())
    yield "read"
    yield "drawer"


def large():
    """Trees of the largest size."""
    start = home()[:-len(b"0 TRLR\n")]
    last = b"0 TRLR\n"
    yield "cards 70000"
    for count in (MOST_CARDS - 5, MOST_CARDS - 4, MOST_CARDS - 3):
        yield f"# {count + 4} cards"
        yield put(start)
        yield add(count - 1, b"0 SNOTE ", b"\n")
        yield add(1, b"0 SNOTE ", b"\n" + last)
        yield "read"
    yield "cards 65534"
    yield "read"
    yield "cards 70000"
    yield "# all point at the last record"
    yield put(start)
    yield add(32000, b"0 @I", b"@ INDI\n1 ALIA @LAST@\n")
    yield add(1, b"0 @LAST@ INDI\n1 NOTE ", b"\n" + last)
    yield "read"
    yield "# none of them points at a record"
    yield put(start)
    yield add(32000, b"0 @I", b"@ INDI\n1 ALIA @LAST@\n")
    yield add(1, b"0 @LATE@ INDI\n1 NOTE ", b"\n" + last)
    yield "read"
    yield "# names with a long beginning in common"
    common = b"@" + b"X" * 60
    yield put(start)
    yield add(16000, b"0 " + common, b"@ INDI\n1 SEX F\n")
    yield add(1600, b"0 INDI\n1 ALIA " + common, b"@\n")
    yield add(1, b"0 " + common, b"6001@ INDI\n1 SEX F\n" + last)
    yield "read"
    yield "# the last of them stands a second time"
    yield put(start)
    yield add(16000, b"0 " + common, b"@ INDI\n1 SEX F\n")
    yield add(1, b"0 " + common, b"6000@ INDI\n1 SEX F\n" + last)
    yield "read"
    yield "# many substructures of one record"
    yield put(start)
    yield add(1, b"0 FAM\n1 NOTE ", b"\n")
    yield add(32000, b"1 CHIL @VOID@\n2 PHRASE ", b"\n")
    yield add(1, b"1 HUSB @VOID@\n2 PHRASE ", b"\n" + last)
    yield "read"
    yield put(start)
    yield add(1, b"0 FAM\n1 NOTE ", b"\n1 WIFE @VOID@\n")
    yield add(65000, b"1 NOTE ", b"\n")
    yield add(1, b"1 WIFE @VOID@\n2 PHRASE ", b"\n" + last)
    yield "read"
    yield "# a text of many lines"
    yield put(start)
    yield add(1, b"0 @N@ SNOTE ", b"\n")
    yield add(100000, b"1 CONT ", b"\n")
    yield add(1, b"0 INDI\n1 NOTE ", b"\n" + last)
    yield "read"
    for call in ("more 3 0", "more 3 99998", "more 3 99999", "more 3 100000", "more 4 0", "look 3", "look 5", "count",
                 "size"):
        yield call
    yield "# a file of the largest size, and one byte more"
    yield from largest(0)
    yield "read"
    yield "size"
    yield "write 10"
    yield from largest(1)
    yield "read"


def largest(beyond):
    """A file of the largest size and some bytes more, with one text of two lines, of which the first is most of it."""
    before = home()[:-len(b"0 TRLR\n")] + b"0 SNOTE "
    between, after = b"\n1 CONT ", b"\n0 TRLR\n"
    room = MOST_BYTES + beyond - len(before) - len(between) - len(b"1") - len(after)
    # the numbers below 1,000,000 have 5,888,889 digits, and those from there on seven each
    numbers, rest = divmod(room - 5_888_889, 7)
    yield put(before)
    yield add(999_999 + numbers, b"", b"")
    yield add(1, between + b"x" * rest, after)


# ---------------------------------------------------------------- cases of views

TEXTS = """
    0 HEAD
    1 NOTE
    2 CONT
    2 CONT third
    0 @A@ X a
    1 NONE
    2 ONE one
    2 AT @@at
    3 CONT @@more
    3 CONT
    3 CONT @@
    2 SPACE  two
    2 VOIDED @VOID@
    2 POINTER @A@
    0 @AB@ Y
    1 CONT
    1 UTF å€😀
    2 CONT åä
    0 TRLR
"""


def asked_of_all(count):
    """Every card and a few past the last, with their further lines."""
    for card in range(count + 2):
        yield f"look {card}"
    for card in range(count + 1):
        yield f"more {card} 0"


def views():
    yield "book plain"
    yield "# views of every payload as filed"
    yield "cards 16"
    for end, mark in ((b"\n", b""), (b"\r\n", MARK)):
        yield put(mark + b"".join(line + end for line in lines_in(TEXTS)))
        yield "read"
        yield "drawer"
        yield "open"
        yield "count"
        yield from asked_of_all(13)
        yield "size"
    yield "# further lines around the last"
    for card, number in ((1, 0), (1, 1), (1, 2), (1, 3), (5, 0), (5, 1), (5, 2), (5, 3), (10, 0), (10, 1), (11, 0),
                         (11, 1), (12, 0), (12, 7), (13, 0), (5, 65536), (5, 4294967296), (5, 18446744073709551615),
                         (18446744073709551615, 0), (4294967296, 0)):
        yield f"more {card} {number}"
    for card in (13, 65535, 65536, 4294967296, 18446744073709551615):
        yield f"look {card}"
    yield "write 300"
    # every card that may be, emptied or voided
    data = b"".join(line + b"\n" for line in lines_in(TEXTS))
    file = File(data)
    yield put(data)
    yield "# views of every payload in every state"
    for state in (EMPTY, VOIDED):
        yield "read"
        for card, entry in enumerate(file.entries):
            if (entry.payload[0] in ("void", "pointer")) == (state == VOIDED):
                yield f"card {card} {entry.byte} {state}"
        yield "drawer"
        yield from asked_of_all(13)
        yield "size"
        yield "write 300"
    yield "# the smallest trees"
    for data in (home(), home(end=b"\r", mark=MARK), tree()):
        yield put(data)
        yield "open"
        yield "look 0"
        yield "read"
        yield "count"
        yield "size"
        yield "write 40"
    yield "book home"


def damages():
    """Drawers that hold nothing of their file, and some odd ones that hold something."""
    data = tree(b"1 A x", b"2 CONT y", b"0 @R@ B", b"1 C", b"2 D z", b"1 E @R@", b"0 @S@ F @VOID@", b"0 G @S@")
    file = File(data)
    cards = [(entry.byte, AS_FILED) for entry in file.entries]
    last = len(cards) - 1
    named = {entry.tag: i for i, entry in enumerate(file.entries)}
    a, b, c, d, e, f, g = (named[tag.encode()] for tag in "ABCDEFG")

    def changed(place, card):
        return cards[:place] + [card] + cards[place + 1:]

    def without(*places):
        return [card for i, card in enumerate(cards) if i not in places]

    cont = data.index(b"2 CONT")
    drawers = [("as read", cards), ("empty", []), ("one blank", [BLANK_CARD])]
    for place in (0, a, d, last):
        for step in (-1, 1):
            if cards[place][0] + step >= 0:
                drawers.append((f"byte {step:+d} of card {place}", changed(place, (cards[place][0] + step, AS_FILED))))
    drawers += [
        ("byte past the file", changed(last, (len(data), AS_FILED))),
        ("largest byte", changed(last, (4294967295, AS_FILED))),
        ("first two swapped", [cards[1], cards[0]] + cards[2:]),
        ("two swapped", cards[:d] + [cards[e], cards[d]] + cards[e + 1:]),
        ("last two swapped", cards[:last - 1] + [cards[last], cards[last - 1]]),
        ("first twice", cards[:1] + cards),
        ("one twice", cards[:d] + [cards[d]] + cards[d:]),
        ("last twice", cards + cards[last:]),
        ("named record twice", cards[:b] + [cards[b]] + cards[b:]),
        ("continuation's byte more", cards[:a + 1] + [(cont, AS_FILED)] + cards[a + 1:]),
        ("continuation's byte for another", changed(a, (cont, AS_FILED))),
        ("no header", cards[1:]),
        ("no trailer", cards[:-1]),
        ("header alone", cards[:1]),
        ("trailer alone", cards[-1:]),
        ("header and trailer", [cards[0], cards[-1]]),
        ("header twice and no trailer", [cards[0], cards[0]]),
        ("a record behind the trailer", without(g) + [cards[g]]),
        ("level jumps in a record", without(c)),
        ("level jumps from the header", without(a, b, c, e)),
        ("record gone, pointer as filed", without(b)),
        ("record gone, its substructures under the header", without(b, e)),
        ("record gone with all of its own", without(b, c, d, e)),
        ("a bare one under the header", without(b, d, e)),
        ("no leaf", without(d)),
        ("target gone, pointer as filed", without(f)),
        ("target gone, pointer voided", cards[:f] + [(cards[g][0], VOIDED), cards[last]]),
        ("target gone, pointer emptied", cards[:f] + [(cards[g][0], EMPTY), cards[last]]),
        ("target gone, pointer gone", without(f, g)),
        ("own target voided", changed(e, (cards[e][0], VOIDED))),
        ("void voided", changed(f, (cards[f][0], VOIDED))),
        ("pointer emptied", changed(e, (cards[e][0], EMPTY))),
        ("void emptied", changed(f, (cards[f][0], EMPTY))),
        ("text voided", changed(a, (cards[a][0], VOIDED))),
        ("text emptied", changed(a, (cards[a][0], EMPTY))),
        ("none voided", changed(c, (cards[c][0], VOIDED))),
        ("none emptied", changed(c, (cards[c][0], EMPTY))),
        ("header voided", changed(0, (0, VOIDED))),
        ("header emptied", changed(0, (0, EMPTY))),
        ("header blank", changed(0, BLANK_CARD)),
        ("trailer voided", changed(last, (cards[last][0], VOIDED))),
        ("trailer emptied", changed(last, (cards[last][0], EMPTY))),
        ("blank in the middle", changed(d, BLANK_CARD)),
        ("blank before the trailer", cards[:last] + [BLANK_CARD] + cards[last:]),
        ("blank state with a byte", changed(d, (cards[d][0], BLANK))),
        ("blank state with a byte at the end", cards + [(5, BLANK)]),
        ("blank state with a byte behind a blank", cards + [BLANK_CARD, (5, BLANK)]),
        ("byte 0 as filed behind", cards + [(0, AS_FILED)]),
        ("a card behind a blank", cards + [BLANK_CARD, cards[last]]),
    ]
    yield put(data)
    yield "book plain"
    for name, drawer in drawers:
        yield f"# drawer: {name}"
        yield f"cards {len(cards) + 2 if drawer else 0}"
        for i, (byte, state) in enumerate(drawer):
            yield f"card {i} {byte} {state}"
        yield "open"
        yield "remove 4"
        if held(file, drawer + [BLANK_CARD]):
            yield "drawer"
            yield "write 200"
    yield "# a file with a name that stands twice"
    twice = tree(b"0 @A@ X p", b"0 @A@ X q", b"0 Y @A@")
    starts = [entry.byte for entry in File(twice).entries]
    yield put(twice)
    for places in ((0, 1, 2, 3, 4), (0, 1, 3, 4), (0, 2, 3, 4), (0, 3, 4), (0, 1, 2, 4), (0, 2, 4), (0, 4)):
        yield "cards 6"
        for i, place in enumerate(places):
            yield f"card {i} {starts[place]} 0"
        yield "open"
        yield "remove 1"
        yield "drawer"
    yield "# a drawer of another file"
    yield "cards 12"
    for other in (data[:-1], data.replace(b"\n", b"\r"), data.replace(b"\n", b"\r\n"), MARK + data,
                  data.replace(b"1 E @R@", b"1 E @S@"), data.replace(b"0 @S@", b"0 @T@"),
                  data.replace(b"2 D z", b"3 D z"), data.replace(b"0 @S@", b"0 @R@"),
                  data.replace(b"2 CONT y", b"2 CONS y"), b"", data + b"0 TRLR\n"):
        yield put(data)
        yield "read"
        yield put(other)
        yield "open"
        yield "count"
        yield "remove 1"
        yield "size"
        yield "write 0"
    yield "book home"


# ---------------------------------------------------------------- cases of removals

PEOPLE = """
    0 HEAD
    1 GEDC
    2 VERS 7.0
    0 @I1@ INDI
    1 NAME Ann /Lee/
    1 BIRT
    2 PLAC Lund
    3 MAP
    4 LATI N1
    4 LONG E2
    0 @I10@ INDI
    1 NAME Bob /Lee/
    0 @F1@ FAM
    1 HUSB @I10@
    1 CHIL @I1@
    0 TRLR
"""


def removed_each(data, cards):
    """Each card removed from a drawer that was just filled."""
    yield put(data)
    for card in cards:
        yield "read"
        yield f"remove {card}"
        yield "drawer"
        yield "size"


def removals():
    yield "cards 17"
    yield "# each card of the example removed"
    data = b"".join(line + b"\n" for line in lines_in(PEOPLE))
    yield from removed_each(data, [*range(18), 65535, 4294967296, 18446744073709551615])
    yield "# written after a removal, and read back"
    for card in (7, 6, 3, 11, 8):
        yield from written_back(data, "home", [card])
    yield "# each card of a rich tree removed"
    yield "cards 44"
    yield put(rich())
    for card in range(len(lines_in(RICH)) - 3):
        yield "read"
        yield f"remove {card}"
        yield "drawer"
    yield "# with the open book, what the home book needs stays"
    yield "book open"
    own = home(b"1 _A", b"2 _B x", b"0 @R@ _REC", b"1 C", b"2 D @R@", b"2 E", b"3 F @U@", b"0 @U@ SUBM", b"1 NAME Eve",
               b"2 _X y", b"2 _Y", b"3 Z w", b"0 _REC @R@")
    yield from removed_each(own, range(17))
    yield from written_back(own, "open", [13, 8])
    yield "# a bare one that is excused stays, whatever goes below it"
    excused = home(b"0 @U@ SUBM", b"1 NAME", b"2 _X", b"3 Y z", b"0 INDI", b"1 BIRT", b"2 PLAC", b"3 MAP", b"4 LATI",
                   b"5 _X y", b"4 LONG E2", b"5 _X y", b"1 _A", b"2 B", b"3 C d")
    yield from removed_each(excused, range(3, 18))
    yield "read"
    for card in (13, 11, 6, 5, 11, 4, 3):
        yield f"remove {card}"
        yield "drawer"
    yield "write 300"
    yield "# with the plain book everything goes but the header"
    yield "book plain"
    yield from removed_each(data, range(17))
    yield "book home"
    yield "# excused and held ones"
    for inner in ((b"0 @U@ SUBM", b"1 NAME", b"0 SUBM", b"1 NAME Eve"),
                  (b"0 INDI", b"1 BIRT", b"2 PLAC", b"3 MAP", b"4 LATI", b"4 LONG E2"),
                  (b"0 INDI", b"1 BIRT", b"2 PLAC Lund", b"3 MAP", b"4 LATI N1", b"5 CONT x", b"4 LONG"),
                  (b"1 NOTE a", b"1 DATE 1 MAY 1990", b"2 TIME 9:05", b"1 SUBM @VOID@")):
        yield from removed_each(home(*inner), range(1, len(inner) + 3))
    yield "# the same removal again"
    yield put(data)
    yield "read"
    for card in (8, 8, 9, 9, 7, 7):
        yield f"remove {card}"
        yield "drawer"
        yield f"look {card}"
    yield "write 400"


def written_back(data, book, cards):
    """Cards removed one after the other; then what is written is read."""
    session = Session()
    session.data, session.book = data, BOOKS[book]
    session.drawer = [BLANK_CARD] * 60
    steps = ["read"] + [f"remove {card}" for card in cards]
    for step in steps:
        session.answer(step)
    form = written(held(session.opened(), session.drawer))
    yield f"book {book}"
    yield "cards 60"
    yield put(data)
    yield from steps
    yield f"write {len(form)}"
    yield put(form)
    yield "open"
    yield "read"
    yield "drawer"
    yield "size"


class Turns:
    """A small generator, so that every run makes the same cases."""

    def __init__(self, seed):
        self.state = seed

    def below(self, count):
        self.state = (self.state * 6364136223846793005 + 1442695040888963407) % 2 ** 64
        return (self.state >> 33) % count


def rows_of_removals():
    """Removals in a row, until nothing more goes."""
    yield "# from the last record to the first, until the header is left"
    data = b"".join(line + b"\r\n" for line in lines_in(PEOPLE))
    yield put(data)
    yield "cards 16"
    yield "read"
    for card in (12, 10, 3, 3):
        yield f"remove {card}"
        yield "drawer"
    for call in ("count", "look 2", "look 3", "look 4", "more 4 0", "remove 1", "remove 2", "size", "write 35",
                 "write 34"):
        yield call
    yield "# always the first that may go, with the plain book"
    yield "book plain"
    yield "read"
    for _ in range(15):
        yield "remove 1"
        yield "count"
    yield "size"
    yield "write 100"
    yield put(written([Entry(0, None, b"HEAD", NONE, 1, 0), Entry(0, None, b"TRLR", NONE, 2, 0)]))
    yield "open"
    yield "read"
    yield "write 17"
    yield "book home"
    yield "# pointers to a removed record"
    pointing = home(b"1 SUBM @U@", b"0 @I1@ INDI", b"1 ALIA @I@", b"1 ALIA @I1@", b"1 ALIA @I10@", b"1 FAMC @VOID@",
                    b"0 @I@ INDI", b"1 ALIA @I1@", b"1 ALIA @I@", b"0 @I10@ INDI", b"1 ALIA @I@", b"1 SEX F",
                    b"0 @U@ SUBM", b"1 NAME Eve", b"0 FAM", b"1 HUSB @I1@", b"1 WIFE @I@", b"1 CHIL @I10@",
                    b"1 CHIL @I1@")
    yield "cards 24"
    yield put(pointing)
    for card in (4, 9, 12, 15, 5, 6, 10):
        yield "read"
        yield f"remove {card}"
        yield "drawer"
        yield "size"
    yield "read"
    for card in (9, 4, 6, 5, 7, 3):
        yield f"remove {card}"
        yield "drawer"
    yield "write 400"
    yield from written_back(pointing, "home", [9, 4])
    yield from written_back(rich(b"\r", MARK), "home", [9, 15, 11])
    for seed in range(6):
        yield f"# removals at random {seed}"
        turns = Turns(seed)
        session = Session()
        session.data = rich(ENDS[seed % 3])
        session.drawer = [BLANK_CARD] * 43
        yield "cards 43"
        yield put(session.data)
        yield "read"
        session.answer("read")
        for _ in range(8):
            count = len(held(session.opened(), session.drawer))
            step = f"remove {1 + turns.below(count - 2)}"
            session.answer(step)
            yield step
        yield "drawer"
        yield "size"
        yield "write 900"


def other_books():
    """A tree of one book, removed from with another."""
    yield "# a tree of the plain book is not of the home book"
    yield "cards 8"
    for inner in ((b"0 X y",), (b"0 INDI", b"1 SEX no"), (b"1 NOTE a", b"1 NOTE b"), (b"0 SUBM x",),
                  (b"0 INDI", b"1 SEX F")):
        yield put(home(*inner))
        yield "book plain"
        yield "read"
        yield "book home"
        for card in (0, 1, 3, 99):
            yield f"remove {card}"
        yield "drawer"
        yield "book open"
        yield "remove 0"
        yield "book plain"
        yield "remove 3"
        yield "drawer"
    yield "# a drawer whose states break a rule of the book"
    data = home(b"1 SUBM @U@", b"0 @U@ SUBM", b"1 NAME Eve", b"0 INDI", b"1 SEX F", b"0 SNOTE p")
    file = File(data)
    yield put(data)
    yield "book home"
    yield "cards 12"
    for emptied in range(1, len(file.entries) - 1):
        entry = file.entries[emptied]
        yield "read"
        yield f"card {emptied} {entry.byte} {VOIDED if entry.payload[0] == 'pointer' else EMPTY}"
        yield "open"
        yield "remove 0"
        yield "remove 8"
    yield "# a drawer from which a needed card was taken"
    for missing in range(1, len(file.entries) - 1):
        kept = [entry for i, entry in enumerate(file.entries) if i != missing]
        yield "cards 12"
        for i, entry in enumerate(kept):
            yield f"card {i} {entry.byte} 0"
        yield "open"
        yield "remove 0"


def writings():
    yield "# rooms around the size"
    yield "book home"
    yield "cards 20"
    for data in (home(), home(b"0 @N@ SNOTE @@x", b"1 CONT", b"1 CONT @@", end=b"\r\n", mark=MARK),
                 home("0 SNOTE å".encode(), b"1 CONT  ", b"0 SNOTE", b"1 CONT")):
        size = len(written(File(data).entries))
        yield put(data)
        yield "write 1000"
        yield "read"
        yield "size"
        for room in (0, 1, size - 1, size, size + 1, size + 100):
            yield f"write {room}"
    yield "# what is written is read as the same tree"
    for data in (rich(), rich(b"\r\n"), rich(b"\r", MARK)):
        yield from written_back(data, "home", [])


def cases():
    for family in (examples, low_rules, rules, pairs, blanks, books, needs, names, sizes, views, damages, removals,
                   rows_of_removals, other_books, writings, large):
        yield from family()


def main():
    if len(sys.argv) != 3:
        sys.exit("usage: calls.py CASES EXPECTED")
    session = Session()
    with open(sys.argv[1], "w", encoding="ascii", newline="\n") as asked, \
            open(sys.argv[2], "w", encoding="ascii", newline="\n") as expected:
        for line in cases():
            asked.write(line + "\n")
            answer = session.answer(line)
            if answer is not None:
                expected.write(answer + "\n")


if __name__ == "__main__":
    main()
