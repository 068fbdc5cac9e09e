#!/usr/bin/env python3
"""The lines of a file and the refusals 2 to 10 stated once more, and cases for them.

    lines.py CASES EXPECTED

writes the cases to one file and the answers to the other, in the same order, a line each. A case is a whole small
file, escaped: printable ASCII stands as it is, a backslash as \\\\, any other byte as \\xHH. An answer ends with a
space and the case itself:

    ok LINES CONTINUATIONS DEEPEST CASE
    refused NUMBER line L byte B CASE

LINES is how many lines there are, CONTINUATIONS how many of them are CONT, DEEPEST the deepest level of all of them.

What a line is stands here as one regular expression, after the productions of FamilySearch GEDCOM 7.0 as
docs/FORMAT.md restates them, and each refusal as a loop over all lines. Nothing is taken over from the definitions that
the code is proved against, so that the two can be held against each other. Refusal 1 needs a file of more than
16,777,216 bytes and is not among the cases.
"""

import re
import sys

MARK = b"\xef\xbb\xbf"

# ---------------------------------------------------------------- characters

BANNED = (set(range(0x00, 0x20)) - {0x09, 0x0A, 0x0D}) | {0x7F} | set(range(0x80, 0xA0)) | {0xFFFE, 0xFFFF}


def is_utf8(data):
    try:
        data.decode("utf-8", "strict")
        return True
    except UnicodeDecodeError:
        return False


def line_of(data, byte):
    """The line in which a byte stands: one more than the line ends before it. CR LF is one end."""
    return 1 + len(re.findall(rb"\r\n|\r|\n", data[:byte]))


def character_fault(data):
    if not is_utf8(data):
        byte = max(n for n in range(len(data)) if is_utf8(data[:n]))
        return 2, line_of(data, byte), byte
    byte = 0
    for character in data.decode("utf-8"):
        if ord(character) in BANNED:
            return 3, line_of(data, byte), byte
        byte += len(character.encode("utf-8"))
    return None


# ---------------------------------------------------------------- lines

LINE = re.compile(rb"""
    (?P<level> 0 | [1-9][0-9]* )
    (?: [ ] (?P<identifier> @ (?!VOID@) [A-Z0-9_]+ @ ) )?
    [ ] (?P<tag> [A-Z][A-Z0-9_]* | _[A-Z0-9_]+ )
    (?: [ ] (?: (?P<pointer> @ [A-Z0-9_]+ @ ) | (?P<text> (?: [^@\r\n] | @@ ) [^\r\n]* ) ) )?
    (?: \r\n | \r | \n )
    """, re.VERBOSE)


def lines_of(data):
    """The lines, each with the byte where it begins; or the fault of the first that is none."""
    byte = len(MARK) if data.startswith(MARK) else 0
    found = []
    while byte < len(data):
        line = LINE.match(data, byte)
        if line is None:
            return None, (4, len(found) + 1, byte)
        found.append((byte, line.groupdict()))
        byte = line.end()
    if not found:
        return None, (4, 1, byte)
    return found, None


def level(line):
    return int(line["level"])


def is_bare(line, tag):
    return line == {"level": b"0", "identifier": None, "tag": tag, "pointer": None, "text": None}


def line_fault(found):
    lines = [line for _, line in found]
    last = len(lines) - 1

    def previous_other(i):
        """The place of the last line before i that is no CONT."""
        places = [j for j in range(i) if lines[j]["tag"] != b"CONT"]
        return places[-1] if places else None

    def breaks_5(i):
        return level(lines[i]) > 63

    def breaks_6(i):
        if i == 0:
            return not is_bare(lines[i], b"HEAD")
        return level(lines[i]) == 0 and lines[i]["tag"] == b"HEAD"

    def breaks_7(i):
        if i == last:
            return not is_bare(lines[i], b"TRLR")
        return level(lines[i]) == 0 and lines[i]["tag"] == b"TRLR"

    def breaks_8(i):
        j = previous_other(i)
        return lines[i]["tag"] != b"CONT" and j is not None and level(lines[i]) > level(lines[j]) + 1

    def breaks_9(i):
        return level(lines[i]) > 0 and lines[i]["identifier"] is not None

    def breaks_10(i):
        if lines[i]["tag"] == b"CONC":
            return True
        if lines[i]["tag"] != b"CONT":
            return False
        j = previous_other(i)
        return (j is None or j == 0 or level(lines[i]) != level(lines[j]) + 1
                or lines[j]["pointer"] is not None or lines[i]["pointer"] is not None)

    for number, breaks in ((5, breaks_5), (6, breaks_6), (7, breaks_7), (8, breaks_8), (9, breaks_9), (10, breaks_10)):
        for i in range(len(lines)):
            if breaks(i):
                return number, i + 1, found[i][0]
    return None


def answer(data):
    fault = character_fault(data)
    found = None
    if fault is None:
        found, fault = lines_of(data)
    if fault is None:
        fault = line_fault(found)
    if fault is not None:
        return "refused %d line %d byte %d" % fault
    lines = [line for _, line in found]
    return "ok %d %d %d" % (len(lines), sum(line["tag"] == b"CONT" for line in lines), max(map(level, lines)))


# ---------------------------------------------------------------- cases

HEAD = b"0 HEAD"
TRLR = b"0 TRLR"


def tree(*inner, end=b"\n"):
    """A file with these lines between a header and a trailer."""
    return b"".join(line + end for line in (HEAD, *inner, TRLR))


def small_files():
    yield b""
    for n in (1, 2, 3):
        yield MARK[:n]
    yield MARK + MARK
    for start in (b"", MARK):
        for rest in (b"\n", b"\r", b"\r\n", b" ", b"0", b"0 ", b"0 HEAD", b"0 HEAD\n", b"0 TRLR\n", tree(),
                     tree() + b"\n", tree()[:-1], tree()[1:], b"\n" + tree(), b" " + tree(), MARK + tree()):
            yield start + rest
    for n in (1, 2):
        yield MARK[:n] + tree()
    yield tree()[:7] + MARK + tree()[7:]
    yield tree(b"0 NOTE \xef\xbb\xbfx")
    # without its last byte, the smallest tree has a line with no end
    smallest = tree(b"1 GEDC", b"2 VERS 7.0")
    yield smallest
    for n in range(1, 9):
        yield smallest[:-n]
    yield MARK + smallest[:-1]


def line_ends():
    ends = (b"\n", b"\r", b"\r\n")
    inner = (b"0 @N@ SNOTE one", b"1 CONT two", b"1 CONT")
    for end in ends:
        yield tree(*inner, end=end)
        yield MARK + tree(*inner, end=end)
        yield tree(*inner, end=end)[:-1]
        yield tree(b"", end=end)
        yield tree(b"1 NOTE", b"x", end=end)
        yield tree() + end
    for a in ends:
        for b in ends:
            yield HEAD + a + b"1 NOTE x" + b + TRLR + a
            yield HEAD + a + b"1 NOTE x" + a + TRLR + b
            yield HEAD + a + b + TRLR + a
            yield HEAD + a + b"1 NOTE " + b + TRLR + b
    yield HEAD + b"\n\r" + TRLR + b"\n"
    yield HEAD + b"\r\r\n" + TRLR + b"\n"
    yield HEAD + b"\r\n" + TRLR + b"\r\n\n"
    yield HEAD + b"\r\n" + TRLR + b"\r\r\n"
    yield HEAD + b"\x0b" + TRLR + b"\n"
    yield HEAD + b"\xe2\x80\xa8" + TRLR + b"\n"
    yield HEAD + b"\xc2\x85" + TRLR + b"\n"


def odd_lines():
    """Lines of an odd form, on both sides of each rule of the grammar, between a header and a trailer."""
    yes_and_no = [
        # level
        b"0 X", b"1 X", b"01 X", b"00 X", b"0", b"", b" 0 X", b"-1 X", b"+1 X", b"1. X", b"0x1 X", b"a X",
        b"\xd9\xa3 X", b"1", b"1 ", b"1\tX", b"1X", b"1  X", b"X",
        b"10 X", b"9 X", b"63 X", b"64 X", b"063 X",
        # identifier
        b"0 @A@ X", b"0 @Z@ X", b"0 @0@ X", b"0 @9@ X", b"0 @_@ X", b"0 @A_9@ X", b"0 @@ X", b"0 @a@ X", b"0 @A@X",
        b"0 @A@  X", b"0 @A@", b"0 @A@ ", b"0 @A X", b"0 A@ X",
        b"0  @A@ X", b"0 @A B@ X", b"0 @A@ @B@ X", b"0 @VOID@ X", b"0 @VOID1@ X", b"0 @_VOID@ X", b"0 @VOI@ X",
        b"0 @V@ X", b"0 @VOIDVOID@ X", b"0 @void@ X", b"0 @A-1@ X",
        b"0 @\xc3\x85@ X", b"0 @A:1@ X", b"0 @#A@ X", b"0 @A.@ X", b"0@A@ X", b"0 @@@ X", b"0 @A@@ X", b"0 @@A@ X",
        b"0 @A@\tX", b"0 @[@ X", b"0 @/@ X",
        # tag
        b"0 A", b"0 Z", b"0 A0", b"0 A9", b"0 A_", b"0 _A", b"0 _0", b"0 __", b"0 _", b"0 9", b"0 9A", b"0 a", b"0 Aa",
        b"0 A.B", b"0 A-B", b"0 \xc3\x84", b"0 A\xc3\x84", b"0 _a",
        b"0 [", b"0 @", b"0 `", b"0 A[", b"0 A@", b"0 A/", b"0 A:", b"0 _:", b"0 ABCDEFGHIJKLMNOPQRSTUVWXYZ_0123456789",
        b"0 _ A", b"0 _\tA", b"0 A\tB",
        # value
        b"1 NOTE", b"1 NOTE ", b"1 NOTE  ", b"1 NOTE   ", b"1 NOTE a", b"1 NOTE  a", b"1 NOTE a ", b"1 NOTE\ta",
        b"1 NOTE \t", b"1 NOTE \ta", b"1 NOTE a\tb", b"1  NOTE a",
        b"1 NOTE @", b"1 NOTE @@", b"1 NOTE @@@", b"1 NOTE @@@@", b"1 NOTE @@ ", b"1 NOTE @@a", b"1 NOTE @@a@",
        b"1 NOTE @@a@@b", b"1 NOTE a@b", b"1 NOTE a@@b", b"1 NOTE  @", b"1 NOTE  @@",
        b"1 NOTE  @A@", b"1 NOTE @A", b"1 NOTE @A@", b"1 NOTE @A@ ", b"1 NOTE @A@ x", b"1 NOTE @A@x", b"1 NOTE @A@@",
        b"1 NOTE @A@B@", b"1 NOTE @a@", b"1 NOTE @ A@", b"1 NOTE @A @",
        b"1 NOTE @A_0@", b"1 NOTE @\xc3\x85@", b"1 NOTE @VOID@", b"1 NOTE @VOID", b"1 NOTE @VOID@ ", b"1 NOTE @VOID@@",
        b"1 NOTE @Void@", b"1 NOTE @VOID1@", b"1 NOTE @@VOID@", b"1 NOTE @#DJULIAN@",
        b"1 NOTE \xc3\xa5", b"1 NOTE \xe6\x97\xa5", b"1 NOTE \xf0\x9f\x98\x80", b"1 NOTE \\", b"1 NOTE \\x41",
        b"1 NOTE ~", b"1 NOTE \xc2\xa0", b"1 \xc2\xa0NOTE", b"1\xc2\xa0NOTE",
        b"0 @A@ NOTE @A@", b"0 @A@ NOTE @VOID@", b"0 @A@ NOTE x", b"0 @A@ NOTE @@A@", b"0 @A@ NOTE ", b"0 @A@ @A@",
    ]
    for line in yes_and_no:
        yield tree(line)
    # the same forms as the first and as the last line, and with no end
    for line in (b"00 HEAD", b"0 HEAD ", b"0  HEAD", b" 0 HEAD", b"0 HEAD x", b"0 @A@ HEAD", b"0 HEAD @A@",
                 b"0 HEAD @VOID@", b"1 HEAD", b"0 HEADS", b"0 head", b"0 HEAD\t", b"0 HEAD @", b"0\tHEAD", b"0 _HEAD",
                 b"0 INDI", b"0 TRLR", b"0 CONT", b"1 CONT", b"0 CONC", b"64 HEAD", b"0 @VOID@ HEAD"):
        yield line + b"\n" + TRLR + b"\n"
    for line in (b"00 TRLR", b"0 TRLR ", b"0  TRLR", b" 0 TRLR", b"0 TRLR x", b"0 @A@ TRLR", b"0 TRLR @A@",
                 b"0 TRLR @VOID@", b"1 TRLR", b"0 TRLRS", b"0 trlr", b"0 TRLR\t", b"0 TRLR @", b"0\tTRLR", b"0 _TRLR",
                 b"0 INDI", b"0 HEAD", b"0 CONT", b"1 CONT", b"0 CONC", b"64 TRLR", b"1 NOTE x", b"0 @VOID@ TRLR"):
        yield HEAD + b"\n0 X\n" + line + b"\n"
    for line in (b"0 X", b"1 NOTE x", b"0 TRLR x", b"", b"\r"):
        yield HEAD + b"\n" + line


def levels():
    deep = [b"%d L" % n for n in range(1, 64)]
    yield tree(b"0 X", *deep)
    yield tree(b"0 X", *deep, b"64 L")
    yield tree(b"0 X", *deep[:62], b"63 L text")
    yield tree(b"0 X", *deep[:61], b"62 L text", b"63 CONT more")
    yield tree(b"0 X", *deep[:62], b"63 L text", b"64 CONT more")
    yield tree(b"0 X", *deep, b"0 Y", b"64 Z")
    for digits in (b"64", b"65", b"99", b"100", b"255", b"256", b"65536", b"4294967295", b"4294967296", b"4294967297",
                   b"18446744073709551615", b"18446744073709551616", b"18446744073709551617",
                   b"1000000000000000000000000", b"9999999999999999999999999", b"1" + b"0" * 39):
        yield tree(digits + b" X")
        yield tree(b"0 X", b"1 Y", digits + b" Z", b"1 W")
    yield tree(b"0" * 25 + b" X")
    yield tree(b"0" + b"1" * 24 + b" X")
    yield tree(b"18446744073709551616 HEAD")
    yield tree(b"18446744073709551616 TRLR")
    yield b"18446744073709551616 HEAD\n" + TRLR + b"\n"
    yield HEAD + b"\n18446744073709551616 TRLR\n"
    yield tree(b"18446744073709551617 CONT x")


def rules():
    """Each of the rules 4 to 10 broken at the first, a middle and the last line."""
    good = [HEAD, b"1 NOTE a", b"2 CONT b", b"0 @A@ X", b"1 Y @A@", b"1 NOTE", b"2 CONT", b"0 Z text", TRLR]
    middle = {
        4: b"1  NOTE", 5: b"64 Y", 6: b"0 HEAD", 7: b"0 TRLR", 8: b"3 Y", 9: b"1 @B@ Y", 10: b"1 CONC x",
    }

    def whole(lines):
        return b"".join(line + b"\n" for line in lines)

    yield whole(good)
    yield MARK + whole(good)
    for bad in middle.values():
        for place in (0, 1, 4, len(good) - 2, len(good) - 1):
            # in the place of a line, and before it
            yield whole(good[:place] + [bad] + good[place + 1:])
            yield MARK + whole(good[:place] + [bad] + good[place:])
        yield whole(good + [bad])
        # twice: the earlier line is told
        yield whole(good[:4] + [bad] + good[4:5] + [bad] + good[5:])
    # two rules broken at once, in both orders
    for first in middle.values():
        for second in middle.values():
            if first != second:
                yield whole([HEAD, b"0 X", b"1 Y", first, b"0 W", b"1 V", second, TRLR])
    # both in one line
    for line in (b"64 HEAD", b"64 @A@ X", b"64 CONC", b"64 CONT x", b"3 @A@ X", b"3 @A@ CONC", b"1 @A@ CONC",
                 b"2 @A@ CONT x", b"0 @A@ HEAD x", b"0 @A@ TRLR x", b"0 @A@ CONC", b"0 @A@ CONT"):
        yield whole([HEAD, b"0 X", b"1 Y", line, TRLR])


def headers_and_trailers():
    for inner in ((b"1 HEAD",), (b"1 TRLR",), (b"0 X", b"1 HEAD x"), (b"0 X", b"1 TRLR @A@"), (b"0 HEAD",),
                  (b"0 HEAD x",), (b"0 @A@ HEAD",), (b"0 TRLR",), (b"0 TRLR x",), (b"0 @A@ TRLR",),
                  (b"0 X", b"0 HEAD", b"0 HEAD"), (b"0 TRLR", b"0 TRLR", b"0 X"), (b"0 TRLR", b"0 HEAD"),
                  (b"0 HEAD", b"0 TRLR"), (b"0 HEADER",), (b"0 TRLR_",), (b"0 X", b"1 Y", b"2 HEAD", b"2 TRLR")):
        yield tree(*inner)
    yield tree() + tree()
    yield tree() + b"0 X\n"
    yield b"0 X\n" + tree()
    yield TRLR + b"\n" + HEAD + b"\n"
    yield HEAD + b"\n"
    yield HEAD + b"\n0 X\n1 TRLR\n"
    yield HEAD + b"\n1 CONT x\n"


def steps():
    for inner in ((b"1 A",), (b"2 A",), (b"1 A", b"2 B"), (b"1 A", b"3 B"), (b"0 X", b"1 A", b"2 B", b"3 C", b"1 D"),
                  (b"0 X", b"1 A", b"2 B", b"0 Y", b"2 C"), (b"0 X", b"2 A", b"3 B"),
                  # a CONT is passed over
                  (b"0 X a", b"1 CONT b", b"1 A"), (b"0 X a", b"1 CONT b", b"2 A"),
                  (b"0 X", b"1 A a", b"2 CONT b", b"2 B"), (b"0 X", b"1 A a", b"2 CONT b", b"3 B"),
                  (b"0 X", b"1 A a", b"2 CONT b", b"2 CONT c", b"3 B"), (b"0 X", b"1 A a", b"2 CONT b", b"0 Y"),
                  (b"0 X", b"1 A a", b"2 CONT b", b"1 B"),
                  # CONC is a line like any other here
                  (b"0 X", b"1 CONC", b"2 A"), (b"0 X", b"2 CONC"), (b"0 X", b"1 CONC", b"3 A")):
        yield tree(*inner)


def identifiers():
    for inner in ((b"0 @A@ X",), (b"1 @A@ X",), (b"0 X", b"1 @A@ Y"), (b"0 @A@ X", b"1 @B@ Y", b"2 @C@ Z"),
                  (b"0 @A@ X", b"0 @A@ X"), (b"0 X @A@",), (b"0 X", b"1 Y @A@", b"1 @A@ Y"),
                  (b"0 X", b"1 Y a", b"2 @A@ CONT b"), (b"0 @A@ CONT b",), (b"0 X", b"1 @A@ HEAD"),
                  (b"0 X", b"1 @A@ CONC x")):
        yield tree(*inner)


def continuations():
    x = (b"0 X",)
    for inner in (
            # after the first line, after a substructure of the header, after nothing
            (b"1 CONT a",), (b"0 CONT a",), (b"1 CONT",), (b"1 NOTE a", b"2 CONT b"), (b"1 NOTE a", b"1 CONT b"),
            (b"1 CONT a", b"1 CONT b"),
            # level
            x + (b"1 CONT a",), x + (b"0 CONT a",), x + (b"2 CONT a",), x + (b"1 N a", b"2 CONT b"),
            x + (b"1 N a", b"1 CONT b"), x + (b"1 N a", b"3 CONT b"), x + (b"1 N a", b"0 CONT b"),
            x + (b"1 N a", b"2 CONT b", b"2 CONT c"), x + (b"1 N a", b"2 CONT b", b"3 CONT c"),
            x + (b"1 N a", b"2 CONT b", b"1 CONT c"),
            # after a text, none, a pointer, void; with each of them
            x + (b"1 N", b"2 CONT b"), x + (b"1 N @A@", b"2 CONT b"), x + (b"1 N @VOID@", b"2 CONT b"),
            x + (b"1 N @@A@", b"2 CONT b"), x + (b"1 N a", b"2 CONT"), x + (b"1 N a", b"2 CONT @A@"),
            x + (b"1 N a", b"2 CONT @VOID@"), x + (b"1 N a", b"2 CONT @@A@"), x + (b"1 N", b"2 CONT"),
            x + (b"1 N", b"2 CONT", b"2 CONT"), x + (b"1 N a", b"2 CONT  "), x + (b"1 N a", b"2 CONT "),
            x + (b"1 N @A@", b"2 CONT", b"2 CONT b"), x + (b"1 N a", b"2 CONT b", b"2 CONT @A@", b"2 CONT c"),
            # after a substructure
            x + (b"1 N a", b"2 M b", b"2 CONT c"), x + (b"1 N a", b"2 M b", b"3 CONT c"),
            x + (b"1 N a", b"2 CONT b", b"2 M c", b"3 CONT d", b"2 CONT e"),
            x + (b"1 N a", b"2 M b", b"1 O", b"2 CONT c"),
            # on a record
            (b"0 @A@ S a", b"1 CONT b"), (b"0 @A@ S", b"1 CONT b"), (b"0 @A@ S @A@", b"1 CONT b"),
            (b"0 @A@ S a", b"1 T b", b"1 CONT c"),
            # names that are near
            x + (b"1 CONTS a",), x + (b"1 CON a",), x + (b"1 _CONT a",), x + (b"1 CONTCONT a",), x + (b"1 CONC",),
            x + (b"1 N a", b"2 CONC b"), x + (b"1 N a", b"2 CONT b", b"2 CONC c"), x + (b"1 CONCS a",),
            x + (b"1 N a", b"2 CONC b", b"3 CONT c"), (b"0 CONC",), (b"0 X a", b"1 CONT b", b"1 CONC c", b"1 CONT d")):
        yield tree(*inner)
    yield HEAD + b"\n0 X a\n1 CONT b\n"
    yield b"1 CONT a\n" + tree()
    yield b"0 CONT\n" + tree()


def encode(code):
    """UTF-8 by its bits, of any number and of any length asked for: also what no file may have."""
    return encode_in(1 if code < 0x80 else 2 if code < 0x800 else 3 if code < 0x10000 else 4, code)


def encode_in(length, code):
    if length == 1:
        return bytes([code])
    tail = [0x80 | (code >> (6 * i)) & 0x3F for i in reversed(range(length - 1))]
    lead = (0xFF00 >> length) & 0xFF | code >> (6 * (length - 1))
    return bytes([lead] + tail)


def noted(character, before=b"a", after=b"b"):
    return tree(b"0 X", b"1 NOTE " + before + character + after)


def characters():
    # the smallest and the largest of each length, and what is on either side of each bound
    for code in (0x20, 0x7E, 0x7F, 0x80, 0x81, 0x9E, 0x9F, 0xA0, 0xA1, 0xFF, 0x100, 0x7FF, 0x800, 0xFFF, 0x1000, 0xCFFF,
                 0xD000, 0xD7FF, 0xD800, 0xDBFF, 0xDC00, 0xDFFF, 0xE000, 0xFDD0, 0xFEFF, 0xFFFD, 0xFFFE, 0xFFFF,
                 0x10000, 0x1FFFD, 0x1FFFE, 0x1FFFF, 0x3FFFF, 0x40000, 0xFFFFF, 0x100000, 0x10FFFD, 0x10FFFE, 0x10FFFF,
                 0x110000, 0x13FFFF, 0x140000, 0x1FFFFF):
        yield noted(encode(code))
    # controls, one by one, in a text and in the place of a line
    for code in range(0x20):
        yield noted(bytes([code]))
    for code in (0x00, 0x08, 0x09, 0x0B, 0x0C, 0x0E, 0x1F, 0x7F):
        yield HEAD + bytes([code]) + b"\n" + TRLR + b"\n"
        yield bytes([code]) + tree()
        yield tree() + bytes([code])
        yield MARK + bytes([code]) + tree()
    # a character in more bytes than it needs
    for length, codes in ((2, (0x00, 0x2F, 0x40, 0x7F)), (3, (0x00, 0x7F, 0x80, 0x7FF)),
                          (4, (0x00, 0x7F, 0x7FF, 0x800, 0xFFFF))):
        for code in codes:
            yield noted(encode_in(length, code))
    # bytes that begin nothing
    for byte in (0x80, 0x8F, 0x90, 0x9F, 0xA0, 0xBF, 0xC0, 0xC1, 0xF5, 0xF7, 0xF8, 0xFB, 0xFC, 0xFD, 0xFE, 0xFF):
        yield noted(bytes([byte]))
        yield noted(bytes([byte, 0x80, 0x80, 0x80]))
        yield bytes([byte]) + tree()
    # second bytes on both sides of their bounds
    for lead, seconds in ((0xC2, (0x7F, 0x80, 0xBF, 0xC0)), (0xDF, (0x7F, 0x80, 0xBF, 0xC0)),
                          (0xE0, (0x80, 0x9F, 0xA0, 0xBF, 0xC0)), (0xE1, (0x7F, 0x80, 0xBF, 0xC0)),
                          (0xEC, (0x80, 0xBF)), (0xED, (0x7F, 0x80, 0x9F, 0xA0, 0xBF)), (0xEE, (0x7F, 0x80, 0xBF)),
                          (0xEF, (0x7F, 0x80, 0xBF, 0xC0)), (0xF0, (0x80, 0x8F, 0x90, 0xBF, 0xC0)),
                          (0xF1, (0x7F, 0x80, 0xBF, 0xC0)), (0xF3, (0x80, 0xBF)),
                          (0xF4, (0x7F, 0x80, 0x8F, 0x90, 0xBF)), (0xF5, (0x80,))):
        length = 2 if lead < 0xE0 else 3 if lead < 0xF0 else 4
        for second in seconds:
            yield noted(bytes([lead, second] + [0xA5] * (length - 2)))
    # third and fourth bytes
    for third in (0x7F, 0x80, 0xBF, 0xC0):
        yield noted(bytes([0xE2, 0x82, third]))
        yield noted(bytes([0xF0, 0x9F, third, 0x80]))
        yield noted(bytes([0xF0, 0x9F, 0x98, third]))
    # cut short: in the middle of a text, at the end of a line, at the end of the file, one after the other
    for whole in (b"\xc3\xa5", b"\xe2\x82\xac", b"\xf0\x9f\x98\x80"):
        yield noted(whole)
        yield tree() + whole
        for n in range(1, len(whole)):
            yield noted(whole[:n])
            yield noted(whole[:n], after=b"")
            yield noted(whole[:n], after=whole)
            yield tree() + whole[:n]
            yield whole[:n]
            yield HEAD + b"\n0 X " + whole[:n]
    yield noted(b"\xed\xa0\xbd\xed\xb8\x80")
    yield noted(b"\xc3\xa5" * 8)
    yield noted(b"\xef\xbb\xbf")


def faults_after_ends():
    """Where the fault of a byte is said to be: in which line, after each of the line ends."""
    for end in (b"\n", b"\r", b"\r\n"):
        for bad in (b"\xff", b"\xc3", b"\x00", b"\xc2\x80", b"\xef\xbf\xbe"):
            yield HEAD + end + bad + TRLR + end
            yield HEAD + end + b"1 NOTE x" + bad + end + TRLR + end
            yield HEAD + end + b"1 NOTE x" + end + TRLR + end + bad
            yield MARK + HEAD + end + end + b" " + bad
    for bad in (b"\xff", b"\x00"):
        yield HEAD + b"\r\n\r\n\n\r" + bad
        yield HEAD + b"\n\r" + bad
        yield HEAD + b"\r\r\n" + bad + b"\n"
        yield HEAD + b"\r" + bad + b"\n"
        yield HEAD + bad + b"\r\n"
    # bytes that are not UTF-8 are told before a banned character, which is told before anything of the lines
    yield noted(b"\x00 \xff")
    yield noted(b"\xff \x00")
    yield b"x\x00\n\xff\n"
    yield b"x\xff\n\x00\n"
    yield b"x\n" + tree(b"1 NOTE \x7f")
    yield tree(b"64 X", b"1 NOTE \xc2\x9f")
    yield noted(b"\x01\x02")
    yield noted(b"\xff\xfe")
    yield b"\xff\xfe0\x00 \x00H\x00"
    yield b"\xfe\xff\x000\x00 "


def cases():
    found = {}
    for family in (small_files, line_ends, odd_lines, levels, rules, headers_and_trailers, steps, identifiers,
                   continuations, characters, faults_after_ends):
        for data in family():
            found[data] = True
    return list(found)


def escaped(data):
    return "".join("\\\\" if b == 0x5C else chr(b) if 0x20 <= b <= 0x7E else "\\x%02X" % b for b in data)


def main():
    if len(sys.argv) != 3:
        sys.exit("usage: lines.py CASES EXPECTED")
    with open(sys.argv[1], "w", encoding="ascii", newline="\n") as asked, \
            open(sys.argv[2], "w", encoding="ascii", newline="\n") as expected:
        for data in cases():
            case = escaped(data)
            asked.write(case + "\n")
            expected.write(f"{answer(data)} {case}\n")


if __name__ == "__main__":
    main()
