#!/usr/bin/env python3
"""The sixteen payload kinds stated once more, and cases for them.

    kinds.py CASES EXPECTED

writes the cases to one file and the answers to the other, in the same order, a line each:

    KINDNAME<TAB>PAYLOAD
    taken KINDNAME<TAB>PAYLOAD      or      refused KINDNAME<TAB>PAYLOAD

The first tab of a case ends the name; a payload may have tabs of its own. A name is that of a kind, with the number
of a set of the home book where the kind asks for one. A payload is one line of text as it stands in a dataset, so
that a text which begins with @ has one @ there; it is never empty. Four payloads are written as a word instead:

    <none>     no payload
    <void>     a void pointer
    <pointer>  a pointer to a record
    <lines>    a text of two lines

What is taken is stated here by regular expressions, after the productions of FamilySearch GEDCOM 7.0 as
docs/FORMAT.md restates them. Nothing is taken over from the definitions that the code is proved against, so that the
two can be held against each other.
"""

import itertools
import re
import sys

SPECIAL = ("<none>", "<void>", "<pointer>", "<lines>")

SETS = {
    0: "M F X U".split(),
    1: "CONFIDENTIAL LOCKED PRIVACY".split(),
    2: "AKA BIRTH IMMIGRANT MAIDEN MARRIED PROFESSIONAL OTHER".split(),
}

WESTERN = "JAN FEB MAR APR MAY JUN JUL AUG SEP OCT NOV DEC".split()
FRENCH = "VEND BRUM FRIM NIVO PLUV VENT GERM FLOR PRAI MESS THER FRUC COMP".split()
HEBREW = "TSH CSH KSL TVT SHV ADR ADS NSN IYR SVN TMZ AAV ELL".split()

# name, months, whether a year may be BCE
CALENDARS = (
    ("GREGORIAN", WESTERN, True),
    ("JULIAN", WESTERN, True),
    ("FRENCH_R", FRENCH, False),
    ("HEBREW", HEBREW, False),
)

# ---------------------------------------------------------------- what is taken

INTEGER = "[0-9]+"


def either(words):
    return "(?:" + "|".join(words) + ")"


def date_of(name, months, bce):
    """The dates of one calendar; only the Gregorian need not be named."""
    named = "(?:GREGORIAN )?" if name == "GREGORIAN" else name + " "
    epoch = "(?: BCE)?" if bce else ""
    return f"{named}(?:(?:{INTEGER} )?{either(months)} )?{INTEGER}{epoch}"


DATE = either(date_of(*calendar) for calendar in CALENDARS)
PERIOD = f"(?:FROM {DATE}(?: TO {DATE})?|TO {DATE})"
DATE_VALUE = f"(?:{DATE}|{PERIOD}|BET {DATE} AND {DATE}|(?:AFT|BEF|ABT|CAL|EST) {DATE})"
EXACT = f"{INTEGER} {either(WESTERN)} {INTEGER}"
TIME = r"(?:[0-9]|[01][0-9]|2[0-3]):[0-5][0-9](?::[0-5][0-9](?:\.[0-9]+)?)?Z?"
VERSION = r"7\.0(?:\.[0-9]+)?"
YEARS_DOWN = f"{INTEGER}y(?: {INTEGER}m)?(?: {INTEGER}w)?(?: {INTEGER}d)?"
MONTHS_DOWN = f"{INTEGER}m(?: {INTEGER}w)?(?: {INTEGER}d)?"
WEEKS_DOWN = f"{INTEGER}w(?: {INTEGER}d)?"
AGE = f"(?:[<>] )?(?:{YEARS_DOWN}|{MONTHS_DOWN}|{WEEKS_DOWN}|{INTEGER}d)"
ITEM = "(?:[^ ,](?:[^,]*[^ ,])?)?"
TEXTS = f"{ITEM}(?: *, *{ITEM})*"
NAME = "[^/\t]*(?:/[^/\t]*/[^/\t]*)?"


def matches(pattern, text):
    return re.fullmatch(pattern, text, re.DOTALL) is not None


def takes_line(kind, number, text):
    """Whether a kind takes this text of one line."""
    assert text and "\n" not in text and "\r" not in text
    if kind in ("text", "anything"):
        return True
    if kind in ("nothing", "pointer"):
        return False
    if kind == "flag":
        return text == "Y"
    if kind == "word":
        return text in SETS[number]
    if kind == "words":
        return all(word in SETS[number] for word in re.split(" *, *", text))
    patterns = {
        "integer": INTEGER, "texts": TEXTS, "date": DATE_VALUE, "period": PERIOD, "exact": EXACT,
        "time": TIME, "age": AGE, "name": NAME, "version": VERSION,
    }
    return matches(patterns[kind], text)


TAKES_NONE = "nothing text flag texts date period age anything".split()
TAKES_POINTERS = "pointer anything".split()
TAKES_LINES = "text anything".split()


def takes(name, payload):
    kind, number = re.fullmatch("([a-z]+)([0-9]*)", name).groups()
    if payload == "<none>":
        return kind in TAKES_NONE
    if payload in ("<void>", "<pointer>"):
        return kind in TAKES_POINTERS
    if payload == "<lines>":
        return kind in TAKES_LINES
    return takes_line(kind, int(number) if number else None, payload)


# ---------------------------------------------------------------- cases

KINDS = ("nothing text flag integer word0 word1 word2 words0 words1 words2 texts "
         "date period exact time age name version pointer anything").split()

LONG = "12345678901234567890123456789012345678901234567890"

# one good payload of each kind, and some that are good for none: every kind is asked about each
COMMON = ["Y", "42", "Lund, Skåne", "3 MAR 1841", "FROM 1900", "12:30", "3y 2m", "7.0", "@I1@", " ", ",", "\t"]


def everywhere():
    for name in KINDS:
        for payload in SPECIAL:
            yield name, payload
    for name in KINDS:
        for payload in COMMON:
            yield name, payload


def plain_texts():
    for name in ("text", "anything", "nothing", "pointer"):
        for t in (" leading", "trailing ", "a\tb", "a,b", "@@x", "a@@b", "/", "日本語", "😀", "x" * 300):
            yield name, t
    for t in ("y", "N", "n", "YY", "YES", " Y", "Y ", "Y\t", "1", "T", "Ý", "Ｙ", "Y,Y"):
        yield "flag", t
    for t in ("0", "7", "10", "00", "007", LONG, "-1", "+1", "1.0", "1e3", "0x10", "1 000", "1,000", " 1", "1 ", "1\t",
              "a", "1a", "a1", "/", ":", "0:", "/9", "٣", "１", "²", "½", "1_000"):
        yield "integer", t


def words():
    every = [w for s in SETS.values() for w in s]
    for s in SETS:
        for w in every:
            yield f"word{s}", w
            yield f"words{s}", w
        a, b = SETS[s][0], SETS[s][-1]
        for t in (a.lower(), a.title() + "x", " " + a, a + " ", "\t" + a, a + "\t", a + a, a + b, f"{a} {b}",
                  f"{a},{b}", f"{a}, {b}", a + ",", "," + a, a[:-1] + "?", a + "_", "_" + a, "EXTRA"):
            yield f"word{s}", t
        for t in (a.lower(), a + a, f"{a} {b}", a + ",", "," + a, a[:-1] + "?", "EXTRA"):
            yield f"words{s}", t
    # a space or two at each place of a list of two
    for p, q, r, t in itertools.product(("", " "), ("", " ", "  "), ("", " ", "  "), ("", " ")):
        yield "words1", f"{p}CONFIDENTIAL{q},{r}LOCKED{t}"
    for p, q, r, t in itertools.product(("", " "), repeat=4):
        yield "words0", f"{p}M{q},{r}X{t}"
        yield "words2", f"{p}AKA{q},{r}AKA{t}"
        # the second of three
        yield "words1", f"LOCKED{p},{q}PRIVACY{r},{t}LOCKED"
        # an empty piece in the middle, at the front, at the back
        yield "words1", f"LOCKED{p},{q}{r},{t}PRIVACY"
        yield "words1", f"{p},{q}LOCKED{r}{t}"
        yield "words1", f"{p}{q}LOCKED{r},{t}"
    for t in (",", ", ", " ,", ",,", "LOCKED;PRIVACY", "LOCKED PRIVACY", "LOCKED,\tPRIVACY", "LOCKED\t,PRIVACY",
              "LOCKED,PRIVACY,CONFIDENTIAL", "LOCKED,PRIVACY,CONFIDENTIAL,LOCKED", "LOCKED,privacy", "LOCKED,M",
              "M,LOCKED", "LOCKED,LOCKED", "LOCKED,PRIVACY,M", "LOCK ED", "LOCKED, PRI VACY", "LOCKED\u00a0,PRIVACY",
              "LOCKED, "):
        yield "words1", t


def lists():
    # one piece, with spaces around it
    for piece in ("a", "a b", "é", "\t"):
        for p, t in itertools.product(("", " ", "  "), repeat=2):
            yield "texts", f"{p}{piece}{t}"
    for t in (" ", "  ", "   ", "\u00a0", " \t", "\t ", " \t ", "a;b", ".", "a."):
        yield "texts", t
    # two pieces, each perhaps empty, with a space at each place
    for x, y in itertools.product(("", "a", "b c"), repeat=2):
        for p, q, r, t in itertools.product(("", " "), repeat=4):
            yield "texts", f"{p}{x}{q},{r}{y}{t}"
    # three pieces
    for x, y, z in itertools.product(("", "a"), repeat=3):
        for p, t in itertools.product(("", " "), repeat=2):
            yield "texts", f"{p}{x}, {y},{z}{t}"
    for t in (",", ",,", ",,,", "a,,,b", ", , one, more,", "  ,  ", "  ,a", "  , a", "  a,b", "a,b  ", "a,  ", "a ,  ",
              "a  ,  b", "Umeå, Västerbotten, Sverige", " Umeå, Sverige", "Umeå, Sverige ", "\t,\t", "a,\t", "\ta,b",
              "a,b\t", ",\u00a0"):
        yield "texts", t


def dates_of_every_month():
    every = list(dict.fromkeys(WESTERN + FRENCH + HEBREW))
    for calendar in ("", "GREGORIAN ", "JULIAN ", "FRENCH_R ", "HEBREW "):
        for month in every:
            yield "date", f"{calendar}5 {month} 12"
    for name, months, _ in CALENDARS:
        for month in months:
            yield "date", f"{name} {month} 12"
    for month in every:
        yield "exact", f"5 {month} 1912"


def dates():
    for calendar in ("", "GREGORIAN ", "JULIAN ", "FRENCH_R ", "HEBREW "):
        month = {"FRENCH_R ": "BRUM", "HEBREW ": "ADS"}.get(calendar, "SEP")
        for body in ("7", f"{month} 7", f"9 {month} 7"):
            for epoch in ("", " BCE", " bce", " BC", " CE", " BCE BCE", "BCE"):
                yield "date", f"{calendar}{body}{epoch}"
        for body in (month, f"9 {month}", f"{month} 9 7", f"9 9 {month} 7", "9 7", f"{month} {month} 7", "BCE",
                     f"BCE {month} 7"):
            yield "date", calendar + body
        if calendar:
            yield "date", calendar
            yield "date", calendar.strip()
    # numbers
    for n in ("0", "00", "0000", "1", "01", "32", "99", "367", LONG):
        yield "date", n
        yield "date", f"MAR {n}"
        yield "date", f"{n} MAR 1912"
        yield "date", f"3 MAR {n}"
        yield "exact", f"{n} MAR 1912"
        yield "exact", f"3 MAR {n}"
    for n in ("-1", "+1", "1.", "1,", "1a", "a", "1699/00", "(1699)", "1699?", "１"):
        yield "date", n
        yield "date", f"{n} MAR 1912"
        yield "date", f"3 MAR {n}"
        yield "exact", f"3 MAR {n}"
    # misspelt names
    for calendar in ("gregorian", "Gregorian", "GREGORIAN,", "GREGORIANS", "GREGORIA", "Julian", "julian", "JULIEN",
                     "FRENCH", "FRENCH R", "FRENCH-R", "FRENCH_", "french_r", "FRENCH_RE", "HEBREWS", "Hebrew",
                     "hebrew", "JEWISH", "ROMAN", "UNKNOWN", "_CAL", "@#DJULIAN@", "GREGORIAN GREGORIAN",
                     "JULIAN GREGORIAN", "GREGORIAN JULIAN"):
        yield "date", f"{calendar} 3 MAR 1912"
    for month in ("jan", "Jan", "JANU", "JA", "JANUARY", "SEPT", "MAI", "OKT", "_MON", "01", "1", "JAN.", "TSHR",
                  "VENDE", "COM", "ADAR", "JANFEB", "JAN|FEB"):
        yield "date", f"3 {month} 1912"
        yield "exact", f"3 {month} 1912"
    # order and spelling
    for t in ("1912 MAR 3", "1912 MAR", "MAR 3 1912", "MAR 3, 1912", "3 MAR, 1912", "3MAR 1912", "3 MAR1912",
              "3MAR1912", "1912-03-03", "03/03/1912", "3.3.1912", "3-MAR-1912", "1912 BCE MAR", "BCE 1912",
              "3 MAR 1912 GREGORIAN", "3 GREGORIAN MAR 1912", "JULIAN", "GREGORIAN", "HEBREW 1 TSH 5784",
              "HEBREW 1 TSH 5784 BCE", "MAY 1990", "1 MAY 1990", "3 MAR 1912 3 MAR 1912", "1912 1913", "unknown",
              "(about 1912)", "3 MAR 1912.", "3 MAR 1912 12:30"):
        for name in ("date", "exact"):
            yield name, t
    # spaces
    full = ["GREGORIAN", "3", "MAR", "1912", "BCE"]
    for gap in ("  ", "\t", "_", ""):
        for i in range(len(full) - 1):
            yield "date", " ".join(full[:i + 1]) + gap + " ".join(full[i + 1:])
    for name, t in (("date", "3 MAR 1912"), ("date", "1912"), ("date", "JULIAN 1912"), ("date", "BET 1912 AND 1913"),
                    ("date", "ABT 1912"), ("exact", "3 MAR 1912"), ("period", "FROM 1912"),
                    ("period", "FROM 1912 TO 1913")):
        for odd in (" " + t, t + " ", "\t" + t, t + "\t", t.lower(), t.replace(" ", "  "), t.replace(" ", "\u00a0")):
            yield name, odd


def periods():
    # a word before a date
    bodies = ("1912", "3 MAR 1912", "44 BCE", "JULIAN 3 MAR 1712", "HEBREW 5784 BCE", "FRENCH_R 5 COMP 3", "MAR")
    for word in "AFT BEF ABT CAL EST FROM TO BET AND".split():
        yield "date", word
        for body in bodies:
            yield "date", f"{word} {body}"
        for body in bodies[:3]:
            yield "period", f"{word} {body}"
    for word in "INT SINCE aft Abt from To AFTER BEFORE ABOUT CALC ESTIMATED".split():
        yield "date", f"{word} 1912"
        yield "period", f"{word} 1912"
    # two dates
    for first, second in itertools.product(("FROM", "TO", "BET", "AND", "ABT", ""), ("TO", "FROM", "AND", "BET")):
        t = f"{first} 1900 {second} 1910".strip()
        yield "date", t
        yield "period", t
    for one, two in itertools.product(("1900", "JULIAN 3 MAR 1700", "HEBREW TSH 5660", "5 MAY 44 BCE", "FRENCH_R 9"),
                                      repeat=2):
        yield "date", f"FROM {one} TO {two}"
        yield "period", f"FROM {one} TO {two}"
        yield "date", f"BET {one} AND {two}"
    for t in ("FROM 1910 TO 1900", "BET 1910 AND 1900", "FROM 1900 TO", "FROM TO 1900", "TO", "FROM", "BET 1900",
              "BET 1900 AND", "BET AND 1900", "FROM FROM 1900", "TO TO 1900", "FROM 1900 TO 1910 TO 1920",
              "FROM 1900 FROM 1910", "TO 1900 FROM 1910", "TO 1910 TO 1920", "FROM 1900 TO FROM 1910",
              "BET FROM 1900 AND 1910", "BET 1900 AND TO 1910", "BET BET 1900 AND 1910 AND 1920",
              "FROM BET 1900 AND 1910 TO 1920", "ABT FROM 1900", "FROM ABT 1900", "ABT ABT 1900",
              "EST BET 1900 AND 1910", "AFT 1900 BEF 1910", "BET 1900 TO 1910", "FROM 1900 AND 1910",
              "FROM 1900 TO 1910 BCE", "FROM 1910 BCE TO 1900 BCE", "FROM 1900 TO HEBREW 5660 BCE",
              "FROM 1900 JULIAN TO 1910", "JULIAN FROM 1900 TO 1910", "FROM JULIAN TO 1910", "FROM 1900  TO 1910",
              "FROM  1900 TO 1910", "FROM 1900 TO  1910", "FROM 1900 to 1910", "BET 1900 and 1910", "BET 1900 AND MAR",
              "BET MAR AND 1910", "FROM MAR TO 1910", "FROM MAR 1900 TO APR 1900", "FROM 3 MAR 1900 TO 4 APR 1900",
              f"FROM {LONG} TO {LONG}", "FROM TSH 5660 TO 1910", "FROM 1900 TO TSH 5660",
              "BET HEBREW TSH 5660 AND TSH 5661", "BET HEBREW TSH 5660 AND HEBREW TSH 5661", "FROM @I1@",
              "TO 1900-1910", "FROM 1900TO 1910", "FROM1900", "TO1910"):
        yield "date", t
        yield "period", t


def exact_dates():
    for t in ("1 JAN 1900", "31 DEC 9999", "0 JAN 0", "29 FEB 1901", "30 FEB 1901", "JAN 1900", "1900", "1 JAN",
              "1 JAN 1900 BCE", "GREGORIAN 1 JAN 1900", "JULIAN 1 JAN 1900", "1 JAN 1900 ", " 1 JAN 1900",
              "1  JAN 1900", "1 JAN  1900", "1 TSH 5784", "HEBREW 1 TSH 5784", "1 COMP 3", "ABT 1 JAN 1900",
              "FROM 1 JAN 1900", "1 JAN 1900 2 JAN 1900", "1 JAN 1900 JULIAN", "1 JAN 1900Z", "1 jan 1900",
              "JAN 1 1900", "1900 JAN 1"):
        yield "exact", t


def times():
    for hour in range(30):
        yield "time", f"{hour}:00"
        if hour < 10:
            yield "time", f"0{hour}:59"
    for hour in ("00", "000", "009", "023", "-1", "+1", "", " 9", "9 ", "a", "1a", "a1", "/9", ":9", "2:", "99", "١"):
        yield "time", f"{hour}:15"
    for minute in ("00", "01", "09", "10", "29", "30", "49", "50", "58", "59", "60", "61", "69", "70", "90", "99", "",
                   "0", "5", "9", "000", "059", "005", " 5", "5 ", "a5", "5a", "-5", "/0", ":0", "0:", "0/"):
        yield "time", f"9:{minute}"
    for second in ("00", "01", "09", "10", "30", "59", "60", "61", "99", "", "0", "5", "000", " 5", "5 ", "a5", "5a",
                   "/0", "0:"):
        for rest in ("", ".0", "Z"):
            yield "time", f"9:05:{second}{rest}"
    for fraction in (".000", ".000000000001", f".{LONG}", ".5.5", ".a", ".5a", ". 5", ".5 ", ",5", "..5", ".-5", ".Z",
                     ".5ZZ", ".5 Z"):
        yield "time", f"9:05:07{fraction}"
    for zone in ("Z", "z", " Z", "ZZ", "Z ", "UTC", "+00:00", "+01:00", "A", " ", "\t"):
        yield "time", f"9:05{zone}"
        yield "time", f"9:05:07{zone}"
    for t in ("0:00", "00:00", "23:59", "24:00", "9:60", "9", "09", "9:", ":05", ":", "::", "9:05:", "9:05.5",
              "9:05:.5", "9.05", "9.05.07", "0905", "9-05", "9;05", "9:05:07:08", "9:05Z07", "Z9:05", "9:05 AM",
              "9:05AM", "noon", "Z", " 9:05", "9:05 ", "\t9:05", "9:05\t", "9 :05", "9: 05", "23:59:59",
              "23:59:59.999999999Z", "0:0", "0:00:00", "00:00:00.0Z", "24:00:00", "23:59:60", "12:30:15:00", "１:00"):
        yield "time", t


def ages():
    units = "ymwd"
    for count in range(1, 5):
        for order in itertools.permutations(units, count):
            yield "age", " ".join(f"{3 + i}{u}" for i, u in enumerate(order))
    for count in range(1, 5):
        for chosen in itertools.combinations(units, count):
            body = " ".join(f"{3 + i}{u}" for i, u in enumerate(chosen))
            for bound in ("< ", "> ", "<", ">  "):
                yield "age", bound + body
    for bound in ("= ", ">= ", "<> ", "< > ", "> < ", "> > ", " > ", "\t> ", ">\t"):
        yield "age", bound + "3y"
    for u in units:
        for t in (f"3{u} 3{u}", u, f"3 {u}", f"3{u.upper()}", f"00{u}", f"{LONG}{u}", f"-3{u}", f"3.5{u}", f"3{u}{u}",
                  f"3{u} ", f" 3{u}", f"{u}3", f"3{u} <"):
            yield "age", t
    for t in ("3", "<", ">", "< ", "> ", " ", "3y2m", "3y,2m", "3y, 2m", "3y and 2m", "3y  2m", "3y 2m ", " 3y 2m",
              "3y 2m 1w 4d 5d", "3y 2m 1w 4d 5y", "3y m", "y m", "3y 2", "2 3y", "3y 2d", "> 3y 2d", ">3y", "> 3y > 2d",
              "<3y 2m", "about 3y", "3 years", "3years", "3h", "3s", "3y 4h", "4h 3y", "CHILD", "INFANT", "STILLBORN",
              "1y 400d", "8w 30d", "0y 0m 0w 0d", "> 0d", "< 1d", "\t3y", "3y\t", "3\u00a0y", "≥ 3y", "&lt; 3y", "3ÿ"):
        yield "age", t


def names():
    for count in range(7):
        yield "name", "/" * count or "-"
        yield "name", "Ann" + "/Lee" * count
        yield "name", "Ann " + "/" * count + " Lee"
    for t in ("Ann", "Ann /Lee/", "/Lee/ Ann", "/Lee/", "Ann /Lee", "Ann Lee/", "Ann //", "Ann / /", "Ann /Lee/ Jr.",
              "Ann /Lee/ /Roe/", "Ann /Lee/Roe/", "Ann  Lee", " Ann", "Ann ", " ", "  ", "Ann\t/Lee/", "\tAnn", "Ann\t",
              "\t", "Ann /L\tee/", "Märta /Åkesson/", "山田 /太郎/", "Ann \\Lee\\", "Ann ／Lee／", "Ann /Lee／", "1",
              "Ann, /Lee/", "@Ann /Lee/", "Ann @Lee@", "x" * 300 + "/y/", "...", "?", "Ann /Lee/,", "Ann &/Lee/",
              "Ann /de la Gardie/"):
        yield "name", t


def versions():
    for t in ("7.0", "7.0.0", "7.0.1", "7.0.15", "7.0.007", f"7.0.{LONG}", "7.0.", "7.0.a", "7.0.1a", "7.0.a1",
              "7.0.-1", "7.0.+1", "7.0. 1", "7.0.1 ", " 7.0", "7.0 ", "7.0.1.2", "7.0..1", "7.0.1.", "7", "7.", "7.00",
              "7.01", "07.0", "7.1", "7.1.0", "7.0,1", "7,0", "7-0", "7:0", "70", "7a0", "v7.0", "V7.0", "8.0", "6.0",
              "5.5.1", "5.5", "77.0", "7.0.15-rc1", "7.0.15+1", "7.0.x", "7.0\t", "7 .0", "7. 0", "７.0", "7.0.１",
              "7.0.1 5", "GEDCOM 7.0", "7.0 7.0", ".7.0", "7.0.0.0"):
        yield "version", t


def cases():
    found = {}
    for family in (everywhere, plain_texts, words, lists, dates_of_every_month, dates, periods, exact_dates, times,
                   ages, names, versions):
        for name, payload in family():
            found[(name, payload)] = True
    return [case for case in found if case[1]]


def main():
    if len(sys.argv) != 3:
        sys.exit("usage: kinds.py CASES EXPECTED")
    with open(sys.argv[1], "w", encoding="utf-8", newline="\n") as asked, \
            open(sys.argv[2], "w", encoding="utf-8", newline="\n") as expected:
        for name, payload in cases():
            asked.write(f"{name}\t{payload}\n")
            answer = "taken" if takes(name, payload) else "refused"
            expected.write(f"{answer} {name}\t{payload}\n")


if __name__ == "__main__":
    main()
