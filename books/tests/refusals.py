"""Bad texts, each a small change of a good one, with the line where the fault stands and words of the reason.

The good texts are taken with single spaces. A change is (old, new), and old stands there exactly once. The faulty line is the
one that holds `at`; LAST is the last line with a statement.
"""

from typing import NamedTuple

K = "k.txt"
SECOND = "second.txt"
LAST = None

QTY = '6 | QTY O 1 "quantity"'
ROW = "6 QTY must if [1]"
TWO_CONDITIONS = ('condition 1 "the quantity is asked for"', 'condition 1 "one"\ncondition 2 "two"')


class Case(NamedTuple):
    rule: str
    base: str
    changes: tuple
    at: str
    says: str


def of_k(rule, old, new, at, says):
    return Case(rule, K, ((old, new),), at, says)


def of_second(rule, old, new, at, says):
    return Case(rule, SECOND, ((old, new),), at, says)


def numbered_lines(count):
    """UNH, count - 2 lines of other tags, UNT."""
    tags = [f"{letter}{number:02}" for letter in "ABC" for number in range(100)][:count - 2]
    middle = [f'{number} {tag} M 1 {"carrier" if number == 2 else ""} "x"' for number, tag in enumerate(tags, start=2)]
    return "\n".join(['1 UNH M 1 "x"', *middle, f'{count} UNT M 1 "x"'])


def plain_book(lines, columns=1, conditions=0):
    parts = ["edition 1"]
    parts += [f'condition {number} "x"' for number in range(1, conditions + 1)]
    parts += [numbered_lines(lines)]
    parts += [f"identifier {10000 + column}" for column in range(columns)]
    return "\n".join(parts)


# What cannot be read.
READING = (
    of_k("edition first", "edition 1\n", "", 'book "Small', "first statement must be the edition"),
    of_k("edition known", "edition 1", "edition 2", "edition 2", "edition 2 is not known"),
    of_k("edition once", "edition 1", "edition 1\nedition 1 # again", "# again", "given twice"),
    of_k("title once", 'book "Small book K"', 'book "a"\nbook "b"', 'book "b"', "given twice"),
    of_k("statement", "identifier 10001", "Prüfidentifikator 10001", "Prüfidentifikator 10001", "no statement begins with"),
    of_k("number", "2 BGM", "02 BGM", "02 BGM", "no statement begins with '02'"),
    of_k("quotes end", '"quantity"', '"quantity', '"quantity', "quotes must end on its line"),
    of_k("no tab in quotes", '"quantity"', '"quan\ttity"', "quan\t", "hold no tab"),
    of_k("lines count", "6 | QTY", "7 | QTY", "7 | QTY", "6 belongs here, not 7"),
    of_k("tag missing", "2 BGM M 1", "2", '2 "beginning', "the tag is missing"),
    of_k("line status", "QTY O 1", "QTY C 1", "QTY C 1", "status of a line"),
    of_k("maximum", "QTY O 1", "QTY O one", "QTY O one", "maximum is a number"),
    of_k("name missing", '1 "quantity"', "1", "6 | QTY O 1\n", "printed name, in quotes, is missing"),
    of_k("nothing behind", '"quantity"', '"quantity" here', '"quantity" here', "nothing more may stand here"),
    of_k("carrier before selector", 'M 1 carrier "Prü', 'M 1 selector 1.1 Z13 "Prü" carrier "', "carrier", "nothing more"),
    of_k("selector place", 'O 1 "quantity"', 'O 1 selector 145 "quantity"', "selector", "is element.component, not '145'"),
    of_k("field below a line", "1 UNH M 1", "1.1 M an..14\n1 UNH M 1", "\n1.1 M an..14", "must stand below its line"),
    of_k("field in a column", "4 SG1 may", "4 SG1 may\n1.3 M an..14", "1.3 M", "must stand below its line"),
    of_k("field status", "1.2 M n..35", "1.2 X n..35", "1.2 X", "status of a field"),
    of_k("two letters at most", "1.2 M n..35", "1.2 M/M/M n..35", "1.2 M/M/M", "status of a field"),
    of_k("format", "1.2 M n..35", "1.2 M n35", "1.2 M n35", "format is an..LONGEST or n..LONGEST"),
    of_k("format missing", "1.2 M n..35", "1.2 M", "1.2 M\n7", "format is missing"),
    of_second("list known", "an..6 @versions", "an..6 @version", "an..6 @version ", "no list @version stands above"),
    of_second("list once", "codes @later A", "codes @agencies A", "codes @agencies A", "given twice"),
    of_second("list name", "codes @later", "codes later", "codes later", "name of a list"),
    of_second("list not empty", "codes @later A Zz.09a", "codes @later", "codes @later", "has no codes"),
    of_second("code once", "selector 3.1 Z15 Z16", "selector 3.1 Z15 Z16 Z15", "Z16 Z15", "Z15 stands twice"),
    of_k("conditions count", 'condition 1 "', 'condition 2 "', "condition 2", "1 belongs here, not 2"),
    of_k("condition words", 'condition 1 "the quantity is asked for"', "condition 1", "condition 1", "words, in quotes"),
    of_k("row of a line", ROW, "8 QTY must", "8 QTY", "no line 8"),
    of_k("row not slipped", ROW, "6 LIN must if [1]", "6 LIN", "line 6 is QTY, not LIN"),
    of_k("row order", ROW, "4 SG1 may # again", "# again", "4 cannot stand below 4"),
    of_k("mode", ROW, "6 QTY should", "6 QTY should", "mode is must, may or never"),
    of_k("never has no if", ROW, "6 QTY never if [1]", "6 QTY", "'if' goes with must or may"),
    of_k("condition missing", ROW, "6 QTY must if", "6 QTY", "a condition is missing"),
    of_k("condition missing after not", ROW, "6 QTY must if not", "6 QTY", "a condition is missing"),
    of_k("condition in brackets", ROW, "6 QTY must if 1", "6 QTY", "number in square brackets"),
    of_k("joined", ROW, "6 QTY must if [1] xor [2]", "6 QTY", "joined by 'and' or 'or'"),
    of_k("joined one way", ROW, "6 QTY must if [1] and [2] or [3]", "6 QTY", "all by 'and' or all by 'or'"),
)

# Limits of the header.
SIZES = (
    Case("L at least 2", plain_book(2).replace('\n2 UNT M 1 "x"', ""), (), LAST, "at least 2 lines"),
    Case("L at most 256", plain_book(257), (), "\n257 UNT", "at most 256 lines"),
    Case("P at least 1", plain_book(3, columns=0), (), LAST, "at least one Prüfidentifikator"),
    Case("condition count", plain_book(3, conditions=65), (), "condition 65", "at most 64 conditions"),
    Case("total length", plain_book(256, columns=30), (), LAST, "at most 65,535 bytes, this one 66,828"),
)

# Line, code, field.
RECORDS = (
    Case("depth", SECOND, (("19 | | | | | | group", "19 | | | | | | | group"), ("20 |", "20 | |"), ("21 |", "21 | |")),
         "20 |", "no line is deeper than 7, this one is 8"),
    of_k("tag, letters", "2 BGM", "2 BgM", "2 BgM", "tag is three of A–Z and 0–9"),
    of_k("tag, three", "2 BGM", "2 BGMS", "2 BGMS", "tag is three of A–Z and 0–9"),
    of_k("maximum 1", "QTY O 1", "QTY O 0", "QTY O 0", "maximum is 1–999,999, not 0"),
    of_k("maximum 999,999", "QTY O 1", "QTY O 1000000", "QTY O 1000000", "maximum is 1–999,999, not 1,000,000"),
    of_k("group, selector", 'O 2 "positions"', 'O 2 selector 1.1 A "positions"', "positions", "group has no selector"),
    of_k("group, fields", '"positions"', '"positions"\n1.1 O an..4', "1.1 O an..4", "group has no fields"),
    of_second("selector element", "selector 3.1 Z15", "selector 0.1 Z15", "selector 0.1", "1–255, not 0.1"),
    of_second("selector component", "selector 3.1 Z15", "selector 3.256 Z15", "selector 3.256", "1–255, not 3.256"),
    of_second("selector codes", "selector 3.1 Z15 Z16", "selector 3.1", "selector 3.1", "selector has at least one code"),
    of_second("code length", "@later A Zz.09a", "@later A Zz.09aZ", "@later", "one to six of"),
    of_second("code bytes", "@later A Zz.09a", "@later A Z-9", "@later", "A–Z, a–z, 0–9 and '.', not 'Z-9'"),
    of_second("code of a selector", "selector 1.1 Z09", "selector 1.1 Z_9", "Z_9", "A–Z, a–z, 0–9 and '.'"),
    of_second("code of a field", "an..3 172", "an..3 Ö72", "Ö72", "A–Z, a–z, 0–9 and '.'"),
    of_k("field element", "1.2 M n..35", "256.2 M n..35", "256.2", "field's element and component are 1–255"),
    of_k("field component", "2.1 M an..14", "2.0 M an..14", "2.0 M", "field's element and component are 1–255"),
    of_k("field longest 1", "1.2 M n..35", "1.2 M n..0", "n..0", "longest is 1–65,535, not 0"),
    of_k("field longest two bytes", "1.2 M n..35", "1.2 M n..65536", "n..65536", "longest is 1–65,535"),
    of_k("fields rise", "1.2 M n..35", "1.2 M n..35\n 1.2 O an..9", "1.2 O an..9", "1.2 cannot stand below 1.2"),
    of_k("fields rise in element first", "2.1 M an..14", "2.1 M an..14\n 1.3 O an..9", "1.3 O", "1.3 cannot stand below 2.1"),
    of_second("element status", "2.3 D/R", "2.3 R/R an..3 9\n 2.4 D/R", "2.3 R/R an..3 9\n", "element 2 has one status"),
)

# Prüfidentifikator and row.
COLUMNS = (
    of_k("identifier, five", "identifier 10001", "identifier 1001", "identifier 1001", "is five digits"),
    of_k("identifier, digits", "identifier 10001", "identifier 1000A", "identifier 1000A", "is five digits"),
    of_second("identifiers rise", "identifier 13009", "identifier 13004", "identifier 13004", "rise strictly"),
    of_second("identifiers rise strictly", "identifier 13009", "identifier 13005", '13005 "values', "rise strictly"),
    of_second("three conditions", "[2] and [3] and [4]", "[1] and [2] and [3] and [4]", "[3] and [4]", "at most 3 conditions"),
    of_k("condition at least 1", ROW, "6 QTY must if not [0]", "6 QTY", "conditions are 1–1, and [0] is none of them"),
    of_k("condition count reached", ROW, "6 QTY must if [2]", "6 QTY", "conditions are 1–1, and [2] is none of them"),
    Case("conditions rise", K, (TWO_CONDITIONS, (ROW, "6 QTY may if [2] or [1]")), "6 QTY", "[1] cannot follow [2]"),
    Case("conditions rise strictly", K, (TWO_CONDITIONS, (ROW, "6 QTY may if [1] or not [1]")), "6 QTY", "[1] cannot follow [1]"),
    of_k("required row, never", ROW, "7 UNT never", "7 UNT never", "row of a required line is must"),
    of_k("required row, may", ROW, "7 UNT may", "7 UNT may", "row of a required line is must"),
    of_k("required row, must if", ROW, "7 UNT must if [1]", "7 UNT must if", "row of a required line is must"),
)

# Structure, one home, the Prüfidentifikator's line.
STRUCTURE = (
    of_k("trigger, segment", "5 | LIN M 1", "5 | group SG2 M 1", "5 | group", "must be a segment line"),
    of_k("trigger, depth", "5 | LIN M 1", "5 LIN M 1", "5 LIN", "must be of depth 1"),
    of_k("trigger, not deeper", "5 | LIN M 1", "5 | | LIN M 1", "5 | | LIN", "must be of depth 1"),
    of_k("trigger, required", "5 | LIN M 1", "5 | LIN O 1", "5 | LIN O", "must be required"),
    of_k("trigger, maximum", "5 | LIN M 1", "5 | LIN M 2", "5 | LIN M 2", "must be of maximum 1"),
    of_k("depth after a segment", QTY, '6 | | QTY O 1 "quantity"', "6 | |", "after a segment line the depth stays or falls"),
    of_k("depth at the root", "3 RFF", "3 | RFF", "3 | RFF", "after a segment line the depth stays or falls"),
    of_k("line 1 is UNH", "1 UNH", "1 UNB", "1 UNB", "line 1 must be UNH"),
    of_k("UNH, depth", "1 UNH", "1 | UNH", "1 | UNH", "line 1 must be of depth 0"),
    of_k("UNH, required", "1 UNH M", "1 UNH O", "1 UNH O", "line 1 must be required"),
    of_k("UNH, maximum", "1 UNH M 1", "1 UNH M 2", "1 UNH M 2", "line 1 must be of maximum 1"),
    of_k("UNH, selector", "1 UNH M 1", "1 UNH M 1 selector 1.1 A", "1 UNH", "line 1 must be without selector"),
    of_k("line L is UNT", "7 UNT", "7 UNS", "7 UNS", "the last line must be UNT"),
    of_k("UNT, depth", "7 UNT", "7 | UNT", "7 | UNT", "the last line must be of depth 0"),
    of_k("UNT, required", "7 UNT M", "7 UNT D", "7 UNT D", "the last line must be required"),
    of_k("UNT, maximum", "7 UNT M 1", "7 UNT M 2", "7 UNT M 2", "the last line must be of maximum 1"),
    of_k("UNT, selector", "7 UNT M 1", "7 UNT M 1 selector 1.1 A", "7 UNT", "the last line must be without selector"),
    of_k("no other UNT", "2 BGM", "2 UNT", "2 UNT", "only line 1 is UNH and only the last line is UNT"),
    of_k("no other UNH", "2 BGM", "2 UNH", "2 UNH", "only line 1 is UNH and only the last line is UNT"),
    of_k("a group at the end", '7 UNT M 1 "message trailer"\n 1.1 M n..6\n 2.1 M an..14', '7 group SG2 M 1 "x"', "7 group",
         "the last line must be UNT"),
    of_k("one home, no selectors", "2 BGM M 1", "2 QTY M 1", "6 | QTY", "lines 2 and 6 are both QTY, so each needs a selector"),
    of_second("one home, one selector", "selector 1.1 Z09", "", "14 | | | | RFF", "lines 6 and 14 are both RFF, so each needs"),
    of_second("one home, place", "selector 1.1 DP", "selector 1.2 DP", "8 | NAD", "lines 4 and 8 are both NAD, so their selectors"),
    of_second("one home, codes", "selector 1.1 AAV AGI", "selector 1.1 AAV Z09", "22 | RFF", "cannot both have code Z09"),
    of_k("one carrier", "1 carrier", "1", LAST, "one line must be the carrier"),
    of_k("one carrier only", "2 BGM M 1", "2 BGM M 1 carrier", "3 RFF", "only one line is the carrier"),
    Case("carrier, a group", K, (("1 carrier", "1"), ('O 2 "positions"', 'M 1 carrier "positions"')), "4 group",
         "line is a required segment line of maximum 1"),
    of_k("carrier, required", "3 RFF M", "3 RFF D", "3 RFF D", "line is a required segment line of maximum 1"),
    of_k("carrier, maximum", "3 RFF M 1", "3 RFF M 2", "3 RFF M 2", "line is a required segment line of maximum 1"),
    of_second("group around the carrier, required", "3 group SG1 R 1", "3 group SG1 O 1", "3 group", "a group around the"),
    of_second("group around the carrier, maximum", "5 | group SG2 R 1", "5 | group SG2 R 2", "5 | group", "a group around the"),
)

REFUSALS = READING + SIZES + RECORDS + COLUMNS + STRUCTURE

# Good texts at the limits: what the refusals above stop short of.
ACCEPTED = (
    Case("256 lines, 29 columns, 64 conditions", plain_book(256, columns=29, conditions=64), (), "", ""),
    Case("a message of UNH, the carrier and UNT", plain_book(3), (), "", ""),
    of_k("field 255.255 of 65,535", "1.2 M n..35", "255.255 M n..65535", "", ""),
    of_k("the row of a required line, written", "4 SG1 may", "3 RFF must\n4 SG1 may", "", ""),
    Case("no conditions", K, (('condition 1 "the quantity is asked for"', ""), (ROW, "")), "", ""),
)
