"""The rules of document 01, "The guide book", asked of a book as its text gives it: the same order, the same words.

What the text form cannot say (a range outside its block, a group with a tag, bytes that must be zero) has no rule here.
Every rule takes the edition beside the book, so that a later one can change a limit or a rule.
"""

import re
from typing import NamedTuple

from .binary import Binary
from .editions import IDENTIFIER_LENGTH, LONGEST_CODE, TAG_LENGTH, Mode

LENGTH_LIMIT = 65_535
LEAST_LINES, MOST_LINES = 2, 256
DEPTH_LIMIT = 7
MAXIMUM_LIMIT = 999_999
PLACE_LIMIT = 255
LONGEST_LIMIT = 65_535

TAG = re.compile(f"[A-Z0-9]{{{TAG_LENGTH}}}")
CODE = re.compile(f"[A-Za-z0-9.]{{1,{LONGEST_CODE}}}")
IDENTIFIER = re.compile(f"[0-9]{{{IDENTIFIER_LENGTH}}}")
HEAD_TAG, END_TAG = "UNH", "UNT"


class Breach(NamedTuple):
    source_line: int
    reason: str


def breaches(book, edition):
    """Every breach of a rule, in the order of the text."""
    found = [breach for rule in RULES for breach in rule(book, edition)]
    return sorted(found, key=lambda breach: breach.source_line)


def sizes(book, edition):
    if len(book.lines) < LEAST_LINES:
        yield Breach(book.last_source_line, f"a book has at least {LEAST_LINES} lines")
    if len(book.lines) > MOST_LINES:
        yield Breach(book.lines[MOST_LINES].source_line, f"a book has at most {MOST_LINES} lines")
    if not book.columns:
        yield Breach(book.last_source_line, "a book has at least one Prüfidentifikator")
    if len(book.conditions) > edition.condition_limit:
        beyond = book.conditions[edition.condition_limit]
        yield Breach(beyond.source_line, f"a book has at most {edition.condition_limit} conditions")
    length = Binary(book, edition).length()
    if length > LENGTH_LIMIT:
        yield Breach(book.last_source_line, f"a book has at most {LENGTH_LIMIT:,} bytes, this one {length:,}")


def lines(book, edition):
    for line in book.lines:
        if line.depth > DEPTH_LIMIT:
            yield Breach(line.source_line, f"no line is deeper than {DEPTH_LIMIT}, this one is {line.depth} deep")
        if not 1 <= line.maximum <= MAXIMUM_LIMIT:
            yield Breach(line.source_line, f"the maximum is 1–{MAXIMUM_LIMIT:,}, not {line.maximum:,}")
        if line.is_group:
            yield from plain_group(line)
        elif TAG.fullmatch(line.name) is None:
            yield Breach(line.source_line, f"a tag is three of A–Z and 0–9, not {line.name!r}")


def plain_group(line):
    if line.selector:
        yield Breach(line.source_line, "a group has no selector")
    if line.fields:
        yield Breach(line.fields[0].source_line, f"a group has no fields, and {line.name} is a group")


def selectors(book, edition):
    for line in book.lines:
        if line.selector and not in_place_limits(line.selector.place):
            yield Breach(line.source_line,
                         f"a selector's element and component are 1–{PLACE_LIMIT}, not {line.selector.place}")
        if line.selector and not line.selector.codes:
            yield Breach(line.source_line, "a selector has at least one code")


def in_place_limits(place):
    return all(1 <= number <= PLACE_LIMIT for number in place)


def codes(book, edition):
    """A code that comes from a named list is faulted once, at the list."""
    reported = set()
    for source_line, code in written_codes(book):
        if CODE.fullmatch(code) is None and code not in reported:
            reported.add(code)
            yield Breach(source_line, f"a code is one to six of A–Z, a–z, 0–9 and '.', not {code!r}")


def written_codes(book):
    for code_list in book.code_lists:
        yield from ((code_list.source_line, code) for code in code_list.codes)
    for line in book.lines:
        if line.selector:
            yield from ((line.source_line, code) for code in line.selector.codes)
        for field in line.fields:
            yield from ((field.source_line, code) for code in field.codes)


def fields(book, edition):
    for line in book.lines:
        for field in line.fields:
            if not in_place_limits(field.place):
                yield Breach(field.source_line, f"a field's element and component are 1–{PLACE_LIMIT}, not {field.place}")
            if not 1 <= field.longest <= LONGEST_LIMIT:
                yield Breach(field.source_line, f"a field's longest is 1–{LONGEST_LIMIT:,}, not {field.longest:,}")
        for earlier, later in zip(line.fields, line.fields[1:]):
            yield from neighbouring_fields(earlier, later)


def neighbouring_fields(earlier, later):
    if later.place <= earlier.place:
        yield Breach(later.source_line,
                     f"the fields of a line rise in (element, component): {later.place} cannot stand below {earlier.place}")
    same_element = later.place.element == earlier.place.element
    if same_element and later.element_status != earlier.element_status:
        yield Breach(later.source_line,
                     f"element {later.place.element} has one status of its own, the same before each of its components")


def identifiers(book, edition):
    for column in book.columns:
        if IDENTIFIER.fullmatch(column.identifier) is None:
            yield Breach(column.source_line, f"a Prüfidentifikator is five digits, not {column.identifier!r}")
    for earlier, later in zip(book.columns, book.columns[1:]):
        if later.identifier <= earlier.identifier:
            yield Breach(later.source_line, "the Prüfidentifikatoren rise strictly: "
                                            f"{later.identifier} cannot stand below {earlier.identifier}")


def rows(book, edition):
    for column in book.columns:
        for row in column.rows:
            yield from row_conditions(row, len(book.conditions), edition.row_literal_limit)
            line = book.lines[row.line_number - 1]
            if line.required and row.mode != Mode.MUST:
                yield Breach(row.source_line, f"the row of a required line is must, and line {line.number} is required")


def row_conditions(row, condition_count, literal_limit):
    if len(row.literals) > literal_limit:
        yield Breach(row.source_line, f"a row has at most {literal_limit} conditions")
    for literal in row.literals:
        if not 1 <= literal.number <= condition_count:
            yield Breach(row.source_line, f"the book's conditions are 1–{condition_count}, and {literal} is none of them")
    for earlier, later in zip(row.literals, row.literals[1:]):
        if later.number <= earlier.number:
            yield Breach(row.source_line, f"the conditions of a row rise strictly: {later} cannot follow {earlier}")


def nesting(book, edition):
    for line, following in zip(book.lines, book.lines[1:]):
        if line.is_group:
            yield from trigger(line, following)
        elif following.depth > line.depth:
            yield Breach(following.source_line, "after a segment line the depth stays or falls")


def trigger(group, line):
    lacking = [lack for holds, lack in (
        (not line.is_group, "a segment line"),
        (line.depth == group.depth + 1, f"of depth {group.depth + 1}"),
        (line.required, "required"),
        (line.maximum == 1, "of maximum 1"),
    ) if not holds]
    if lacking:
        yield Breach(line.source_line, f"the line after a group is its trigger and must be {', '.join(lacking)}")


def frame(book, edition):
    if book.lines:
        yield from frame_line(book.lines[0], "line 1", HEAD_TAG)
        yield from frame_line(book.lines[-1], "the last line", END_TAG)
    for line in book.lines[1:-1]:
        if not line.is_group and line.name in (HEAD_TAG, END_TAG):
            yield Breach(line.source_line, f"only line 1 is {HEAD_TAG} and only the last line is {END_TAG}")


def frame_line(line, where, tag):
    lacking = [lack for holds, lack in (
        (not line.is_group and line.name == tag, tag),
        (line.depth == 0, "of depth 0"),
        (line.required, "required"),
        (line.maximum == 1, "of maximum 1"),
        (line.selector is None, "without selector"),
    ) if not holds]
    if lacking:
        yield Breach(line.source_line, f"{where} must be {', '.join(lacking)}")


def one_home(book, edition):
    segments = [line for line in book.lines if not line.is_group]
    for position, later in enumerate(segments):
        for earlier in segments[:position]:
            if earlier.name == later.name:
                yield from told_apart(earlier, later)


def told_apart(earlier, later):
    both = f"one home: lines {earlier.number} and {later.number} are both {later.name}"
    if not earlier.selector or not later.selector:
        yield Breach(later.source_line, f"{both}, so each needs a selector")
        return
    if earlier.selector.place != later.selector.place:
        yield Breach(later.source_line, f"{both}, so their selectors need the same place")
    for code in later.selector.codes:
        if code in earlier.selector.codes:
            yield Breach(later.source_line, f"{both}, so they cannot both have code {code}")


def carrier(book, edition):
    carriers = [line for line in book.lines if line.is_carrier]
    if not carriers:
        yield Breach(book.last_source_line, "one line must be the carrier of the Prüfidentifikator")
    for line in carriers[1:]:
        yield Breach(line.source_line, "only one line is the carrier of the Prüfidentifikator")
    for line in carriers[:1]:
        if line.is_group or not line.required or line.maximum != 1:
            yield Breach(line.source_line, "the Prüfidentifikator's line is a required segment line of maximum 1")
        for group in groups_around(book, line):
            if not group.required or group.maximum != 1:
                yield Breach(group.source_line, "a group around the Prüfidentifikator's line is required, of maximum 1")


def groups_around(book, line):
    """Going up from a line, the next group that is less deep than all that was passed is around it."""
    depth = line.depth
    for earlier in reversed(book.lines[:line.number - 1]):
        if earlier.depth < depth:
            depth = earlier.depth
            if earlier.is_group:
                yield earlier


RULES = (sizes, lines, selectors, codes, fields, identifiers, rows, nesting, frame, one_home, carrier)
