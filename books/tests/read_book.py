#!/usr/bin/env python3
"""Prints a binary guide book of edition 1 back as a listing. Written from document 01 alone: it shares nothing with the compiler.

    read_book.py BOOK.bin

So the layout stands here a second time, on purpose and in one place: the sizes and words that follow, and the functions that
take a record's numbers in their order. It trusts the book and checks no rule; only bytes that must be zero and are not are
pointed out.
"""

import sys

SIZES = {"header": 28, "lines": 20, "codes": 8, "fields": 12, "identifiers": 8, "rows": 8}
TAG_LENGTH, IDENTIFIER_LENGTH, ROW_CONDITIONS = 3, 5, 3

KINDS = {1: "segment", 2: "group"}
STATUSES = {0: "not required", 1: "required"}
PRESENCES = {0: "must be empty", 1: "must have bytes", 2: "may", 3: "must if its element has bytes"}
FORMS = {1: "an", 2: "n"}
MODES = {0: "never", 1: "must", 2: "may", 3: "must if", 4: "may if"}
JOINTS = {0: "", 1: "all of", 2: "any of"}
NOT = 128


class Record:
    """The bytes of one record, taken from the front."""

    def __init__(self, data, at, size):
        self.rest = data[at:at + size]

    def take(self, size):
        taken, self.rest = self.rest[:size], self.rest[size:]
        return taken

    def number(self, size=1):
        return sum(byte << (8 * position) for position, byte in enumerate(self.take(size)))

    def end(self):
        return " NOT ZERO AT ITS END" if any(self.rest) else ""


def read_header(data):
    record = Record(data, 0, SIZES["header"])
    names = ("edition", "length", "lines", "lines_at", "codes", "codes_at", "fields", "fields_at", "identifiers",
             "identifiers_at", "rows_at", "conditions", "carrier")
    header = {name: record.number(2) for name in names}
    header["end"] = record.end()
    return header


def record_of(data, header, block, position):
    return Record(data, header[block + "_at"] + SIZES[block] * position, SIZES[block])


def header_listing(data, header):
    yield "edition {edition}, length {length}".format(**header) + f", the file has {len(data)} bytes" + header["end"]
    for name in ("lines", "codes", "fields", "identifiers"):
        yield f"{header[name]} {name} at {header[name + '_at']}"
    yield "{} rows at {}".format(header["identifiers"] * header["lines"], header["rows_at"])
    yield "{conditions} conditions; line {carrier} carries the Prüfidentifikator".format(**header)


def line_listing(data, header, number):
    record = record_of(data, header, "lines", number - 1)
    kind, depth, tag = KINDS[record.number()], record.number(), record.take(TAG_LENGTH)
    status = STATUSES[record.number()]
    selector = f"{record.number()}.{record.number()}"
    codes, maximum, fields = (record.number(2), record.number(2)), record.number(4), (record.number(2), record.number(2))
    what = {"segment": " " + repr(tag.decode("latin-1")), "group": " WITH A TAG" if any(tag) else ""}[kind]
    yield f"line {number}: {kind}{what}, depth {depth}, {status}, maximum {maximum}" + record.end()
    yield f"  selector {selector}, codes {range_listing(*codes)}; fields {range_listing(*fields)}"


def range_listing(first, count):
    return f"{count} from {first}"


def code_listing(data, header, position):
    record = record_of(data, header, "codes", position)
    length = record.number()
    code = record.take(length)
    return f"code {position}: {code.decode('latin-1')!r}" + record.end()


def field_listing(data, header, position):
    record = record_of(data, header, "fields", position)
    place = f"{record.number()}.{record.number()}"
    presence, form, longest = PRESENCES[record.number()], FORMS[record.number()], record.number(2)
    codes = range_listing(record.number(2), record.number(2))
    return f"field {position}: {place} {presence}, {form} up to {longest}, codes {codes}" + record.end()


def row_listing(data, header, position):
    record = record_of(data, header, "rows", position)
    mode, joint, conditions = MODES[record.number()], JOINTS[record.number()], record.take(ROW_CONDITIONS)
    shown = [("not " if byte > NOT else "") + f"[{byte % NOT}]" for byte in conditions.rstrip(b"\0")]
    return " ".join([f"  line {position % header['lines'] + 1}: {mode}", *filter(None, [joint, ", ".join(shown)])]) + record.end()


def column_listing(data, header, position):
    record = record_of(data, header, "identifiers", position)
    yield f"Prüfidentifikator {record.take(IDENTIFIER_LENGTH).decode('latin-1')}" + record.end()
    first_row = position * header["lines"]
    yield from (row_listing(data, header, first_row + line) for line in range(header["lines"]))


def listing(data):
    """The lines of the listing, block by block as in document 01."""
    header = read_header(data)
    yield from header_listing(data, header)
    for number in range(1, header["lines"] + 1):
        yield from line_listing(data, header, number)
    yield from (code_listing(data, header, position) for position in range(header["codes"]))
    yield from (field_listing(data, header, position) for position in range(header["fields"]))
    for position in range(header["identifiers"]):
        yield from column_listing(data, header, position)


if __name__ == "__main__":
    if len(sys.argv) != 2:
        sys.exit(__doc__)
    sys.stdout.reconfigure(encoding="utf-8")
    with open(sys.argv[1], "rb") as file:
        sys.stdout.write("".join(line + "\n" for line in listing(file.read())))
