"""The layout of a guide book's binary, by edition, as document 01 gives it in "The guide book": what stands in each record, and
what the numbers mean. The compiler has it from here alone.

A later edition is one more entry of EDITIONS: it takes over the one before and changes the records or the limits that its
change request names. The text names its edition, so older books stay as they are.
"""

from enum import IntEnum
from struct import Struct
from typing import NamedTuple


class Kind(IntEnum):
    SEGMENT = 1
    GROUP = 2


class Presence(IntEnum):
    EMPTY = 0
    MUST = 1
    MAY = 2
    MUST_WITH_ELEMENT = 3


class Form(IntEnum):
    AN = 1
    N = 2


class Mode(IntEnum):
    NEVER = 0
    MUST = 1
    MAY = 2
    MUST_IF = 3
    MAY_IF = 4


class Joint(IntEnum):
    NONE = 0
    ALL = 1
    ANY = 2


# Added to the number of a condition.
NEGATED = 128

TAG_LENGTH = 3
LONGEST_CODE = 6
IDENTIFIER_LENGTH = 5
ROW_CONDITIONS = 3

# How a number or some bytes are written, in the words of Python's struct.
ONE_BYTE, TWO_BYTES, FOUR_BYTES = "B", "H", "I"


def text(longest):
    """Bytes, zero behind their end."""
    return f"{longest}s"


def zeros(count):
    return f"{count}x"


class Record:
    """The parts of a record in their order, each with the way in which it is written; zeros have no value."""

    def __init__(self, **parts):
        self.parts = parts
        self.struct = Struct("<" + "".join(parts.values()))
        self.size = self.struct.size

    def pack(self, **values):
        """The record's bytes, of the values by their names. Those that only another edition has a part for are left out."""
        return self.struct.pack(*(values[name] for name in self.parts if name != "zeros"))


class Records(NamedTuple):
    header: Record
    line: Record
    code: Record
    field: Record
    identifier: Record
    row: Record


class Edition(NamedTuple):
    number: int
    records: Records
    condition_limit: int
    row_literal_limit: int


EDITION_ONE = Edition(
    number=1,
    condition_limit=64,
    row_literal_limit=ROW_CONDITIONS,
    records=Records(
        header=Record(
            edition=TWO_BYTES, length=TWO_BYTES,
            line_count=TWO_BYTES, lines_at=TWO_BYTES,
            code_count=TWO_BYTES, codes_at=TWO_BYTES,
            field_count=TWO_BYTES, fields_at=TWO_BYTES,
            identifier_count=TWO_BYTES, identifiers_at=TWO_BYTES,
            rows_at=TWO_BYTES, condition_count=TWO_BYTES, carrier=TWO_BYTES, zeros=zeros(2)),
        line=Record(
            kind=ONE_BYTE, depth=ONE_BYTE, tag=text(TAG_LENGTH), required=ONE_BYTE,
            selector_element=ONE_BYTE, selector_component=ONE_BYTE, first_code=TWO_BYTES, code_count=TWO_BYTES,
            maximum=FOUR_BYTES, first_field=TWO_BYTES, field_count=TWO_BYTES),
        code=Record(length=ONE_BYTE, text=text(LONGEST_CODE), zeros=zeros(1)),
        field=Record(
            element=ONE_BYTE, component=ONE_BYTE, presence=ONE_BYTE, form=ONE_BYTE, longest=TWO_BYTES,
            first_code=TWO_BYTES, code_count=TWO_BYTES, zeros=zeros(2)),
        identifier=Record(digits=text(IDENTIFIER_LENGTH), zeros=zeros(3)),
        row=Record(mode=ONE_BYTE, joint=ONE_BYTE, conditions=text(ROW_CONDITIONS), zeros=zeros(3)),
    ),
)

EDITIONS = {edition.number: edition for edition in (EDITION_ONE,)}
