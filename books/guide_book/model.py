"""A guide book as its text gives it, before any rule of document 01 has been asked of it.

`source_line` is everywhere the line of the text where the thing stands.
"""

from dataclasses import dataclass, field
from typing import NamedTuple, Optional

from .editions import Form, Joint, Mode, Presence


class BadSource(Exception):
    """The text cannot be read any further; the rules are not asked."""

    def __init__(self, source_line, reason):
        super().__init__(reason)
        self.source_line = source_line
        self.reason = reason


class Place(NamedTuple):
    element: int
    component: int

    def __str__(self):
        return f"{self.element}.{self.component}"


class Literal(NamedTuple):
    """A condition number as it stands in a row, "not" before it or not."""

    number: int
    negated: bool

    def __str__(self):
        return f"[{self.number}]"


@dataclass
class CodeList:
    source_line: int
    name: str
    codes: tuple


@dataclass
class Condition:
    source_line: int
    number: int
    printed: str


@dataclass
class Field:
    source_line: int
    place: Place
    element_status: Optional[str]
    presence: Presence
    form: Form
    longest: int
    codes: tuple
    printed: str


@dataclass
class Selector:
    place: Place
    codes: tuple


@dataclass
class Line:
    source_line: int
    number: int
    depth: int
    is_group: bool
    name: str  # a segment's tag; what a group is called in the columns
    required: bool
    maximum: int
    is_carrier: bool
    selector: Optional[Selector]
    printed: str
    fields: list = field(default_factory=list)


@dataclass
class Row:
    source_line: int
    line_number: int
    mode: Mode
    joint: Joint = Joint.NONE
    literals: tuple = ()


@dataclass
class Column:
    """A Prüfidentifikator and its rows, as far as they are written."""

    source_line: int
    identifier: str
    printed: str
    rows: list = field(default_factory=list)

    def row_of(self, line):
        """The row of a line; one that is not written is "must" for a required line and otherwise "never"."""
        for row in self.rows:
            if row.line_number == line.number:
                return row
        return Row(self.source_line, line.number, Mode.MUST if line.required else Mode.NEVER)


@dataclass
class Book:
    edition: Optional[int] = None
    printed: str = ""
    code_lists: list = field(default_factory=list)
    conditions: list = field(default_factory=list)
    lines: list = field(default_factory=list)
    columns: list = field(default_factory=list)
    last_source_line: int = 1
