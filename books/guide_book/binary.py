"""A guide book's binary: where its records come to stand, and their bytes, in the layout of the book's edition."""

from typing import NamedTuple

from .editions import NEGATED, Kind


class Range(NamedTuple):
    first: int
    count: int


class FieldRecord(NamedTuple):
    place: tuple
    presence: int
    form: int
    longest: int
    codes: Range


class Block:
    """Records in the order in which they are first needed. A run that stands here already is shared, not repeated."""

    def __init__(self):
        self.records = []

    def place(self, run):
        if not run:
            return Range(0, 0)
        for first in range(len(self.records) - len(run) + 1):
            if self.records[first:first + len(run)] == run:
                return Range(first, len(run))
        self.records.extend(run)
        return Range(len(self.records) - len(run), len(run))


class Blocks:
    """The codes and fields of all lines, and where those of each line stand: first the named lists, then line by line."""

    def __init__(self, book):
        self.codes = Block()
        self.fields = Block()
        for code_list in book.code_lists:
            self.codes.place(list(code_list.codes))
        self.selector_codes = []
        self.line_fields = []
        for line in book.lines:
            self.selector_codes.append(self.codes.place(list(line.selector.codes) if line.selector else []))
            self.line_fields.append(self.fields.place([self.record_of(field) for field in line.fields]))

    def record_of(self, field):
        codes = self.codes.place(list(field.codes))
        return FieldRecord(field.place, field.presence, field.form, field.longest, codes)


class Binary:
    """A book in the layout of its edition. Its length can be asked of any book, its bytes of one that meets every rule."""

    def __init__(self, book, edition):
        self.book = book
        self.edition = edition
        self.records = edition.records
        self.blocks = Blocks(book)

    def offsets(self):
        """Where the blocks begin, in their order, and last where the book ends."""
        lines, columns = len(self.book.lines), len(self.book.columns)
        blocks = ((self.records.line, lines), (self.records.code, len(self.blocks.codes.records)),
                  (self.records.field, len(self.blocks.fields.records)), (self.records.identifier, columns),
                  (self.records.row, columns * lines))
        offsets = [self.records.header.size]
        for record, count in blocks:
            offsets.append(offsets[-1] + record.size * count)
        return offsets

    def length(self):
        return self.offsets()[-1]

    def encode(self):
        book, blocks = self.book, self.blocks
        parts = [self.encode_header()]
        parts += [self.encode_line(*of_line) for of_line in zip(book.lines, blocks.selector_codes, blocks.line_fields)]
        parts += [self.encode_code(code) for code in blocks.codes.records]
        parts += [self.encode_field(field) for field in blocks.fields.records]
        parts += [self.encode_identifier(column) for column in book.columns]
        parts += [self.encode_row(column.row_of(line)) for column in book.columns for line in book.lines]
        return b"".join(parts)

    def encode_header(self):
        book, blocks = self.book, self.blocks
        lines_at, codes_at, fields_at, identifiers_at, rows_at, end = self.offsets()
        return self.records.header.pack(
            edition=self.edition.number, length=end,
            line_count=len(book.lines), lines_at=lines_at,
            code_count=len(blocks.codes.records), codes_at=codes_at,
            field_count=len(blocks.fields.records), fields_at=fields_at,
            identifier_count=len(book.columns), identifiers_at=identifiers_at,
            rows_at=rows_at, condition_count=len(book.conditions),
            carrier=next(line.number for line in book.lines if line.is_carrier))

    def encode_line(self, line, codes, fields):
        element, component = line.selector.place if line.selector else (0, 0)
        return self.records.line.pack(
            kind=Kind.GROUP if line.is_group else Kind.SEGMENT, depth=line.depth,
            tag=b"" if line.is_group else line.name.encode("ascii"), required=line.required,
            selector_element=element, selector_component=component, first_code=codes.first, code_count=codes.count,
            maximum=line.maximum, first_field=fields.first, field_count=fields.count)

    def encode_code(self, code):
        return self.records.code.pack(length=len(code), text=code.encode("ascii"))

    def encode_field(self, field):
        return self.records.field.pack(
            element=field.place.element, component=field.place.component, presence=field.presence, form=field.form,
            longest=field.longest, first_code=field.codes.first, code_count=field.codes.count)

    def encode_identifier(self, column):
        return self.records.identifier.pack(digits=column.identifier.encode("ascii"))

    def encode_row(self, row):
        conditions = bytes(literal.number + NEGATED * literal.negated for literal in row.literals)
        return self.records.row.pack(mode=row.mode, joint=row.joint, conditions=conditions)
