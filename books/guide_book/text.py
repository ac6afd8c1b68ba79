"""The text form of a guide book, read into a Book. books/README.md explains the form to a person.

Only what cannot be read at all is refused here; what document 01 forbids is left to rules.py.
"""

import re

from .editions import Form, Joint, Mode, Presence
from .model import BadSource, Book, CodeList, Column, Condition, Field, Line, Literal, Row, Selector
from .statement import NUMBER, NUMBER_FORM, PLACE, Statement, split_words

LIST_NAME = re.compile("@[A-Za-z0-9-]+")
FORMAT = re.compile(rf"(an|n)\.\.({NUMBER_FORM})")
CONDITION = re.compile(rf"\[({NUMBER_FORM})\]")

FORMS = {"an": Form.AN, "n": Form.N}
MODES = {"never": Mode.NEVER, "must": Mode.MUST, "may": Mode.MAY}
CONDITIONAL_MODES = {Mode.MUST: Mode.MUST_IF, Mode.MAY: Mode.MAY_IF}
JOINTS = {"and": Joint.ALL, "or": Joint.ANY}

# The letters of the guides: Mandatory, Required; Optional, Dependent; Not used.
REQUIRED_LETTERS = ("M", "R")
OPTIONAL_LETTERS = ("O", "D")
UNUSED_LETTER = "N"
FIELD_LETTERS = REQUIRED_LETTERS + OPTIONAL_LETTERS + (UNUSED_LETTER,)


def read_text(source, known_editions):
    """The book that the bytes of a source give; BadSource if they cannot be read."""
    reader = TextReader(known_editions)
    for source_line, raw in enumerate(source.split(b"\n"), start=1):
        try:
            words = split_words(source_line, raw.decode("utf-8"))
        except UnicodeDecodeError:
            raise BadSource(source_line, "the text is not UTF-8")
        if words:
            reader.read(Statement(source_line, words))
            reader.book.last_source_line = source_line
    return reader.finish()


def presence_of(element_letter, letter):
    """01, First book: "N is 0, D and O 2, M and R 1, or 3 inside an element of D or O; inside an N element all are 0"."""
    if UNUSED_LETTER in (element_letter, letter):
        return Presence.EMPTY
    if letter in OPTIONAL_LETTERS:
        return Presence.MAY
    if element_letter in OPTIONAL_LETTERS:
        return Presence.MUST_WITH_ELEMENT
    return Presence.MUST


class TextReader:
    """Takes the statements in the order of the text."""

    def __init__(self, known_editions):
        self.known_editions = known_editions
        self.book = Book()
        self.named_codes = {}
        self.statements = {
            "edition": self.read_edition,
            "book": self.read_title,
            "codes": self.read_code_list,
            "condition": self.read_condition,
            "identifier": self.read_identifier,
        }

    def read(self, statement):
        """A place opens a field; a number opens a line or, below an identifier, a row; any other statement has its word."""
        if self.book.edition is None and not statement.next_is("edition"):
            statement.refuse("the first statement must be the edition")
        first = statement.words[0].text if statement.next_is_plain() else ""
        if PLACE.fullmatch(first):
            self.read_field(statement)
        elif NUMBER.fullmatch(first):
            (self.read_row if self.book.columns else self.read_line)(statement)
        elif first in self.statements:
            statement.take_plain("a word")
            self.statements[first](statement)
        else:
            statement.refuse(f"no statement begins with {statement.words[0].text!r}")
        statement.finish()

    def finish(self):
        if self.book.edition is None:
            raise BadSource(self.book.last_source_line, "the first statement must be the edition")
        return self.book

    def read_edition(self, statement):
        if self.book.edition is not None:
            statement.refuse("the edition is given twice")
        edition = statement.take_number("the edition")
        if edition not in self.known_editions:
            statement.refuse(f"edition {edition} is not known here")
        self.book.edition = edition

    def read_title(self, statement):
        if self.book.printed:
            statement.refuse("the book's title is given twice")
        self.book.printed = statement.take_quoted("the book's title")

    def read_code_list(self, statement):
        name = statement.take_plain("the list's name")
        if LIST_NAME.fullmatch(name) is None:
            statement.refuse(f"the name of a list is '@' and letters, digits or '-', not {name!r}")
        if name in self.named_codes:
            statement.refuse(f"the list {name} is given twice")
        codes = self.take_codes(statement)
        if not codes:
            statement.refuse(f"the list {name} has no codes")
        self.named_codes[name] = codes
        self.book.code_lists.append(CodeList(statement.source_line, name, codes))

    def take_codes(self, statement):
        """All plain words that are left, each a code or the name of a list, which stands for its codes."""
        codes = []
        while statement.next_is_plain():
            word = statement.take_plain("a code")
            if word.startswith("@") and word not in self.named_codes:
                statement.refuse(f"no list {word} stands above")
            codes.extend(self.named_codes.get(word, (word,)))
        for code in codes:
            if codes.count(code) > 1:
                statement.refuse(f"code {code} stands twice in one list")
        return tuple(codes)

    def read_condition(self, statement):
        number = statement.take_number("the condition's number")
        expected = len(self.book.conditions) + 1
        if number != expected:
            statement.refuse(f"conditions count from 1 without gaps: {expected} belongs here, not {number}")
        printed = statement.take_quoted("the condition's words")
        self.book.conditions.append(Condition(statement.source_line, number, printed))

    def read_line(self, statement):
        number = statement.take_number("the line's number")
        expected = len(self.book.lines) + 1
        if number != expected:
            statement.refuse(f"lines count from 1 without gaps: {expected} belongs here, not {number}")
        depth = 0
        while statement.take_if("|"):
            depth += 1
        is_group = statement.take_if("group")
        self.book.lines.append(Line(
            statement.source_line, number, depth, is_group,
            name=statement.take_plain("the group's name" if is_group else "the tag"),
            required=self.take_line_status(statement),
            maximum=statement.take_number("the maximum"),
            is_carrier=statement.take_if("carrier"),
            selector=self.take_selector(statement),
            printed=statement.take_quoted("the line's printed name"),
        ))

    def take_line_status(self, statement):
        letter = statement.take_plain("the status")
        if letter not in REQUIRED_LETTERS + OPTIONAL_LETTERS:
            statement.refuse(f"the status of a line is M or R (required), O or D (not), not {letter!r}")
        return letter in REQUIRED_LETTERS

    def take_selector(self, statement):
        if not statement.take_if("selector"):
            return None
        return Selector(statement.take_place("the selector's place"), self.take_codes(statement))

    def read_field(self, statement):
        if not self.book.lines or self.book.columns:
            statement.refuse("a field must stand below its line")
        place = statement.take_place("the field's place")
        element_letter, letter = self.take_field_status(statement)
        form, longest = self.take_format(statement)
        codes = self.take_codes(statement)
        self.book.lines[-1].fields.append(Field(
            statement.source_line, place, element_letter, presence_of(element_letter, letter), form, longest, codes,
            printed=statement.take_quoted_if_any(),
        ))

    def take_field_status(self, statement):
        """The letter of the element, if it is written, and of the component."""
        status = statement.take_plain("the status")
        letters = status.split("/")
        if len(letters) > 2 or any(letter not in FIELD_LETTERS for letter in letters):
            statement.refuse(f"the status of a field is one of M R O D N, or two of them as in D/M, not {status!r}")
        return (None, letters[0]) if len(letters) == 1 else (letters[0], letters[1])

    def take_format(self, statement):
        text = statement.take_plain("the format")
        match = FORMAT.fullmatch(text)
        if match is None:
            statement.refuse(f"the format is an..LONGEST or n..LONGEST, not {text!r}")
        return FORMS[match.group(1)], int(match.group(2))

    def read_identifier(self, statement):
        identifier = statement.take_plain("the Prüfidentifikator")
        self.book.columns.append(Column(statement.source_line, identifier, printed=statement.take_quoted_if_any()))

    def read_row(self, statement):
        number = statement.take_number("the line's number")
        name = statement.take_plain("the line's tag or group name")
        self.refuse_wrong_line(statement, number, name)
        word = statement.take_plain("the mode")
        if word not in MODES:
            statement.refuse(f"the mode is must, may or never, not {word!r}")
        mode = MODES[word]
        row = Row(statement.source_line, number, mode)
        if statement.take_if("if"):
            if mode not in CONDITIONAL_MODES:
                statement.refuse("'if' goes with must or may")
            row.mode = CONDITIONAL_MODES[mode]
            row.joint, row.literals = self.take_expression(statement)
        self.book.columns[-1].rows.append(row)

    def refuse_wrong_line(self, statement, number, name):
        """The name beside the number guards against a row that has slipped by one."""
        if not 1 <= number <= len(self.book.lines):
            statement.refuse(f"the book has no line {number}")
        line_name = self.book.lines[number - 1].name
        if name != line_name:
            statement.refuse(f"line {number} is {line_name}, not {name}")
        rows = self.book.columns[-1].rows
        if rows and number <= rows[-1].line_number:
            statement.refuse(f"the rows follow the lines: {number} cannot stand below {rows[-1].line_number}")

    def take_expression(self, statement):
        """Conditions, all joined by "and" or all by "or"; a single one counts as "and"."""
        literals = [self.take_literal(statement)]
        joints = []
        while statement.next_is_plain():
            word = statement.take_plain("'and' or 'or'")
            if word not in JOINTS:
                statement.refuse(f"conditions are joined by 'and' or 'or', not {word!r}")
            joints.append(JOINTS[word])
            literals.append(self.take_literal(statement))
        if len(set(joints)) > 1:
            statement.refuse("a row joins its conditions all by 'and' or all by 'or'")
        return (joints[0] if joints else Joint.ALL), tuple(literals)

    def take_literal(self, statement):
        negated = statement.take_if("not")
        text = statement.take_plain("a condition")
        match = CONDITION.fullmatch(text)
        if match is None:
            statement.refuse(f"a condition is a number in square brackets, not {text!r}")
        return Literal(int(match.group(1)), negated)
