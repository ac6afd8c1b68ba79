"""One line of the text, taken word by word. What a word means is told in text.py; here stands how a word looks."""

import re
from typing import NamedTuple

from .model import BadSource, Place

# Ten digits hold every number of a book; a leading zero would be a printed counter in the wrong column.
NUMBER_FORM = "0|[1-9][0-9]{0,9}"
NUMBER = re.compile(NUMBER_FORM)
PLACE = re.compile(rf"({NUMBER_FORM})\.({NUMBER_FORM})")
WORD = re.compile(r'\s*(?:"(?P<quoted>[^"\t]*)"|(?P<plain>[^\s"#]+))')
BLANK_OR_COMMENT = re.compile(r"\s*(#.*)?")


class Word(NamedTuple):
    text: str
    is_quoted: bool


def split_words(source_line, text):
    """The words of a line; '#' outside quotes begins a comment."""
    words = []
    position = 0
    while BLANK_OR_COMMENT.fullmatch(text, position) is None:
        match = WORD.match(text, position)
        if match is None:
            raise BadSource(source_line, "a text in quotes must end on its line and hold no tab")
        quoted = match.group("quoted")
        words.append(Word(match.group("plain") if quoted is None else quoted, quoted is not None))
        position = match.end()
    return words


class Statement:
    """The words of one line that are not yet taken."""

    def __init__(self, source_line, words):
        self.source_line = source_line
        self.words = words

    def refuse(self, reason):
        raise BadSource(self.source_line, reason)

    def next_is_plain(self):
        return bool(self.words) and not self.words[0].is_quoted

    def next_is(self, text):
        return self.next_is_plain() and self.words[0].text == text

    def take_if(self, text):
        """Whether the next word is this one; if so, it is taken."""
        found = self.next_is(text)
        if found:
            self.words.pop(0)
        return found

    def take_plain(self, expected):
        if not self.next_is_plain():
            self.refuse(f"{expected} is missing")
        return self.words.pop(0).text

    def take_quoted(self, expected):
        if not self.words or not self.words[0].is_quoted:
            found = f" before {self.words[0].text!r}" if self.words else ""
            self.refuse(f"{expected}, in quotes, is missing{found}")
        return self.words.pop(0).text

    def take_quoted_if_any(self):
        return self.words.pop(0).text if self.words and self.words[0].is_quoted else ""

    def take_number(self, expected):
        text = self.take_plain(expected)
        if NUMBER.fullmatch(text) is None:
            self.refuse(f"{expected} is a number, not {text!r}")
        return int(text)

    def take_place(self, expected):
        text = self.take_plain(expected)
        match = PLACE.fullmatch(text)
        if match is None:
            self.refuse(f"{expected} is element.component, not {text!r}")
        return Place(int(match.group(1)), int(match.group(2)))

    def finish(self):
        if self.words:
            self.refuse(f"nothing more may stand here, but {self.words[0].text!r} does")
