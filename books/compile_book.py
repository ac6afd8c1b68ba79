#!/usr/bin/env python3
"""Compiles the text of a guide book into the binary that the library judges by. books/README.md explains the text.

    compile_book.py SOURCE.txt OUTPUT.bin            write the binary
    compile_book.py --check SOURCE.txt OUTPUT.bin    exit 1 if the binary is not what the text compiles to
    compile_book.py --names SOURCE.txt               what an inspector shows, separated by tabs

A bad text is refused with FILE:LINE: reason, and exit 2; nothing is written then.
"""

import sys

sys.dont_write_bytecode = True  # the repository stays free of what running leaves behind

from guide_book.binary import Binary
from guide_book.editions import EDITIONS
from guide_book.model import BadSource
from guide_book.rules import breaches
from guide_book.text import read_text

EXIT_DIFFERENT = 1
EXIT_REFUSED = 2


def stop(status, *messages):
    for message in messages:
        print(message, file=sys.stderr)
    sys.exit(status)


def read_bytes(path, status):
    try:
        with open(path, "rb") as file:
            return file.read()
    except OSError as error:
        stop(status, f"{path}: {error.strerror}")


def read_book(path):
    """The book of a source that can be read and meets every rule; otherwise the end of the program."""
    try:
        book = read_text(read_bytes(path, EXIT_REFUSED), EDITIONS)
    except BadSource as error:
        stop(EXIT_REFUSED, f"{path}:{error.source_line}: {error.reason}")
    found = breaches(book, EDITIONS[book.edition])
    if found:
        stop(EXIT_REFUSED, *(f"{path}:{breach.source_line}: {breach.reason}" for breach in found))
    return book


def compile_book(source, output):
    encoded = encode(source)
    try:
        with open(output, "wb") as file:
            file.write(encoded)
    except OSError as error:
        stop(EXIT_REFUSED, f"{output}: {error.strerror}")


def check_book(source, output):
    encoded = encode(source)
    if encoded != read_bytes(output, EXIT_DIFFERENT):
        stop(EXIT_DIFFERENT, f"{output}: not what {source} compiles to; compile it again")


def encode(source):
    book = read_book(source)
    return Binary(book, EDITIONS[book.edition]).encode()


def names(book):
    """What the binary does not hold and an inspector wants to show: a kind, its number, the printed words."""
    yield "book", book.printed
    for line in book.lines:
        yield "line", line.number, line.name, line.printed
        for field in line.fields:
            if field.printed:
                yield "field", line.number, field.place, field.printed
    for column in book.columns:
        yield "identifier", column.identifier, column.printed
    for condition in book.conditions:
        yield "condition", condition.number, condition.printed


def name_lines(source):
    return ["\t".join(map(str, entry)) for entry in names(read_book(source))]


def list_names(source):
    sys.stdout.write("".join(line + "\n" for line in name_lines(source)))


def main(arguments):
    if len(arguments) == 2 and not arguments[0].startswith("--"):
        compile_book(*arguments)
    elif len(arguments) == 3 and arguments[0] == "--check":
        check_book(*arguments[1:])
    elif len(arguments) == 2 and arguments[0] == "--names":
        list_names(arguments[1])
    else:
        stop(EXIT_REFUSED, __doc__)


if __name__ == "__main__":
    for stream in (sys.stdout, sys.stderr):
        stream.reconfigure(encoding="utf-8")
    main(sys.argv[1:])
