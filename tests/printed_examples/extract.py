"""Makes the input and the expected output of the program printed_examples.

    python3 tests/printed_examples/extract.py PAPERS_DIR

PAPERS_DIR holds the source documents.  The files written are
crates/printed_examples/stdin and crates/printed_examples/stdout.

The reading here is written from document 01, "Bytes of a message", with
request T-05 of document 02, and from nothing else, as regular expressions, so
that it shares no thought with the library it checks.
"""

import re
import sys
from pathlib import Path

# One example stands under each segment layout, and the last layout's number
# is the count: 28 in document 000, 53 in document 003.
DOCUMENTS = [("000_bfa99ca102e92c38.txt", 28), ("003_ccfdfe4776084ba0.txt", 53)]
CRATE = Path(__file__).resolve().parents[2] / "crates" / "printed_examples"

# ---- The examples as printed ----

# The label may lack its colon, and the example may stand on the label's line.
# A sentence such as "Dieses Beispiel .." does not begin with the word.
LABEL = re.compile(r"Beispiel:?(?:[ \t]+(.*))?")


def printed_example(lines, at):
    """The example whose label is on line `at`: the first text after the label.

    Blanks around it are page layout; every blank inside it stays.
    """
    on_the_labels_line = LABEL.fullmatch(lines[at]).group(1) or ""
    texts = (text.strip(" \t") for text in [on_the_labels_line, *lines[at + 1:]])
    return next(text for text in texts if text)


def examples_of(document, count):
    """A document's examples in printed order, as ISO 8859-1 bytes."""
    # Only LF ends a line of these files; str.splitlines would break at more.
    lines = document.read_bytes().decode("utf-8").split("\n")
    labels = [at for at, line in enumerate(lines) if LABEL.fullmatch(line)]
    # The encoding is strict: a character that ISO 8859-1 lacks stops the run.
    examples = [printed_example(lines, at).encode("iso-8859-1") for at in labels]
    assert len(examples) == count, (document.name, len(examples))
    for example in examples:
        # Holds for every example printed.  One that broke it (a `'` missing,
        # a line broken in two) would want a decision in NOTES.md.
        assert example.index(b"'") == len(example) - 1, example
    return examples


# ---- The grammar of document 01, without needless separators (T-05) ----

# A data byte that stands for itself: 0x20-0x7E and 0xA0-0xFF without ' + : ?
PLAIN = rb"[\x20-\x26\x28-\x2A\x2C-\x39\x3B-\x3E\x40-\x7E\xA0-\xFF]"
RELEASED = rb"\?['+:?]"
COMPONENT = rb"(?:%b|%b)*" % (PLAIN, RELEASED)
FILLED_COMPONENT = rb"(?:%b|%b)+" % (PLAIN, RELEASED)
# An element's last component has bytes, unless it is the only one; a segment's
# last element has bytes.
FILLED_ELEMENT = rb"(?:%b:)*%b" % (COMPONENT, FILLED_COMPONENT)
ELEMENT = rb"(?:%b)?" % FILLED_ELEMENT
SEGMENT = rb"[A-Z0-9]{3}(?:(?:\+%b)*\+%b)?'" % (ELEMENT, FILLED_ELEMENT)
MESSAGE = rb"(?:%b)+" % SEGMENT

# A beginning of a message stands in one of five places, and each of these
# endings makes a whole message of the beginnings in one of them: after a
# segment; after a tag's third byte or a component's bytes; after a tag's second
# byte or a separator; after a tag's first byte; after a releasing `?`.
ENDINGS = [b"", b"'", b"A'", b"AA'", b"?'"]


def is_message(data):
    return re.fullmatch(MESSAGE, data) is not None


def begins_message(data):
    """Whether the bytes, one at least, begin some well-formed message."""
    return any(is_message(data + ending) for ending in ENDINGS)


def fault_place(data):
    """Number 4's place: the smallest k whose first k+1 bytes begin no message."""
    places = (k for k in range(len(data)) if not begins_message(data[:k + 1]))
    return next(places, len(data))


def component_values(segment):
    """(element, component, value) of everything in a well-formed segment."""
    # Each element is opened by `+`.  Its first component has no `:` before it,
    # so one is put there: then each component is opened by `:`.
    for e, element in enumerate(re.findall(rb"\+(%b)" % ELEMENT, segment[3:-1]), 1):
        for c, part in enumerate(re.findall(rb":(%b)" % COMPONENT, b":" + element), 1):
            yield e, c, re.sub(rb"\?(.)", rb"\1", part)


# ---- The expected output ----


def component_lines(segment, indent):
    return [b"%b%d.%d %b" % (indent, e, c, value)
            for e, c, value in component_values(segment)]


def output_lines(number, line):
    """What the program writes for one input line."""
    if not is_message(line):
        return [b"%d not a segment: place %d" % (number, fault_place(line))]
    segments = re.findall(SEGMENT, line)
    if len(segments) == 1:
        return [b"%d %b" % (number, line[:3])] + component_lines(line, b"  ")
    lines = [b"%d %d segments" % (number, len(segments))]
    for segment in segments:
        lines += [b"  " + segment[:3]] + component_lines(segment, b"    ")
    return lines


def check_the_reading():
    """Cases of document 01 that no printed example shows."""
    assert output_lines(1, b"UNH+1") == [b"1 not a segment: place 5"]
    assert output_lines(1, b"UNH+1?A'") == [b"1 not a segment: place 6"]
    # `?'` is no segment end, `??'` is one.
    assert output_lines(1, b"BGM+7?'") == [b"1 not a segment: place 7"]
    assert output_lines(1, b"BGM+7??'") == [b"1 BGM", b"  1.1 7?"]
    # No element, a byte above 0x7E.
    assert output_lines(1, b"UNS'") == [b"1 UNS"]
    assert output_lines(1, b"FTX+\xFC\x9F'") == [b"1 not a segment: place 5"]
    assert output_lines(1, b"UNH+1'BGM+7'") == [
        b"1 2 segments", b"  UNH", b"    1.1 1", b"  BGM", b"    1.1 7"]
    check_needless_separators()


def check_needless_separators():
    """T-05: `+` or `'` behind `:`, and `'` behind `+`, is a fault at the later byte."""
    places = {
        b"UNS+'": 4, b"BGM+7+'": 6, b"BGM+7++'": 7, b"BGM+7:'": 6, b"BGM+7::'": 7,
        b"BGM+7:+8'": 6, b"BGM+:+'": 5, b"BGM+::+8'": 6, b"UNH+1'BGM+7:+8'UNT'": 12,
        # A released mark is data, and so is a released `?`.
        b"BGM+7?::'": 8, b"BGM+7??:'": 8, b"BGM+7?:+'": 8, b"BGM+7???::+8'": 10,
        # A message that stops behind a separator is cut short.
        b"BGM+": 4, b"BGM+7+": 6, b"BGM+7:": 6, b"BGM+7+:": 7,
    }
    for line, place in places.items():
        assert output_lines(1, line) == [b"1 not a segment: place %d" % place], line
    assert output_lines(1, b"BGM+7?:'") == [b"1 BGM", b"  1.1 7:"]
    assert output_lines(1, b"BGM+7:?:+?+'") == [
        b"1 BGM", b"  1.1 7", b"  1.2 :", b"  2.1 +"]
    # Empty elements and components before a value are good.
    assert output_lines(1, b"BGM++:7+::8'") == [
        b"1 BGM", b"  1.1 ", b"  2.1 ", b"  2.2 7", b"  3.1 ", b"  3.2 ", b"  3.3 8"]


def write_lines(path, lines):
    path.write_bytes(b"".join(line + b"\n" for line in lines))


def main(papers):
    check_the_reading()
    examples = [example for name, count in DOCUMENTS
                for example in examples_of(papers / name, count)]
    output = [out for number, line in enumerate(examples, 1)
              for out in output_lines(number, line)]
    write_lines(CRATE / "stdin", examples)
    write_lines(CRATE / "stdout", output)


if __name__ == "__main__":
    main(Path(sys.argv[1]))
