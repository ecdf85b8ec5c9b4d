#!/usr/bin/env python3
"""samples/page.py < TEXT > PAGE: makes a page, which ./subsume reads, from a text.

A line of the text is a record: its number in base ten, then its clause words, four hexadecimal digits each; a bar | may
stand between two literals. After # comes a comment. The words have to be complete literals, unless a ! stands after the
number: then any words are taken as they are. samples/README.md says what a word is.

A line that is no such record is named on standard error; then nothing is written, and the status is 1. So it is where
reading or writing fails."""
import re
import struct
import sys

GREATEST = 65535  # of a field of 16 bits
VARIABLE, POSITIVE = 1, 2  # kinds of words; the kind of a negative head is greater


def fault(tokens):
    """What keeps words and bars from being complete literals, or None."""
    wanted = 0  # arguments that the literal still needs
    for token in tokens:
        word = None if token == "|" else int(token, 16)
        begins = word is None or word >> 14 >= POSITIVE
        arity = 0 if word is None else word >> 11 & 7
        if begins and wanted:
            return f"an argument is missing before {token}"
        if not begins and not wanted:
            return f"{token} is one argument too many, or its literal has no head"
        if not begins and word >> 14 == VARIABLE and arity:
            return f"{token} is a variable with arguments"
        wanted += arity if begins else arity - 1
    return "an argument is missing at the end" if wanted else None


def record(number, tokens):
    """The bytes of a record; a ValueError says what is wrong with it."""
    if not re.fullmatch("0*[0-9]{1,5}", number) or int(number) > GREATEST:
        raise ValueError(f"{number[:20]!a} is no record number: 0 to {GREATEST}, in base ten")
    unjudged = tokens[:1] == ["!"]
    if unjudged:
        tokens = tokens[1:]
    words = [token for token in tokens if token != "|"]
    for word in words:
        if not re.fullmatch("[0-9A-Fa-f]{4}", word):
            raise ValueError(f"{word[:20]!a} is no word: four hexadecimal digits")
    if len(words) > GREATEST:
        raise ValueError(f"{len(words)} words: a record has at most {GREATEST}")
    found = None if unjudged else fault(tokens)
    if found:
        raise ValueError(f"{found} (with ! after the number any words are taken)")
    return struct.pack(f">{2 + len(words)}H", int(number), len(words), *(int(word, 16) for word in words))


def page(text):
    """The bytes of a text's records; a ValueError names the first line that is none."""
    made = bytearray()
    for at, line in enumerate(text.split("\n"), 1):
        fields = line.split("#")[0].replace("|", " | ").split()
        try:
            made += record(fields[0], fields[1:]) if fields else b""
        except ValueError as error:
            raise ValueError(f"line {at}: {error}") from None
    return made


def main(arguments):
    if arguments in (["-h"], ["--help"]):
        print(__doc__)
        return 0
    if arguments:
        print("page: it takes no argument: samples/page.py < TEXT > PAGE", file=sys.stderr)
        return 2
    doing = "reading standard input"
    try:
        with open(0, "rb", closefd=False) as text:
            made = page(text.read().decode("utf-8-sig", "backslashreplace"))
        doing = "writing standard output"
        with open(1, "wb", closefd=False) as written:
            written.write(made)
    except ValueError as error:
        print(f"page: {error}", file=sys.stderr)
        return 1
    except OSError as error:
        print(f"page: {doing}: {error.strerror}", file=sys.stderr)
        return 1
    return 0


sys.exit(main(sys.argv[1:]))
