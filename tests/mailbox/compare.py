"""The mailbox of the port's archive beside that of Python's email package.

Python takes a value for a mailbox if its header `Sender` has one address and no defect. A value that one of the two takes and
the other does not must be of a class of docs/DIFFERENCES.md, each given here by a test and by a smallest value, which must
differ as it says.
"""

import itertools
import random
import subprocess
import sys
from email.policy import default


def python(value):
    """The address, or None."""
    try:
        header = default.header_factory("Sender", value.decode("utf-8", "surrogateescape"))
        if header.defects or len(header.addresses) != 1:
            return None
        return header.addresses[0].addr_spec.encode("utf-8", "surrogateescape")
    except Exception:  # some values make the parser raise: it has no answer for them
        return None


def ours(program, values):
    """For each value its code and numbers."""
    lines = "".join(value.hex() + "\n" for value in values)
    answers = subprocess.run([program], input=lines, capture_output=True, text=True, check=True).stdout
    return [[int(word) for word in line.split()] for line in answers.splitlines()]


def bare(value):
    """The value without comments and without white space, each quoted string as one quote."""
    kept, depth, quoted, at = bytearray(), 0, False, 0
    while at < len(value):
        byte = value[at : at + 1]
        if byte == b"\\" and (quoted or depth):
            at += 1
        elif quoted:
            quoted = byte != b'"'
        elif byte == b"(":
            depth += 1
        elif byte == b")" and depth:
            depth -= 1
        elif not depth and byte not in b" \t\r\n":
            kept += byte
            quoted = byte == b'"'
        at += 1
    return bytes(kept)


def is_utf_8(value):
    try:
        value.decode("utf-8")
        return True
    except UnicodeDecodeError:
        return False


def local_part(value):
    return bare(value).rpartition(b"<")[2].partition(b"@")[0]


# The class, its test, and a smallest value.
PYTHON_ALONE = [
    ("no angle brackets", lambda value, code: b"<" not in bare(value), b"a@a"),
    ("a comma behind", lambda value, code: bare(value).endswith(b","), b"<a@a>,"),
    ("a group", lambda value, code: b":" in bare(value), b"a:<a@a>;"),
    ("a quoted string before the @", lambda value, code: b'"' in local_part(value), b'<""@a>'),
    ("a domain in square brackets", lambda value, code: b"[" in bare(value), b"<a@[]>"),
    ("a ninth comment inside eight", lambda value, code: code == 15, b"<a@a>" + 9 * b"(" + 9 * b")"),
    ("CR or LF as white space", lambda value, code: b"\r" in value or b"\n" in value, b" \n<a@a>"),
    ("an encoded word", lambda value, code: b"=?" in value, b"=?l1?q?.?= <a@a>"),
]
ARCHIVE_ALONE = [
    ("a byte from 128 up before the @", lambda value: max(local_part(value), default=0) >= 128, b"<\xc2\x80@a>"),
    ("bytes that are no UTF-8", lambda value: not is_utf_8(value), b"<a@\x80>"),
    ("what is no encoded word, but begins as one", lambda value: b"=?" in value, b"=?a?b?c?=<a@a>"),
]


class Values:
    """Values drawn from the grammar, and the same with a byte or two changed."""

    def __init__(self, seed):
        self.random = random.Random(seed)

    def some(self, choices, most, least=0):
        return b"".join(self.random.choice(choices) for _ in range(self.random.randint(least, most)))

    def inside(self, depth):
        pieces = [b"x", b" ", b'"', b"<", b"@", b".", b"\xc3\xa9", b"\\(", b"\\)", b"\\\\"]
        if depth < 10 and self.random.random() < 0.4:
            pieces += 3 * [b"(" + self.inside(depth + 1) + b")"]
        return self.some(pieces, 2)

    def gap(self):
        return self.some([b"", b"", b" ", b"\t", b"(" + self.inside(1) + b")"], 2)

    def atom(self):
        return self.some([b"a", b"Z", b"9", b"!", b"=", b"?", b"-", b"`", b"\xc3\xa9"], 3, 1)

    def quoted(self):
        return b'"' + self.some([b"a", b" ", b".", b"<", b"(", b'\\"', b"\\\\", b"\xc3\xa9", b"\t"], 3) + b'"'

    def dots(self):
        return b".".join(self.atom() for _ in range(self.random.randint(1, 2)))

    def mailbox(self):
        words = b"".join(self.random.choice([self.atom, self.quoted])() + self.gap() for _ in range(self.random.randint(0, 2)))
        pieces = [words + b"<", self.dots(), b"@", self.dots(), b">", b""]
        return b"".join(self.gap() + piece for piece in pieces)

    def changed(self, value):
        value = bytearray(value)
        for _ in range(self.random.randint(1, 2)):
            at = self.random.randint(0, len(value))
            value[at : at + self.random.randint(0, 1)] = bytes([self.random.choice(b'a. "()<>@,:;[]\\\t\n\r\x00\x7f\xe9=')])
        return bytes(value)

    def draw(self, count):
        for _ in range(count // 2):
            value = self.mailbox()
            yield value
            yield self.changed(value)


def short():
    """All strings of up to three of these bytes, by themselves and in each gap of a mailbox."""
    for count in range(4):
        for letters in itertools.product([b"a", b" ", b'"', b"(", b")", b"<", b">", b"@", b".", b"\\", b","], repeat=count):
            text = b"".join(letters)
            yield text
            for at in range(6):
                yield b"<a@a>"[:at] + text + b"<a@a>"[at:]


def main():
    program = sys.argv[1]
    seed = int(sys.argv[2]) if len(sys.argv) > 2 else 1
    count = int(sys.argv[3]) if len(sys.argv) > 3 else 20000
    smallest = [value for _, _, value in PYTHON_ALONE + ARCHIVE_ALONE]
    values = list(dict.fromkeys([*smallest, *short(), *Values(seed).draw(count)]))
    both = apart = failed = 0
    found = {}
    for value, answer in zip(values, ours(program, values)):
        theirs = python(value)
        if answer[0] == 0 and theirs is not None:
            both += 1
            if bare(value[answer[3] : answer[4]]) != theirs:
                failed += 1
                print("tests/mailbox: the address of %r: %r, Python has %r" % (value, answer, theirs))
        elif (answer[0] == 0) != (theirs is not None):
            apart += 1
            if answer[0] == 0:
                names = [name for name, test, _ in ARCHIVE_ALONE if test(value)]
            else:
                names = [name for name, test, _ in PYTHON_ALONE if test(value, answer[0])]
            if not names:
                failed += 1
                print("tests/mailbox: %r is of no class: %r, Python has %r" % (value, answer, theirs))
            for name in names:
                found.setdefault(name, value)
    for name, _, value in PYTHON_ALONE + ARCHIVE_ALONE:
        if found.get(name) != value:
            failed += 1
            print("tests/mailbox: %s: %r does not differ" % (name, value))
    print(
        "tests/mailbox: %d values, %d mailboxes of both with the same address, %d of one alone, in %d classes"
        % (len(values), both, apart, len(found))
    )
    sys.exit(failed != 0)


main()
