"""A slow second reading of how far bytes are the front of a JSON text (RFC 8259), in UTF-8, with surrogates in pairs alone, and with arrays
and objects nested at most 127 deep: how many of them some such text begins with.
"""

from jobs import MOST_LEVELS

BLANKS, DIGITS, HEX = b" \t\n\r", b"0123456789", b"0123456789abcdefABCDEF"
# What may stand second in a character of UTF-8 behind these first bytes; behind the others that begin one, 0x80 to 0xBF.
SECOND = {0xE0: (0xA0, 0xBF), 0xED: (0x80, 0x9F), 0xF0: (0x90, 0xBF), 0xF4: (0x80, 0x8F)}


class Stopped(Exception):
    """A byte can't stand at a place, or the bytes end there."""


class Bytes:
    """The bytes from a place on."""

    def __init__(self, data):
        self.data, self.at = data, 0

    def next(self):
        return self.data[self.at] if self.at < len(self.data) else None

    def is_in(self, them):
        byte = self.next()
        return byte is not None and byte in them

    def take(self, them):
        """Takes one byte of these."""
        if not self.is_in(them):
            raise Stopped
        self.at += 1
        return self.data[self.at - 1]

    def take_all(self, them):
        while self.is_in(them):
            self.at += 1

    def take_word(self, word):
        for it in word:
            self.take(bytes([it]))


def text(it):
    it.take(b'"')
    while not it.is_in(b'"'):
        if it.is_in(b"\\"):
            escape(it)
        else:
            character(it)
    it.take(b'"')


def character(it):
    first = it.take(bytes([*range(0x20, 0x80), *range(0xC2, 0xF5)]))
    if first < 0x80:
        return
    least, most = SECOND.get(first, (0x80, 0xBF))
    it.take(bytes(range(least, most + 1)))
    for _ in range((first >= 0xE0) + (first >= 0xF0)):
        it.take(bytes(range(0x80, 0xC0)))


def escape(it):
    it.take(b"\\")
    if it.take(b'"\\/bfnrtu') != ord("u"):
        return
    if it.take(HEX) not in b"dD":
        for _ in range(3):
            it.take(HEX)
        return
    # The second half of a pair stands behind the first, and nowhere else.
    is_first = it.take(b"0123456789abAB") in b"89abAB"
    for _ in range(2):
        it.take(HEX)
    if is_first:
        it.take_word(b"\\u")
        it.take(b"dD")
        it.take(b"cdefCDEF")
        for _ in range(2):
            it.take(HEX)


def number(it):
    if it.is_in(b"-"):
        it.take(b"-")
    if it.take(DIGITS) != ord("0"):
        it.take_all(DIGITS)
    if it.is_in(b"."):
        it.take(b".")
        it.take(DIGITS)
        it.take_all(DIGITS)
    if it.is_in(b"eE"):
        it.take(b"eE")
        if it.is_in(b"+-"):
            it.take(b"+-")
        it.take(DIGITS)
        it.take_all(DIGITS)


def value(it, levels):
    it.take_all(BLANKS)
    if it.is_in(b"[{") and levels == MOST_LEVELS:
        raise Stopped
    for first, read in ((b'"', text), (b"-0123456789", number), (b"t", word(b"true")), (b"f", word(b"false")), (b"n", word(b"null"))):
        if it.is_in(first):
            return read(it)
    return group(it, it.take(b"[{") == ord("["), levels + 1)


def word(them):
    return lambda it: it.take_word(them)


def group(it, is_array, levels):
    end = b"]" if is_array else b"}"
    it.take_all(BLANKS)
    if not it.is_in(end):
        item(it, is_array, levels)
        while it.is_in(b","):
            it.take(b",")
            item(it, is_array, levels)
    it.take(end)


def item(it, is_array, levels):
    if not is_array:
        it.take_all(BLANKS)
        text(it)
        it.take_all(BLANKS)
        it.take(b":")
    value(it, levels)
    it.take_all(BLANKS)


def front(data):
    """How many of the bytes are the front of a JSON text."""
    it = Bytes(data)
    try:
        value(it, 0)
        it.take_all(BLANKS)
    except Stopped:
        pass
    return it.at
