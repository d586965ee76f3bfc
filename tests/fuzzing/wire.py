"""The spelling of messages as bytes: whether bytes are a message, else where and why they are none; and messages of any kind."""


class Stop(Exception):
    """Here the bytes stop to be the front of a message."""


class Number:
    """A number of so many bytes in a range, the highest byte first."""

    def __init__(self, width, low=0, high=None):
        self.width, self.low, self.high = width, low, 256**width - 1 if high is None else high

    def read(self, data, at):
        value = 0
        for left in range(self.width - 1, -1, -1):
            byte = data[at:at + 1]
            value = value * 256 + int.from_bytes(byte, "big")
            if not byte or (value + 1) * 256**left <= self.low or value * 256**left > self.high:
                raise Stop(at)
            at += 1
        return value, at

    def make(self, rng):
        low = rng.choice([self.low, min(self.low + 1, self.high), self.high, rng.randint(self.low, self.high)])
        return low.to_bytes(self.width, "big")


class Code:
    """One byte of some."""

    def __init__(self, *codes):
        self.codes = codes

    def read(self, data, at):
        if at >= len(data) or data[at] not in self.codes:
            raise Stop(at)
        return data[at], at + 1

    def make(self, rng):
        return bytes([rng.choice(self.codes)])


class Bytes:
    """A length in two bytes, and so many bytes."""

    def __init__(self, low, high, least, most):
        self.length, self.least, self.most, self.high = Number(2, low, high), least, most, high

    def read(self, data, at):
        count, at = self.length.read(data, at)
        for place in range(at, at + count):
            if place >= len(data) or not self.least <= data[place] <= self.most:
                raise Stop(place)
        return None, at + count

    def make(self, rng):
        count = rng.choice([self.length.low, 1, 2, 5]) if rng.random() < 0.98 else self.high
        return count.to_bytes(2, "big") + bytes(rng.randint(self.least, self.most) for _ in range(count))


class Parts:
    """Parts one after another."""

    def __init__(self, *parts):
        self.parts = parts

    def read(self, data, at):
        for part in self.parts:
            _, at = part.read(data, at)
        return None, at

    def make(self, rng):
        return b"".join(part.make(rng) for part in self.parts)


class Cases:
    """One byte that tells the case, counted from a number, and its parts."""

    def __init__(self, *cases, first=1):
        self.cases, self.first = [Parts(*case) for case in cases], first
        self.code = Code(*range(first, first + len(cases)))

    def read(self, data, at):
        case, at = self.code.read(data, at)
        return self.cases[case - self.first].read(data, at)

    def make(self, rng):
        case = rng.randrange(len(self.cases))
        return bytes([case + self.first]) + self.cases[case].make(rng)


class Many:
    """The count in four bytes, and so many of an element."""

    def __init__(self, element):
        self.count, self.element = Number(4), element

    def read(self, data, at):
        count, at = self.count.read(data, at)
        while count:
            _, at = self.element.read(data, at)
            count -= 1
        return None, at

    def make(self, rng):
        count = rng.choice([0, 0, 1, 2])
        return count.to_bytes(4, "big") + b"".join(self.element.make(rng) for _ in range(count))


def maybe(part):
    return Cases((), (part,), first=0)


U8, U16, U32, U64, I64, FLAG = Number(1), Number(2), Number(4), Number(8), Number(8), Code(0, 1)
CLIENT, COUNT = Number(2, 1, 4096), Number(4, 1)
STATUS = Code(1, 3, 6, 7, 9, 12, 14, 15, 18, 25)
NAME, TEXT = Bytes(1, 256, 32, 126), Bytes(0, 16384, 0, 255)
CLASS = Parts(U32, U16, U16)
VALUE = Cases((I64,), (NAME,), (TEXT,), (TEXT,))
PAIRS = Many(Parts(U16, VALUE))
BODY = Cases((U16, PAIRS), (U16, Many(Parts(U16, VALUE, maybe(VALUE)))), (U16, Many(Parts(U16, U16, maybe(U16)))), (U16, U16),
             (U16, U16, VALUE, VALUE, VALUE))
NOTE = Parts(U64, U16, NAME, NAME, CLASS, I64, Many(U64), TEXT, PAIRS, BODY)
FILTER = Parts(Many(U16), Many(NAME), Many(NAME), Many(CLASS), Many(U16), Many(U16), Many(U16))
FILTERS = Parts(*[maybe(FILTER)] * 5)
STREAM = Cases((), (), (), (NAME,))
ATTRS = Parts(TEXT, TEXT, U64, U32, U8, Code(1, 2, 3), U32, TEXT)
HEADER = Cases((U64, U16, NAME, NAME, CLASS, I64), (CLASS, NAME, U16))
CALL = Cases((), (STREAM, maybe(ATTRS)), (STREAM, U64, U32, I64, HEADER, TEXT), (STREAM,), (), (), (NOTE,), (U32, FILTERS), (U32,),
             (U32, I64, FILTERS), (U32,), (), (), (STREAM, U32))
MARK = Parts(U64, U32)
REPLY = Cases((STATUS,), (), (U64,), (NOTE,), (FLAG, MARK))
ENTRY = Cases((CLIENT, COUNT, I64, CALL), (CLIENT, COUNT, COUNT, I64))
LOST = Many(Parts(U16, U64))
CONTENT = Cases((NOTE,), (LOST,))
STATE = Parts(STREAM, ATTRS, U32, U32, Many(Parts(I64, maybe(I64), U32, U64)))
SAVED = Parts(U64, I64, U64, U32, Many(U16), Many(U16), Many(Parts(CLIENT, COUNT, Many(REPLY))), Many(Parts(STATE, Many(U16), MARK)),
              Many(Parts(U32, NOTE)), Many(Parts(CLIENT, COUNT, U32, FILTERS, U32, Many(CONTENT), LOST)),
              Many(Parts(CLIENT, FILTERS, I64, U64, FLAG)))
MESSAGE = Cases((CLIENT, COUNT, CALL), (CLIENT, COUNT, REPLY), (CLIENT, COUNT, COUNT, CONTENT), (CLIENT, COUNT, COUNT), (U64, ENTRY), (U64,), (SAVED,),
                (U64,))


def judged(data):
    """None where the bytes are a message; else the place where they stop to be the front of one, and why."""
    try:
        _, end = MESSAGE.read(data, 0)
    except Stop as stop:
        place = stop.args[0]
        return place, "short" if place == len(data) else "value"
    return None if end == len(data) else (end, "trailing")
