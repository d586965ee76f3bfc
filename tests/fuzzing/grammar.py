"""The grammar of scripts, as forms: each reads a text from a place on and answers the place behind it, or none; and
makes a text of its own, mostly one that it reads."""
import re

LAST_TIME = 9 * 10**18
LAST_INT = 2**63 - 1
KINDS = (b"objects", b"attributes", b"states", b"alarm", b"security")


class Lit:
    """These very bytes."""

    def __init__(self, text):
        self.text = text

    def read(self, text, at, _):
        return at + len(self.text) if text.startswith(self.text, at) else None

    def make(self, _):
        return self.text


class Number:
    """A decimal number without a leading zero, in a range; a signed one may have a minus sign before it."""

    DIGITS = re.compile(rb"-?(?:0|[1-9][0-9]*)(?![0-9])")

    def __init__(self, low, high, usual=(), signed=False):
        self.low, self.high, self.usual, self.signed = low, high, usual, signed
        self.value = None

    def read(self, text, at, _):
        found = self.DIGITS.match(text, at)
        if not found or found.group().startswith(b"-") and not self.signed or found.end() - at > 20:
            return None
        self.value = int(found.group())
        return found.end() if self.low <= self.value <= self.high else None

    def make(self, rng):
        kind = rng.random()
        if self.usual and kind < 0.8:
            return b"%d" % rng.choice(self.usual)
        if kind < 0.82:
            return rng.choice([b"%d" % (self.low - 1), b"%d" % (self.high + 1), b"00", b"-0", b"+1", b"", b"1e3", b"%d" % 2**64])
        if kind < 0.9:
            return b"%d" % rng.choice([self.low, self.high, min(self.low + 1, self.high), max(self.high - 1, self.low)])
        return b"%d" % rng.randint(self.low, min(self.high, self.low + 10) if kind < 0.97 else self.high)


class Pattern:
    """What a regular expression matches, made as one of some texts."""

    def __init__(self, pattern, made):
        self.pattern, self.made = re.compile(pattern, re.S), made
        self.value = None

    def read(self, text, at, _):
        found = self.pattern.match(text, at)
        self.value = found and found.group()
        return found.end() if found else None

    def make(self, rng):
        return rng.choice(self.made)


class Quoted:
    """A text between quotation marks, of at most so many bytes; a name has at least one, and printable ones alone."""

    WHOLE = re.compile(rb'"((?:[ !#-\[\]-~]|\\["\\]|\\x[0-9a-f]{2})*)"')
    ESCAPE = re.compile(rb"\\(?:x([0-9a-f]{2})|(.))")

    def __init__(self, usual, most=16384, name=False):
        self.usual, self.most, self.name = usual, most, name
        self.value = None

    def read(self, text, at, _):
        found = self.WHOLE.match(text, at)
        if not found:
            return None
        self.value = unescape(found.group(1))
        if len(self.value) > self.most or self.name and not re.fullmatch(rb"[ -~]+", self.value):
            return None
        return found.end()

    def make(self, rng):
        kind = rng.random()
        if kind < 0.9:
            return quote(rng.choice(self.usual))
        if kind < 0.93:
            return b'"' + rng.choice([b"\\x00", b"\\n", b"\\xFF", b'"', b"\\", b"\x7f", b"\x1f", b"\xff", b"\\x2", b"\\\\", b'\\"']) + b'"'
        if kind < 0.999:
            return quote(any_bytes(rng, rng.choice([0, 1, 2, 8, 64, 65])))
        return quote(b"a" * rng.choice([self.most - 1, self.most, self.most + 1]))


class Chain:
    """Forms one after another."""

    def __init__(self, *forms):
        self.forms = [Lit(form) if isinstance(form, bytes) else form for form in forms]

    def read(self, text, at, found):
        for form in self.forms:
            at = form.read(text, at, found)
            if at is None:
                return None
        return at

    def make(self, rng):
        return b"".join(form.make(rng) for form in self.forms)


class Maybe(Chain):
    """Forms one after another, or nothing."""

    def read(self, text, at, found):
        behind = super().read(text, at, found)
        return at if behind is None else behind

    def make(self, rng):
        return super().make(rng) if rng.random() < 0.4 else b""


class OneOf:
    """The first of some forms that stands here."""

    def __init__(self, *forms):
        self.forms = [Lit(form) if isinstance(form, bytes) else form for form in forms]

    def read(self, text, at, found):
        for form in self.forms:
            behind = form.read(text, at, found)
            if behind is not None:
                return behind
        return None

    def make(self, rng):
        return rng.choice(self.forms).make(rng)


class Listed:
    """One or more of a form, with commas between them."""

    def __init__(self, form):
        self.form = form

    def read(self, text, at, found):
        at = self.form.read(text, at, found)
        while at is not None and text.startswith(b",", at):
            at = self.form.read(text, at + 1, found)
        return at

    def make(self, rng):
        count = rng.choice([1, 1, 1, 2, 3]) if rng.random() < 0.98 else rng.choice([15, 16, 17])
        return b",".join(self.form.make(rng) for _ in range(count))


class Noted:
    """A number, a word or a quoted text whose value is noted under a name."""

    def __init__(self, name, form):
        self.name, self.form = name, form

    def read(self, text, at, found):
        at = self.form.read(text, at, found)
        if at is not None:
            found[self.name] = self.form.value
        return at

    def make(self, rng):
        return self.form.make(rng)


def unescape(text):
    return Quoted.ESCAPE.sub(lambda one: bytes([int(one.group(1), 16)]) if one.group(1) else one.group(2), text)


def quote(text):
    """The bytes as scripts quote them."""
    return b'"' + b"".join(b"\\" + bytes([b]) if b in b'"\\' else bytes([b]) if 32 <= b <= 126 else b"\\x%02x" % b for b in text) + b'"'


def any_bytes(rng, count):
    return bytes(rng.choice(b'aA0 ,:="\\@\n\x00\x7f\x80\xff') if rng.random() < 0.3 else rng.randrange(256) for _ in range(count))


U8, U16, U32, U64 = (Number(0, 2**bits - 1, (0, 1, 2, 3, 5, 7)) for bits in (8, 16, 32, 64))
CLIENT = Number(1, 4096, (1, 1, 1, 2, 2, 3))
PLACE = Number(1, 2**64 - 1, tuple(range(1, 40)))
TIME = Number(-(2**63), LAST_INT, (0, 5, 100, 100, 1704067200000000000), signed=True)
MOMENT = Number(0, LAST_TIME, (1704067200000000000, 1704067201000000000, 1704067260000000000), signed=True)
NAME = Quoted((b"u", b"node1", b"safApp=web", b"o" * 30, b"n" * 256), 256, name=True)
TEXT = Quoted((b"x", b"", b"one text", b"a\x00b", b"q\"\\", b"t" * 30, b"t" * 1024, b"t" * 1025))
EXPRESSION = Quoted((b"@Cr @Cb", b"@Cb", b"@Cr @Ch:@Cn @Sv @Sl \"@Cb\"", b"@Cr @Ct @Nt @Ne6 @No30 @Ng30 \"@Cb\"", b"@Cx @Cb", b"", b"@Sv", b"@Ne",
                     b"@Cb256", b"@"))
TYPE = Pattern(rb"0x[0-9a-f]{4}", [b"0x4001", b"0x4001", b"0x1001", b"0x2003", b"0x3001", b"0x5005", b"0x4006", b"0x0000", b"0xffff",
                                   b"0xABCD", b"0x401"])
CLASS = Chain(U32, b".", U16, b".", U16)
FULL = Pattern(rb"wrap|halt|rotate", [b"wrap", b"halt", b"rotate"])
SERVER = OneOf(b"a", b"b")
STREAM = OneOf(b"alarm", b"notification", b"system", Chain(b"app:", Quoted((b"w", b"w", b"x"), 256, name=True)))
VALUE = OneOf(Chain(b"int:", TIME), Chain(b"name:", NAME), Chain(b"text:", TEXT), Chain(b"bin:", TEXT))
PAIRS = Listed(Chain(U16, b":", VALUE))
CHANGES = Listed(Chain(U16, b":", VALUE, Maybe(b"<", VALUE)))
STATES = Listed(Chain(U16, b":", U16, Maybe(b"<", U16)))
HEADER = OneOf(
    Chain(b"gen sev=", U16, b" class=", CLASS, b" user=", NAME),
    Chain(b"ntfh id=", U64, b" type=", TYPE, b" obj=", NAME, b" by=", NAME, b" class=", CLASS, Maybe(b" evtime=", TIME)))
FIELDS = {
    b"objects": Chain(b" source=", U16, Maybe(b" attrs=", PAIRS)),
    b"attributes": Chain(b" source=", U16, Maybe(b" changes=", CHANGES)),
    b"states": Chain(b" source=", U16, Maybe(b" changes=", STATES)),
    b"alarm": Chain(b" cause=", U16, b" sev=", U16),
    b"security": Chain(b" cause=", U16, b" sev=", U16, b" detector=", VALUE, b" user=", VALUE, b" provider=", VALUE),
}


def note(kind):
    return Chain(kind, b" type=", TYPE, b" obj=", NAME, b" by=", NAME, b" class=", CLASS, Maybe(b" time=", TIME), Maybe(b" corr=", Listed(U64)),
                 b" text=", TEXT, Maybe(b" info=", PAIRS), FIELDS[kind])


def group(kind):
    lists = ((b"types", TYPE), (b"objs", NAME), (b"bys", NAME), (b"classes", CLASS), (b"sources", U16), (b"causes", U16), (b"sevs", U16))
    return Maybe(b" filter ", kind, *(Maybe(b" " + name + b"=", Listed(form)) for name, form in lists))


FILTERS = Chain(*(group(kind) for kind in KINDS))
NOTE = OneOf(*map(note, KINDS))
VERSION = Chain(Pattern(rb"[A-Z]", [b"A", b"A", b"A", b"B", b"Z", b"a", b"AA"]), b".", U8, b".", U8)
CREATE = Maybe(b" create file=", Quoted((b"f", b"app1", b"f" * 64, b"f" * 65, b"a/b")), b" path=", Quoted((b".", b"web", b"..", b"")),
               b" max=", Number(0, 2**64 - 1, (32, 64, 64, 100, 16383, 16384, 2**30, 2**30 + 1)),
               b" rec=", Number(0, 2**32 - 1, (0, 0, 32, 32, 64, 16384, 16385, 31)),
               b" ha=", U8, b" full=", FULL, b" rot=", Number(0, 2**32 - 1, (1, 2, 128, 129, 0)), Maybe(b" fmt=", EXPRESSION))


def options(word):
    def one(name, form):
        return Maybe(b" " + word + name + b"=", Noted(word + name, form))
    return Chain(one(b"fmt", EXPRESSION), one(b"rec", Number(0, 2**32 - 1, (0, 32, 64, 256, 16384, 16385, 31))),
                 one(b"max", Number(0, 2**64 - 1, (64, 256, 1024, 16383, 16384, 2**30, 2**30 + 1))), one(b"full", FULL), one(b"rot", Number(0, 2**32 - 1, (1, 2, 128, 129, 0))))


CLUSTER = Chain(b"cluster start=", Noted(b"time", MOMENT), b" queue=", Number(1, 256, (1, 2, 4)), b" callbacks=", Number(1, 256, (1, 2, 8, 16)),
                options(b"alarm"), options(b"ntf"), options(b"sys"))
TIMED = Chain(b"time ", Noted(b"time", MOMENT))
OTHERS = [
    Chain(b"log ", CLIENT, b" ", OneOf(
        Chain(b"init ", VERSION), Chain(b"open ", STREAM, CREATE), Chain(b"close ", STREAM), b"fini",
        Chain(b"filter ", STREAM, b" mask=", Number(0, 2**32 - 1, (0, 1, 8, 62, 64, 126, 127, 127, 128))),
        Chain(b"write ", STREAM, b" inv=", U64, b" flags=", Number(0, 2**32 - 1, (0, 1, 1, 2)), Maybe(b" time=", TIME), b" ", HEADER, b" body=",
              TEXT))),
    Chain(b"ntf ", CLIENT, b" ", OneOf(
        Chain(b"init ", VERSION), Chain(b"send ", NOTE), Chain(b"subscribe ", U32, FILTERS), Chain(b"unsubscribe ", U32),
        Chain(b"reader mode=", Number(0, 2**32 - 1, tuple(range(9))), b" value=", TIME, FILTERS), Chain(b"read ", Number(0, 2**32 - 1, (1, 2, 3))),
        b"endread", b"fini")),
    Chain(b"deliver ", PLACE), Chain(b"resend ", CLIENT), Lit(b"mirror"), Lit(b"ack"), Lit(b"work"), Lit(b"push"), Lit(b"settle"),
    Chain(b"crash ", SERVER), Chain(b"arm ", SERVER, b" ", Number(1, 2**64 - 1, (1, 2, 3, 4, 5, 12))), Lit(b"disarm"), Chain(b"restart ", SERVER),
    Chain(b"dispatch ", CLIENT, OneOf(b" one", Chain(b" all workers=", Number(1, 8, (1, 4, 8))))), Lit(b"servers"), Lit(b"files"),
    Chain(b"cat ", Quoted((b"saLogSystem.cfg", b"saLogSystem_20240101_000002.log", b"x", b"", b"../x", b"a/b")))]
# The further lines of three servers.
ANY_SERVER = OneOf(b"a", b"b", b"c")
SPARE = [Lit(b"crash c"), Chain(b"arm c ", Number(1, 2**64 - 1, (1, 2, 3, 4, 5, 12))), Lit(b"restart c"), Chain(b"mirror ", ANY_SERVER),
         Chain(b"ack ", ANY_SERVER)]
REQUEST = b"\x01\x00\x01\x00\x00\x00\x01\x01"
INJECT = Chain(b"inject ", Quoted((b"", b"\x09", REQUEST[:7], REQUEST, REQUEST + b"\x00")))


def fits(form, text):
    """What is noted of a text that is of the form as a whole, else None."""
    found = {}
    return found if form.read(text, 0, found) == len(text) else None
