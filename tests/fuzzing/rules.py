"""What the rules say, apart from the program: which texts are expressions and why others are none, what stands in stored records, which
bytes are a script, the script of a large run, and which words are a command."""
import re

from grammar import CLUSTER, INJECT, OTHERS, SPARE, TIMED, fits, quote

TOKENS = {b"C": b"rthnsamMdDyYcxbi", b"N": b"thnsamMdDyYieog", b"S": b"lv"}
LENGTHS = {b"Cr": 10, b"Cc": 29, b"Cx": 1, b"Ni": 18, b"Ne": 6, b"Sv": 2,
           **{c + f: n for c in (b"C", b"N") for f, n in zip((b"t h n s a m M d D y Y".split()), (18, 2, 2, 2, 2, 2, 3, 2, 3, 2, 4))}}
CLASSES = {b"alarm": b"CN", b"notification": b"CN", b"system": b"CS", b"application": b"CS"}


def read_token(kind, text, at):
    """The letters, width and end of a token that begins at a place; else the place of its fault and why."""
    letter, field = text[at + 1:at + 2], text[at + 2:at + 3]
    if not letter or letter not in TOKENS:
        return at + 1, "LoneAt"
    if letter not in CLASSES[kind]:
        return at + 1, "WrongClass"
    if not field or field not in TOKENS[letter]:
        return at + 2, "UnknownToken"
    width, at = b"", at + 3
    while len(width) < 3 and text[at:at + 1].isdigit():
        width += text[at:at + 1]
        if width == b"0" or int(width) > 255:
            return at, "BadWidth"
        at += 1
    return letter + field, int(width) if width else None, at


def read_expression(kind, text):
    """The pieces of an expression, texts and pairs of letters and width; else the place of its fault and why."""
    pieces, at = [], 0
    while at < len(text):
        if text[at:at + 1] == b"@":
            token = read_token(kind, text, at)
            if len(token) == 2:
                return too_long(text, token)
            pieces.append(token[:2])
            at = token[2]
            continue
        if not 32 <= text[at] <= 126:
            return too_long(text, (at, "ControlByte"))
        if not pieces or not isinstance(pieces[-1], bytes):
            pieces.append(b"")
        pieces[-1] += text[at:at + 1]
        at += 1
    return pieces if len(text) <= 1024 else (1024, "TooLong")


def too_long(text, fault):
    return (1024, "TooLong") if len(text) > 1024 and fault[0] >= 1024 else fault


def length_of(token):
    """The length of a fixed token's text; None of a variable one."""
    return token[1] if token[1] is not None else LENGTHS.get(token[0])


def inseparable(pieces, size):
    """The first piece that stands in the way of telling texts apart; None where none does."""
    variable = [number for number, piece in enumerate(pieces, 1) if not isinstance(piece, bytes) and length_of(piece) is None]
    ways = variable[1:2]
    if size > 0 and variable and not (isinstance(pieces[-1], bytes) and not pieces[-1].endswith(b" ")):
        ways.append(len(pieces))
    return min(ways, default=None)


def texts_of(pieces, size, record):
    """The texts of an expression's tokens in a record, or None."""
    fixed = all(isinstance(piece, bytes) or length_of(piece) is not None for piece in pieces)
    parts = [re.escape(piece) if isinstance(piece, bytes) else b"(.*)" if length_of(piece) is None else b"(.{%d})" % length_of(piece)
             for piece in pieces]
    blanks = b" *" if size > 0 and fixed else b""
    content = record[:-1] if fixed or size == 0 else record[:-1].rstrip(b" ")
    found = re.fullmatch(b"".join(parts) + blanks, content, re.S) if record.endswith(b"\n") else None
    return list(found.groups()) if found else None


def records_of(size, data):
    """The records of a file's bytes, and what is left."""
    if size == 0:
        lines = data.split(b"\n")
        return [line + b"\n" for line in lines[:-1]], lines[-1]
    count = len(data) // size
    return [data[k * size:(k + 1) * size] for k in range(count)], data[count * size:]


def scanned(pieces, size, data, token, wanted):
    """What `scan` prints of a file's bytes, or `find` where a token is asked for."""
    lines, letters = [], [piece[0] for piece in pieces if not isinstance(piece, bytes)]
    records, rest = records_of(size, data)
    for number, record in enumerate(records, 1):
        texts = texts_of(pieces, size, record)
        if token is not None and (texts is None or token > len(texts) or texts[token - 1] != wanted):
            continue
        told = b" unreadable" if texts is None else b"".join(b" %s=%s" % (one, quote(text)) for one, text in zip(letters, texts))
        lines.append(b"rec %d%s\n" % (number, told))
    if token is None and rest:
        lines.append(b"rest %d\n" % len(rest))
    return b"".join(lines)


def has_good_sizes(size, most, full):
    """Whether these can be the size of records, the greatest size of files, and what is done with full ones."""
    return (32 <= size <= 16384 and size <= most or size == 0 and 16384 <= most and full != b"wrap") and most <= 2**30


def has_good_options(found):
    """Whether the options of a cluster line make attributes that its three streams may have."""
    for word, kind in ((b"alarm", b"alarm"), (b"ntf", b"notification"), (b"sys", b"system")):
        if not has_good_sizes(found.get(word + b"rec", 256), found.get(word + b"max", 262144), found.get(word + b"full", b"rotate")):
            return False
        if not 1 <= found.get(word + b"rot", 4) <= 128:
            return False
        if isinstance(read_expression(kind, found.get(word + b"fmt", b"@Cr")), tuple):
            return False
    return True


class Grammar:
    """The lines that this program takes, of two servers or of three."""

    def __init__(self, injects, spare=False):
        self.injects, self.spare = injects, spare
        self.forms = OTHERS + [INJECT] * injects + SPARE * spare

    def fault_of(self, line, time):
        """Why a line that is not skipped has no form here, or none; and the time in force behind it."""
        found = fits(CLUSTER, line)
        if found is not None:
            bad = not has_good_options(found) and "grammar" or time is not None and "cluster"
            return bad or None, found[b"time"]
        timed = fits(TIMED, line)
        if timed is None and not any(form.read(line, 0, {}) == len(line) for form in self.forms):
            return "grammar", time
        if time is None:
            return "cluster", time
        if timed:
            return ("time" if timed[b"time"] < time else None), timed[b"time"]
        return None, time

    def judge(self, script):
        """The number of a script's lines; else the text that tells of the least bad one."""
        lines = script.split(b"\n")
        if lines[-1] == b"":
            lines.pop()
        time, count = None, 0
        for number, line in enumerate(lines, 1):
            if line and not line.startswith(b"#"):
                why, time = self.fault_of(line, time)
                if why:
                    return b"script line %d: %s\n" % (number, why.encode())
                count += 1
        return count if count else b"script line %d: cluster\n" % (len(lines) + 1)


def generated(count, seed):
    """The script of a large run."""
    text = ["cluster start=1704067200000000000 queue=2 callbacks=256", "log 1 init A.2.1", "log 1 open system", "ntf 2 init A.1.1", "settle"]
    state = seed % 2**31
    for turn in range(1, count + 1):
        state = (state * 1103515245 + 12345) % 2**31
        drawn = state // 65536
        if turn % 10 == 0:
            text.append(f'ntf 2 send alarm type=0x4001 obj="g" by="g" class=0.0.0 time={drawn} text="t" cause=0 sev={drawn % 6}')
        else:
            text.append(f'log 1 write system inv={turn} flags=0 gen sev={drawn % 7} class=0.0.0 user="g" body="{drawn}"')
        if turn % 16 == 0:
            text.append("settle")
        if turn % 1000 == 0:
            server = "a" if turn // 1000 % 2 else "b"
            text += [f"crash {server}", f"restart {server}", "settle"]
    return ("\n".join(text + ["settle", "servers"]) + "\n").encode()


def command_of(words, further):
    """Whether the words are one of the table's rows, of which these words are in the program or not."""
    def number(word, low, high):
        return re.fullmatch(rb"0|[1-9][0-9]{0,19}", word) and low <= int(word) <= high

    def kind_and_size(kind, size):
        return kind in CLASSES and (size == b"0" or number(size, 32, 16384))
    try:
        [word.decode() for word in words]
    except UnicodeDecodeError:
        return None
    if not words or any(word.startswith(b"-") for word in words):
        return None
    first, *rest = words
    if len(rest) == 0:
        good = first in (b"run", b"check") or first == b"trio" and first in further
    elif len(rest) == 2:
        numbers = number(rest[0], 1, 100000) and number(rest[1], 0, 2**64 - 1)
        good = rest[0] in CLASSES if first == b"expr" else (first == b"gen" or first == b"load" and first in further) and numbers
    elif len(rest) == 3:
        good = first == b"scan" and kind_and_size(rest[0], rest[2])
    else:
        good = len(rest) == 5 and first == b"find" and kind_and_size(rest[0], rest[2]) and number(rest[3], 1, 1024)
    return first if good else None
