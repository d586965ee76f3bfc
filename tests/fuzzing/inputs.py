"""Inputs of the program: made from what stands in the repository, and from the grammar."""
import glob
import importlib.machinery
import os
import re
import sys

from grammar import CLUSTER, LAST_TIME, TIMED, any_bytes, quote
from rules import CLASSES, inseparable, length_of, read_expression, records_of, texts_of
from wire import MESSAGE

BEGINS = [b"", b" alarmrec=64 alarmmax=64 alarmrot=1", b" alarmrec=64 alarmmax=128 alarmrot=2 ntfrec=64 ntfmax=64 ntffull=halt",
          b' sysfmt="@Cr @Cb" sysrec=32 sysmax=64 sysfull=wrap', b" alarmrec=64 alarmmax=192 alarmfull=wrap sysrec=64 sysmax=64 sysfull=halt"]
# Records of size 0, with lines that fill files of these.
UNSIZED = [b' sysfmt="@Cb" sysrec=0 sysmax=16384 sysrot=2', b' alarmfmt="@Cr @Cb" alarmrec=0 alarmmax=16384 alarmrot=1 sysrec=0 sysmax=16384 sysfull=halt',
           b" alarmrec=0 alarmmax=16384 alarmfull=halt ntfrec=0 ntfmax=16385 sysfmt=\"@Cx@Cb\" sysrec=0 sysmax=20000 sysrot=1"]
LONG = [b'log 1 write system inv=1 flags=1 gen sev=6 class=0.0.0 user="u" body="%s"' % (b"y" * count) for count in (0, 5000, 8190, 8191, 16382, 16383)] + [
    b'log 1 write alarm inv=1 flags=0 ntfh id=1 type=0x4001 obj="o" by="b" class=0.0.0 body="%s"' % (b"z" * count) for count in (0, 8000, 16300)] + [
        b'ntf 2 send alarm type=0x4001 obj="o" by="b" class=0.0.0 time=%d text="%s" cause=1 sev=1' % (time, b"t" * 1024) for time in (3, 5)] + [
            b"log 1 open alarm", b'log 1 open app:"w" create file="f" path="web" max=16384 rec=0 ha=0 full=rotate rot=2 fmt="@Cb"',
            b'log 1 write app:"w" inv=1 flags=1 gen sev=6 class=0.0.0 user="u" body="%s"' % (b"w" * 9000)]
OPENING = [b"log 1 init A.2.1", b"log 1 open system", b"ntf 1 init A.1.1", b"ntf 2 init A.1.1", b"ntf 1 subscribe 9 filter alarm filter security", b"settle"]
STEPS = [b"settle", b"settle", b"dispatch 1 all workers=3", b"dispatch 1 one", b"crash a", b"restart a", b"crash b", b"restart b", b"arm a 1", b"arm a 3",
         b"arm b 2", b"arm b 9", b"disarm", b"push", b"work", b"work", b"mirror", b"mirror", b"ack", b"ack", b"resend 1", b"resend 2", b"files",
         b"servers", b"deliver 1"] + [b"deliver %d" % place for place in range(5, 30)]
# Steps of three servers: those that go down and join, in a write and between.
SPARE_STEPS = [b"crash c", b"restart c", b"arm c 1", b"arm c 3", b"mirror a", b"mirror b", b"mirror c", b"mirror c", b"ack a", b"ack b", b"ack c",
               b"crash a", b"crash b", b"restart a", b"restart b", b"deliver 4", b"deliver 6"]
USUAL = [b'log 1 write system inv=1 flags=1 gen sev=6 class=0.0.0 user="u" body="x"', b'log 1 write system inv=2 flags=0 gen sev=0 class=1.2.3 user="v" body=""',
         b'ntf 2 send alarm type=0x4001 obj="o" by="b" class=0.0.0 time=5 text="t" cause=1 sev=1', b"ntf 1 read 1", b"ntf 1 read 2", b"ntf 1 endread",
         b'ntf 2 send alarm type=0x4002 obj="o" by="b" class=0.0.0 time=3 text="t" cause=1 sev=1',
         b'ntf 2 send security type=0x5001 obj="o" by="b" class=0.0.0 text="t" cause=1 sev=1 detector=int:1 user=name:"u" provider=text:"p"',
         b'ntf 1 send objects type=0x1001 obj="o" by="b" class=0.0.0 text="t" source=1 attrs=7:bin:"\\x00"',
         b'ntf 1 subscribe 3 filter objects sources=1 filter alarm causes=1,2 sevs=1', b"ntf 1 unsubscribe 3", b"ntf 1 unsubscribe 9", b"ntf 1 fini",
         b"ntf 1 init A.1.0", b"log 1 fini", b"log 1 init A.1.9", b"log 1 open system", b"log 1 close system", b"log 2 init A.2.0",
         b'log 1 open app:"w" create file="f" path="web" max=64 rec=32 ha=0 full=rotate rot=2 fmt="@Cr @Cb"', b'log 2 open app:"w"', b'log 2 close app:"w"',
         b'log 1 open app:"w" create file="f" path="web" max=64 rec=32 ha=0 full=wrap rot=2', b'log 1 close app:"w"', b"log 1 open alarm",
         b'log 1 write app:"w" inv=1 flags=1 gen sev=6 class=0.0.0 user="u" body="x"', b"ntf 1 subscribe 9 filter alarm filter security",
         b'log 1 write alarm inv=1 flags=0 ntfh id=1 type=0x4001 obj="o" by="b" class=0.0.0 body="x"',
         b'cat "web/f.cfg"', b'cat "saLogSystem_20240101_000002.log"', b'cat "web"', b"log 1 filter system mask=8"] + [
             b"ntf 1 reader mode=%d value=%d filter alarm%s" % (mode, value, more) for mode in range(1, 8) for value in (3, 4)
             for more in (b"", b" filter security")]
# Masks of streams, set and seen by two clients.
MASKED = [b"log %d filter system mask=%d" % pair for pair in ((1, 8), (1, 64), (2, 63), (2, 127), (2, 128))] + [
    b'log 2 filter app:"w" mask=62', b'log 1 filter app:"\\x77" mask=127', b"log 1 filter alarm mask=1", b"log 2 init A.2.1", b"log 2 open system",
    b'log 2 write system inv=5 flags=1 gen sev=3 class=0.0.0 user="u" body="y"', b"settle", b"settle", b"dispatch 1 one", b"dispatch 2 all workers=2"]
TOP = os.path.dirname(os.path.dirname(os.path.dirname(os.path.abspath(__file__))))


class Inputs:
    """Makes inputs from what stands in the repository, and from the grammar."""

    BOUNDS = [b"%d" % (bound + step) for bound in (0, 1, 8, 32, 64, 128, 255, 256, 1024, 4096, 16384, 65535, 2**30, 2**31, 2**32, 2**63, 2**64,
                                                   LAST_TIME) for step in (-1, 0, 1)] + [b"-0", b"00", b"+1", b"0x1", b"", b"1" * 40]

    def __init__(self, grammar, spare=None):
        self.grammar, self.spare = grammar, spare and Inputs(spare)
        self.steps = STEPS + SPARE_STEPS * 2 if grammar.spare else STEPS
        bench = os.path.join(TOP, "bench")
        sys.path.insert(0, bench)
        play = importlib.machinery.SourceFileLoader("play", os.path.join(bench, "play")).load_module()
        folders = [("tests", "scripts"), ("examples",)] + [("tests", "scripts", "trio")] * 3 * grammar.spare
        paths = sorted(path for folder in folders for path in glob.glob(os.path.join(TOP, *folder, "*.ais")))
        self.scripts = [read_file(path) for path in paths]
        self.scripts += ["".join(line + "\n" for line in play.script_of(40, called, False)).encode() for called in (False, True)]
        self.scripts = [script for script in self.scripts if len(script) < 6000]
        logs = sorted(glob.glob(os.path.join(TOP, "tests", "scripts", "*.files", "**", "*.log"), recursive=True))
        self.records = [data for data in map(read_file, logs) if 0 < len(data) < 6000]

    def made(self, rng):
        """Lines made from the grammar, most of which it takes: what they begin with lets calls do something."""
        usual, begins = rng.choice([(USUAL, BEGINS)] * 3 + [(USUAL + LONG * 12, UNSIZED), (USUAL + MASKED * 12, BEGINS)])
        lines = [CLUSTER.make(rng)] if rng.random() < 0.3 else [
            b"cluster start=1704067200000000000 queue=%d callbacks=%d" % (rng.choice([1, 2, 16]), rng.choice([1, 8, 64])) + rng.choice(begins)]
        if rng.random() < 0.9:
            lines += OPENING
        count = rng.choice([1, 8, 20, 40, 60])
        while len(lines) < count:
            kind = rng.random()
            line = rng.choice(usual if kind < 0.75 - self.grammar.spare * 0.25 else self.steps) if kind < 0.9 else TIMED.make(rng) if kind < 0.92 else rng.choice(self.grammar.forms).make(rng)
            line = self.injected(rng) if self.grammar.injects and rng.random() < 0.05 else line
            lines += [line] * (rng.choice([1, 1, 2, 3]) if rng.random() < 0.98 else 34)
        return lines + [b"settle", b"files"] * (rng.random() < 0.5)

    def injected(self, rng):
        """A line that injects a message, or mostly one with a byte changed, or cut, or with more behind it; or the front of a reply."""
        text = MESSAGE.make(rng)[:3000] if rng.random() < 0.8 else b"\x02\x00\x01\x00\x00\x00" + bytes([rng.randrange(1, 6)])
        return b"inject " + quote(text if rng.random() < 0.2 else self.changed(rng, text)[:4000])

    def whole(self, lines):
        """The lines that are good at their place."""
        time, good = None, []
        for line in lines:
            why, behind = self.grammar.fault_of(line, time)
            if not why:
                good.append(line)
                time = behind
        return good

    def script(self, rng, whole):
        """A script, or nearly one; in most cases one where it is to be a whole one."""
        if rng.random() < 0.5:
            text = rng.choice(self.scripts)
        else:
            lines = self.made(rng)
            text = b"\n".join(self.whole(lines) if rng.random() < whole else lines) + b"\n" * (rng.random() < 0.9)
        for _ in range(rng.choice([0, 1, 1, 1, 2, 3])):
            text = self.changed(rng, text)
        return b"\n".join(self.whole(text.split(b"\n"))) if rng.random() < whole else text

    def changed(self, rng, text):
        """The text with one change, at any place."""
        at, kind = rng.randrange(len(text) + 1), rng.randrange(10)
        if kind == 0:
            return text[:at]
        if kind == 1:
            return text[at:]
        if kind == 2:
            return text + text if rng.random() < 0.3 else text + text[at:]
        if kind == 3:
            return text + rng.choice(self.scripts)
        if kind in (4, 5):
            lines, other = text.split(b"\n"), rng.choice(self.scripts).split(b"\n")
            where = rng.randrange(len(lines))
            lines[where:where + rng.randrange(3)] = [rng.choice(rng.choice([lines, other])) for _ in range(rng.randrange(3))]
            return b"\n".join(lines)
        if kind == 6:
            numbers = list(re.finditer(rb"-?[0-9]+", text))
            if numbers:
                number = rng.choice(numbers)
                return text[:number.start()] + rng.choice(self.BOUNDS) + text[number.end():]
        byte = bytes([rng.randrange(256)]) if rng.random() < 0.3 else bytes([rng.choice(b' "\\,=:.<-0123456789abwxAB\n\r\t\x00\x7f\xff#@')])
        return text[:at] + (byte if kind < 9 else b"") + text[at + (kind != 7):]

    def bytes_of_any_kind(self, rng):
        kind = rng.random()
        if kind < 0.02:
            return rng.choice([b"\n", b"#", b"\x00", b" "]) * rng.choice([1, 4095, 4096, 4097, 65536])
        return any_bytes(rng, rng.choice([0, 1, 2, 10, 100, 400]))

    def expression(self, rng):
        """An expression, or nearly one."""
        def piece():
            kind = rng.random()
            if kind < 0.6:
                return b"@" + rng.choice([b"C", b"C", b"N", b"S"]) + bytes([rng.choice(b"rthnsamMdDyYcxbiieoglv")]) + rng.choice(
                    [b"", b"", b"", b"1", b"9", b"30", b"255", b"256", b"0", b"1000", b"01"])
            if kind < 0.9:
                return rng.choice([b" ", b"x", b'"', b"-", b": ", b"12", b"text "])
            return rng.choice([b"@", b"@@", b"\x1f", b"\x7f", b"\xc3\xa9", b"@X", b"@c", b"@C", b"~"])
        text = b"".join(piece() for _ in range(rng.choice([0, 1, 2, 3, 6])))
        if rng.random() < 0.02:
            text = b"a" * rng.choice([1021, 1022, 1023, 1024, 1025, 2000]) + text
        return text

    def records_for(self, rng, kind, text, size):
        """Bytes of a file of records: any, stored ones, or ones by the expression."""
        if rng.random() < 0.2:
            return any_bytes(rng, rng.randrange(200))
        if rng.random() < 0.2:
            return self.changed(rng, rng.choice(self.records))

        def text_of(piece):
            if isinstance(piece, bytes):
                return piece
            count = rng.randrange(5) if length_of(piece) is None else length_of(piece)
            return any_bytes(rng, count) if rng.random() < 0.1 else bytes(rng.choice(b"a0 \"\\:") for _ in range(count))
        pieces, data = read_expression(kind, text), b""
        for _ in range(rng.randrange(4)):
            line = b"".join(map(text_of, pieces if isinstance(pieces, list) else [b"x"]))
            data += (line.ljust(size - 1)[:size - 1] if size else line.replace(b"\n", b".")) + b"\n"
        return self.changed(rng, data) if rng.random() < 0.2 else data

    def text_words(self, rng, command):
        """Words of `expr`, `scan` or `find`, and records for them."""
        kind, text = rng.choice(sorted(CLASSES)), self.expression(rng)
        if rng.random() < 0.6:
            kind, text = rng.choice([(b"system", b"@Cr @Cb"), (b"system", b'@Cr @Sv "@Cb"'), (b"application", b"@Cr @Ct @Sv @Sl9 (@Cb)"),
                                     (b"alarm", b"@Ci|"), (b"notification", b"@Cb."), (b"system", b"@Cr@Cx"), (b"alarm", b'@Cr "@No3" @Ni @Cb]')])
        size = rng.choice([0, 0, 32, 32, 33, 64, 256, 16384])
        data = self.records_for(rng, kind, text, size)
        words = [command, kind, text] + ([] if command == b"expr" else [b"%d" % size])
        if command == b"find":
            token = rng.choice([1, 1, 2, 2, 3, 4])
            pieces = read_expression(kind, text)
            found = [texts_of(pieces, size, one) for one in records_of(size, data)[0]] if isinstance(pieces, list) and not inseparable(pieces, size) else []
            texts = [one[token - 1] for one in found if one and token <= len(one)]
            words += [b"%d" % token, rng.choice(texts if texts and rng.random() < 0.9 else [b"IN", b"a", b""])]
        if rng.random() < 0.05:
            words[rng.randrange(len(words))] = rng.choice(self.BOUNDS)
        return [word.replace(b"\x00", b"0") for word in words], data

    def any_words(self, rng):
        """Words of any kind, most of them nearly a command."""
        words = rng.choice([[b"run"], [b"trio"], [b"check"], [b"expr", b"system", b"@Cr"], [b"gen", b"2", b"1"], [b"scan", b"system", b"@Cr", b"32"],
                            [b"find", b"system", b"@Cr", b"32", b"1", b"x"], [b"load", b"2", b"1"], [b"--help"], [b"--version"], []])[:]
        for _ in range(rng.choice([1, 1, 2])):
            at = rng.randrange(len(words) + 1)
            word = rng.choice(self.BOUNDS + [b"run", b"-", b"--", b"-h", b" run", b"RUN", b"alarm", b"\xff", b"\xc3\xa9", b"@Cb", b"100000", b"100001"])
            words[at:at + rng.randrange(2)] = [word] if rng.random() < 0.9 else []
        if words[:1] in ([b"gen"], [b"load"]) and words[1:2] and len(words[1]) > 3 and words[1] != b"100001":
            words[1] = words[1] if len(words[1]) > 6 else b"77"
        return words, rng.choice([b"", b"cluster start=0 queue=1 callbacks=1\n"])

    def of(self, rng, only):
        """A command's words and its input."""
        kind = rng.random()
        command = only or ("check" if kind < 0.62 else "run" if kind < 0.74 else "expr" if kind < 0.84 else "scan" if kind < 0.89 else
                           "find" if kind < 0.94 else "words" if kind < 0.98 else "gen" if kind < 0.995 else "load")
        if command == "run" and not only and self.spare and rng.random() < 0.3:
            command = "trio"
        if command in ("check", "run", "trio"):
            made = self.spare if command == "trio" else self
            return [command.encode()], self.bytes_of_any_kind(rng) if rng.random() < 0.1 else made.script(rng, 0.2 if command == "check" else 0.8)
        if command == "words":
            return self.any_words(rng)
        if command in ("gen", "load"):
            count = rng.choice([1, 2, 9, 10, 16, 17, 160, rng.randrange(1, 300)])
            return [command.encode(), b"%d" % count, b"%d" % rng.choice([0, 1, 2**31 - 1, 2**31, 2**63, 2**64 - 1, rng.randrange(2**64)])], b""
        return self.text_words(rng, command.encode())


def read_file(path):
    with open(path, "rb") as file:
        return file.read()
