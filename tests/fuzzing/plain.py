"""A plain program after the rules, apart from the proved one: the services by their tables, on lists and maps."""
import datetime
import re

from grammar import quote, unescape
from rules import has_good_sizes, read_expression

UNKNOWN = -(2**63)
UNSET = 0, 127  # the mark of a stream whose mask nothing set: of which entry the mask is, and the mask
TYPES = {b"objects": (0x1001, 0x1002), b"attributes": (0x2001, 0x2002, 0x2003, 0x2004), b"states": (0x3001,),
         b"alarm": (0x4001, 0x4002, 0x4003, 0x4004, 0x4005), b"security": (0x5001, 0x5002, 0x5003, 0x5004, 0x5005)}
CODES = {b"objects": 0x1000, b"attributes": 0x2000, b"states": 0x3000, b"alarm": 0x4000, b"security": 0x5000}
SEVERITIES = b"EM AL CR ER WA NO IN".split()
COMMON = b'@Cr @Ct @Nt @Ne6 @No30 @Ng30 "@Cb"'
SYSTEM = b'@Cr @Ch:@Cn:@Cs @Cm/@Cd/@CY @Sv @Sl "@Cb"'


# Lines: their words, and the values that these spell.


def words_of(line):
    return re.findall(rb'(?:[^ "]|"(?:[^"\\]|\\.)*")+', line)


def listed(word):
    return re.findall(rb'(?:[^,"]|"(?:[^"\\]|\\.)*")+', word) if word else []


def unquoted(word):
    return unescape(word[1:-1])


def options(words):
    """What stands behind the names of the words that have one."""
    return dict(word.split(b"=", 1) for word in words if b"=" in word.split(b'"')[0])


def parts(word):
    """The parts of a change or a pair, which `:` and `<` hold together outside of quoted texts."""
    return re.findall(rb'(?:[^<"]|"(?:[^"\\]|\\.)*")+', word)


def value(word):
    kind, _, text = word.partition(b":")
    return b"int:%d" % int(text) if kind == b"int" else kind + b":" + quote(unquoted(text))


def length_of_value(word):
    kind, _, text = word.partition(b":")
    return len(unquoted(text)) if kind in (b"text", b"bin") else 0


def pair(word):
    number, _, rest = word.partition(b":")
    return number + b":" + b"<".join(value(part) if b":" in part else part for part in parts(rest))


def values_of(word):
    return parts(word.partition(b":")[2])


def note_of(words):
    """The notification of a `send` line, from its kind on."""
    found = options(words[1:])
    kind = words[0]
    said = {"kind": kind, "id": 0, "type": int(found[b"type"], 16), "obj": unquoted(found[b"obj"]), "by": unquoted(found[b"by"]),
            "class": found[b"class"], "time": int(found.get(b"time", b"%d" % UNKNOWN)), "text": unquoted(found[b"text"])}
    for name in (b"corr", b"info", b"attrs", b"changes"):
        said[name.decode()] = listed(found.get(name, b""))
    for name in (b"source", b"cause", b"sev"):
        said[name.decode()] = int(found[name]) if name in found else None
    said["values"] = [found[name] for name in (b"detector", b"user", b"provider")] if kind == b"security" else []
    return said


def shown(note):
    """A notification as replies and callbacks show it."""
    words = [note["kind"], b"id=%d" % note["id"], b"type=0x%04x" % note["type"], b"obj=" + quote(note["obj"]), b"by=" + quote(note["by"]),
             b"class=" + note["class"], b"time=%d" % note["time"]]
    words += [b"corr=" + b",".join(note["corr"])] if note["corr"] else []
    words += [b"text=" + quote(note["text"])]
    words += [b"info=" + b",".join(map(pair, note["info"]))] if note["info"] else []
    words += [name + b"=%d" % note[name.decode()] for name in (b"source", b"cause", b"sev") if note[name.decode()] is not None]
    for name in (b"attrs", b"changes"):
        words += [name + b"=" + b",".join(map(pair, note[name.decode()]))] if note[name.decode()] else []
    words += [name + b"=" + value(one) for name, one in zip((b"detector", b"user", b"provider"), note["values"])]
    return b" ".join(words)


def is_time(time):
    return time >= 0 or time == UNKNOWN


def is_sound(note):
    """Whether a notification may be sent."""
    changes = [one for word in note["info"] + note["attrs"] + note["changes"] for one in values_of(word)]
    return (note["type"] in TYPES[note["kind"]] and is_time(note["time"]) and (note["source"] is None or 1 <= note["source"] <= 3)
            and (note["sev"] is None or note["sev"] <= 5) and len(note["text"]) <= 1024
            and all(length_of_value(word) <= 1024 for word in changes + note["values"])
            and all(len(note[name]) <= 16 for name in ("corr", "info", "attrs", "changes")))


def filters_of(words):
    """The filters behind the words of a line, by kind."""
    found, kind = {}, None
    for word in words:
        if word == b"filter":
            kind = None
        elif kind is None:
            kind = word
            found[kind] = {}
        else:
            name, _, rest = word.partition(b"=")
            found[kind][name] = listed(rest)
    return found


def are_good(filters):
    return bool(filters) and all(not ({b"causes", b"sevs"} & set(lists) if CODES[kind] < 0x4000 else b"sources" in lists)
                                 for kind, lists in filters.items())


def matches(filters, note):
    lists = filters.get(note["kind"])
    if lists is None:
        return False
    has = {b"types": lambda word: int(word, 16) == note["type"], b"objs": lambda word: unquoted(word) == note["obj"],
           b"bys": lambda word: unquoted(word) == note["by"], b"classes": lambda word: word == note["class"],
           b"sources": lambda word: int(word) == note["source"], b"causes": lambda word: int(word) == note["cause"],
           b"sevs": lambda word: int(word) == note["sev"]}
    return all(any(has[name](word) for word in words) for name, words in lists.items())


# Records and their printing.


def clean(text):
    return bytes(46 if byte < 32 or byte == 127 else byte for byte in text)


def base_text(token, number, record, twelve, cut):
    """What a token shows of a record, without its width."""
    letters = token[0]
    header = record["header"]
    time = record["time"] if letters[:1] == b"C" else header.get("evtime", 0)
    at = datetime.datetime(1970, 1, 1) + datetime.timedelta(seconds=time // 10**9)
    hour = (at.hour + 11) % 12 + 1 if letters[:1] in twelve else at.hour
    field = letters[1:]
    if letters == b"Sv":
        return SEVERITIES[header["sev"]]
    if letters == b"Sl":
        return clean(header["user"])
    if letters[:1] == b"N" and field in (b"i", b"e", b"o", b"g"):
        return {b"i": b"0x%016x" % header["id"], b"e": b"0x%04x" % header["type"], b"o": clean(header["obj"]), b"g": clean(header["by"])}[field]
    vendor, major, minor = map(int, header["class"].split(b"."))
    months, days = "Jan Feb Mar Apr May Jun Jul Aug Sep Oct Nov Dec".split(), "Mon Tue Wed Thu Fri Sat Sun".split()
    return {b"r": b"%d" % number, b"t": b"0x%016x" % time, b"h": b"%02d" % hour, b"n": b"%02d" % at.minute, b"s": b"%02d" % at.second,
            b"a": b"am" if at.hour < 12 else b"pm", b"m": b"%02d" % at.month, b"M": months[at.month - 1].encode(), b"d": b"%02d" % at.day,
            b"D": days[at.weekday()].encode(), b"y": b"%02d" % (at.year % 100), b"Y": b"%04d" % at.year,
            b"c": b"NCI[0x%08x,0x%04x,0x%04x]" % (vendor, major, minor), b"x": cut, b"b": clean(record["body"]),
            b"i": record["body"].hex().encode()}[field]


def text_of(pieces, number, record, cut):
    twelve = {piece[0][:1] for piece in pieces if not isinstance(piece, bytes) and piece[0][1:] == b"a"}
    text = b""
    for piece in pieces:
        if isinstance(piece, bytes):
            text += piece
            continue
        base = base_text(piece, number, record, twelve, cut)
        text += base.rjust(10) if piece == (b"Cr", None) else base if piece[1] is None else base.ljust(piece[1])[:piece[1]]
    return text


def printed(kind, expression, number, record, size):
    """A record as it is stored: of the stream's size, or with size 0 of what its text needs."""
    pieces = read_expression(kind, expression)
    text = text_of(pieces, number, record, b"C")
    most = size - 1 if size else 16383
    if len(text) > most:
        text = text_of(pieces, number, record, b"T")
    return text[:most].ljust(size - 1) + b"\n"


# Streams and the files that they leave.


def stamp_text(second):
    return (datetime.datetime(1970, 1, 1) + datetime.timedelta(seconds=second)).strftime("%Y%m%d_%H%M%S").encode()


class Stream:
    """A stream: its attributes, who has it open, its mask behind the entry that set it, the lengths of its records, and of its files that
    stand, oldest first, the first record and the name once it was closed."""

    def __init__(self, name, kind, attrs, created, entry):
        self.name, self.kind, self.attrs, self.openers, self.mark = name, kind, attrs, set(), (entry, 127)
        self.lengths, self.created, self.firsts, self.rounds = [], created, [0], []

    @property
    def count(self):
        return len(self.lengths)

    def per_file(self):
        """How many records of one size a file holds."""
        return self.attrs["max"] // self.attrs["rec"]

    def text_of(self, record):
        """The bytes of the record that is stored next."""
        return printed(self.kind, self.attrs["fmt"], self.count + 1, record, self.attrs["rec"])

    def fits(self, text):
        """Whether a record fits behind those of the current file: by their number where all have one size, else by their bytes."""
        held = self.lengths[self.firsts[-1]:]
        return len(held) < self.per_file() if self.attrs["rec"] else sum(held) + len(text) <= self.attrs["max"]

    def refuses(self, record):
        return self.attrs["full"] == b"halt" and not self.fits(self.text_of(record))

    def offset(self):
        """Where a record stands that comes to the current file."""
        if self.attrs["full"] == b"wrap":
            return self.count % self.per_file() * self.attrs["rec"]
        return sum(self.lengths[self.firsts[-1]:])

    def file_name(self, created, closed=None):
        folder = b"" if self.attrs["path"] == b"." else self.attrs["path"] + b"/"
        stamps = stamp_text(created) + (b"_" + stamp_text(closed) if closed is not None else b"")
        return folder + self.attrs["file"] + b"_" + stamps + b".log"

    def cfg(self):
        folder = b"" if self.attrs["path"] == b"." else self.attrs["path"] + b"/"
        text = b"STREAM: %s\nVERSION: A.02.01\nFORMAT: %s\nMAX_FILE_SIZE: %d\nRECORD_SIZE: %d\nFULL_ACTION: %s\nROTATED_FILES: %d\nHA: %d\n" % (
            self.name if self.kind != b"application" else b"app " + self.name, self.attrs["fmt"], self.attrs["max"], self.attrs["rec"],
            self.attrs["full"].upper(), self.attrs["rot"], self.attrs["ha"])
        return folder + self.attrs["file"] + b".cfg", text

    def first_kept(self):
        """The first record that stands in the files."""
        return max(0, self.count - self.per_file()) if self.attrs["full"] == b"wrap" else self.firsts[0]


def are_good_attrs(kind, attrs):
    name = re.compile(rb"[A-Za-z0-9_-]{1,64}")
    return bool(name.fullmatch(attrs["file"]) and (attrs["path"] == b"." or name.fullmatch(attrs["path"]))
                and has_good_sizes(attrs["rec"], attrs["max"], attrs["full"]) and attrs["ha"] <= 1 and 1 <= attrs["rot"] <= 128
                and isinstance(read_expression(kind, attrs["fmt"]), list))


class Service:
    """Both services: what each call of the history came to."""

    def __init__(self, start, queue, wells):
        self.queue, self.last_stamp, self.streams, self.ended = queue, None, [], []
        self.log_users, self.ntf_users, self.subs, self.readers = set(), set(), {}, {}
        self.calls, self.last_id, self.alarms, self.deeds = {}, 0, [], []
        for kind, attrs in wells:
            self.make(kind, kind, attrs, start, UNSET[0])
        self.opening, self.deeds = self.deeds, []

    def stamp(self, time):
        second = time // 10**9
        self.last_stamp = second if self.last_stamp is None else max(second, self.last_stamp + 1)
        return self.last_stamp

    # Deeds, each with the number of its device calls.

    def make(self, name, kind, attrs, time, entry):
        stream = Stream(name, kind, attrs, self.stamp(time), entry)
        self.streams.append(stream)
        self.deeds += [(3, "put") + stream.cfg(), (1, "put", stream.file_name(stream.created), b"")]
        return stream

    def store(self, stream, record, time):
        text = stream.text_of(record)
        if stream.attrs["full"] == b"rotate" and not stream.fits(text):
            closed = self.stamp(time)
            old = stream.file_name(stream.created, closed)
            self.deeds.append((1, "rename", stream.file_name(stream.created), old))
            stream.rounds.append(old)
            stream.firsts.append(stream.count)
            stream.created = self.stamp(time)
            self.deeds.append((1, "put", stream.file_name(stream.created), b""))
            if len(stream.firsts) > stream.attrs["rot"]:
                stream.firsts.pop(0)
                self.deeds.append((1, "remove", stream.rounds.pop(0)))
        self.deeds.append((2, "write", stream.file_name(stream.created), stream.offset(), text))
        stream.lengths.append(len(text))

    def end(self, stream, time):
        self.deeds.append((1, "rename", stream.file_name(stream.created), stream.file_name(stream.created, self.stamp(time))))
        self.streams.remove(stream)

    def stream(self, word):
        """The living stream of a word of a line."""
        name = unquoted(word[4:]) if word.startswith(b"app:") else word
        kind = b"application" if word.startswith(b"app:") else word
        return next((one for one in self.streams if one.name == name and (one.kind == b"application") == (kind == b"application")), None)

    # Calls, by their rows.

    def apply(self, client, call, time, entry):
        """The reply to a client's next call, which is this entry: its text, and the mark of the stream that an ok call opens, writes to
        or filters."""
        self.calls.setdefault(client, []).append(None)
        number = len(self.calls[client])
        self.deeds = []
        text = self.log_call(client, call[2:], time, entry) if call[0] == b"log" else self.ntf_call(client, call[2:], time, number)
        marks = call[0] == b"log" and call[2] in (b"open", b"write", b"filter") and text.startswith(b"ok")
        reply = text, self.stream(call[3]).mark if marks else None
        self.calls[client][-1] = reply
        return reply, self.deeds

    def log_call(self, client, words, time, entry):
        if words[0] == b"init":
            if client in self.log_users:
                return b"NO_RESOURCES"
            self.log_users.add(client)
            return b"ok"
        if client not in self.log_users:
            return b"BAD_HANDLE"
        if words[0] == b"fini":
            self.log_users.remove(client)
            for stream in list(self.streams):
                self.leave(stream, client, time)
            return b"ok"
        stream = self.stream(words[1])
        if words[0] == b"open":
            return self.open(client, words, stream, time, entry)
        if stream is None or client not in stream.openers:
            return b"BAD_HANDLE"
        if words[0] == b"close":
            self.leave(stream, client, time)
            return b"ok"
        if words[0] == b"filter":
            return self.filter(stream, int(options(words)[b"mask"]), entry)
        return self.write(stream, words[2:], time)

    def leave(self, stream, client, time):
        if client in stream.openers:
            stream.openers.remove(client)
            if stream.kind == b"application" and not stream.openers:
                self.end(stream, time)

    @staticmethod
    def filter(stream, mask, entry):
        if stream.kind in (b"alarm", b"notification") or mask > 127:
            return b"INVALID_PARAM"
        stream.mark = (entry, mask)
        return b"ok"

    def open(self, client, words, stream, time, entry):
        if len(words) > 2:
            found = options(words)
            attrs = {"file": unquoted(found[b"file"]), "path": unquoted(found[b"path"]), "max": int(found[b"max"]), "rec": int(found[b"rec"]),
                     "ha": int(found[b"ha"]), "full": found[b"full"], "rot": int(found[b"rot"]),
                     "fmt": unquoted(found[b"fmt"]) if b"fmt" in found else SYSTEM}
            if not words[1].startswith(b"app:") or not are_good_attrs(b"application", attrs):
                return b"INVALID_PARAM"
            if stream is not None and stream.attrs != attrs:
                return b"EXIST"
            if stream is None:
                if any((one.attrs["path"], one.attrs["file"]) == (attrs["path"], attrs["file"]) for one in self.streams):
                    return b"EXIST"
                if len(self.streams) == 67:
                    return b"NO_RESOURCES"
                stream = self.make(unquoted(words[1][4:]), b"application", attrs, time, entry)
        if stream is None:
            return b"NOT_EXIST"
        stream.openers.add(client)
        return b"ok"

    def write(self, stream, words, time):
        found = options(words)
        generic = b"gen" in words
        when = int(found.get(b"time", b"%d" % UNKNOWN))
        if int(found[b"flags"]) > 1:
            return b"BAD_FLAGS"
        event = int(found.get(b"evtime", b"%d" % UNKNOWN))
        header = {"class": found[b"class"]}
        if generic:
            header.update(sev=int(found[b"sev"]), user=unquoted(found[b"user"]))
        else:
            header.update(id=int(found[b"id"]), type=int(found[b"type"], 16), obj=unquoted(found[b"obj"]), by=unquoted(found[b"by"]),
                          evtime=time if event == UNKNOWN else event)
        wants = stream.kind in (b"system", b"application")
        if generic != wants or not is_time(when) or generic and header["sev"] > 6 or not generic and (
                not is_time(event) or not any(header["type"] in types for types in TYPES.values())):
            return b"INVALID_PARAM"
        if generic and not stream.mark[1] & 1 << header["sev"]:
            return b"ok filtered"
        record = {"time": time if when == UNKNOWN else when, "header": header, "body": unquoted(found[b"body"])}
        if stream.refuses(record):
            return b"NO_SPACE"
        self.store(stream, record, time)
        return b"ok"

    def ntf_call(self, client, words, time, number):
        if words[0] == b"init":
            if client in self.ntf_users:
                return b"NO_RESOURCES"
            self.ntf_users.add(client)
            return b"ok"
        if client not in self.ntf_users:
            return b"BAD_HANDLE"
        if words[0] == b"send":
            return self.send(note_of(words[1:]), time)
        if words[0] == b"subscribe":
            return self.subscribe(client, number, int(words[1]), filters_of(words[2:]))
        if words[0] == b"unsubscribe":
            key = next((key for key, sub in self.subs.items() if key[0] == client and sub["id"] == int(words[1])), None)
            return b"ok" if key and self.subs.pop(key) else b"NOT_EXIST"
        if words[0] == b"reader":
            return self.start_reader(client, options(words[1:3]), filters_of(words[3:]))
        if words[0] == b"read":
            return self.read(client, int(words[1]))
        if words[0] == b"endread":
            return b"ok" if self.readers.pop(client, None) else b"BAD_HANDLE"
        self.ntf_users.remove(client)
        self.readers.pop(client, None)
        self.subs = {key: sub for key, sub in self.subs.items() if key[0] != client}
        return b"ok"

    def send(self, note, time):
        if not is_sound(note):
            return b"INVALID_PARAM"
        stream = self.streams[0 if CODES[note["kind"]] >= 0x4000 else 1]
        note.update(id=self.last_id + 1, time=time if note["time"] == UNKNOWN else note["time"])
        header = {"class": note["class"], "id": note["id"], "type": note["type"], "obj": note["obj"], "by": note["by"], "evtime": note["time"]}
        record = {"time": time, "header": header, "body": note["text"]}
        if stream.refuses(record):
            return b"NO_SPACE"
        self.last_id += 1
        if stream is self.streams[0]:
            self.alarms.append((stream.count, note))
        self.store(stream, record, time)
        for sub in self.subs.values():
            if matches(sub["filters"], note):
                if len(sub["items"]) < self.queue:
                    self.add_item(sub, ("ntf", shown(note)))
                else:
                    sub["lost"].append((CODES[note["kind"]], note["kind"], note["id"]))
        return b"ok id=%d" % note["id"]

    @staticmethod
    def add_item(sub, content):
        sub["made"] += 1
        sub["items"].append((sub["made"], content))

    def subscribe(self, client, key, number, filters):
        if not are_good(filters):
            return b"INVALID_PARAM"
        if any(one[0] == client and sub["id"] == number for one, sub in self.subs.items()):
            return b"EXIST"
        if len(self.subs) == 64:
            return b"NO_RESOURCES"
        self.subs[client, key] = {"id": number, "filters": filters, "items": [], "lost": [], "made": 0}
        return b"ok"

    def is_new(self, client, key, through):
        sub = self.subs.get((client, key))
        return bool(sub) and any(number == through for number, _ in sub["items"])

    def receipt(self, client, key, through):
        sub = self.subs[client, key]
        sub["items"] = [item for item in sub["items"] if item[0] > through]
        if sub["lost"]:
            self.add_item(sub, ("lost", tuple(sub["lost"])))
            sub["lost"] = []

    def held(self):
        return [(client, key) + item for (client, key), sub in sorted(self.subs.items()) for item in sub["items"]]

    # Stored alarms.

    def stored(self, filters):
        first = self.streams[0].first_kept()
        return sorted(((note["time"], note["id"], note) for k, note in self.alarms if k >= first and matches(filters, note)), key=lambda one: one[:2])

    def start_reader(self, client, found, filters):
        mode, wanted = int(found[b"mode"]), int(found[b"value"])
        if not 1 <= mode <= 7 or wanted < 0 and mode <= 6 or not are_good(filters) or any(CODES[kind] < 0x4000 for kind in filters):
            return b"INVALID_PARAM"
        if client in self.readers or len(self.readers) == 16:
            return b"NO_RESOURCES"
        stored = self.stored(filters)
        passes = {1: lambda a: a[0] <= wanted, 2: lambda a: a[0] == wanted, 3: lambda a: a[0] >= wanted, 4: lambda a: a[0] < wanted,
                  5: lambda a: a[0] > wanted, 6: lambda a: a[1] == wanted, 7: lambda a: True}[mode]
        found = [alarm for alarm in stored if passes(alarm)]
        if not found:
            return b"NOT_EXIST"
        start = found[-1 if mode in (1, 4) else 0]
        self.readers[client] = [filters, start[:2], True]
        return b"ok"

    def read(self, client, direction):
        if client not in self.readers:
            return b"BAD_HANDLE"
        if direction not in (1, 2):
            return b"INVALID_PARAM"
        filters, point, fresh = self.readers[client]
        older = [alarm for alarm in self.stored(filters) if alarm[:2] < point or fresh and alarm[:2] == point]
        younger = [alarm for alarm in self.stored(filters) if alarm[:2] > point or fresh and alarm[:2] == point]
        found = older[-1:] if direction == 1 else younger[:1]
        if not found:
            return b"NOT_EXIST"
        self.readers[client] = [filters, found[0][:2], False]
        return b"ok " + shown(found[0][2])
