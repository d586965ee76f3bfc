"""One server and its journal of the plain program, by their events. Both disks are folders: a disk that is armed stops in a changing call,
of which nothing is done, or, of a write, half of its bytes."""
from world import World, spelled
from plain import unquoted, words_of
import wire

APPEND = 4  # the changing calls by which an entry joins the journal: its frame, a sync, its gate, a sync


class Fell(Exception):
    """The server went down in what it did."""


def calls_of(deed):
    """The device calls of a deed, in order."""
    if deed[1] == "put" and deed[0] == 3:
        return [("create", deed[2]), ("write", deed[2], 0, deed[3]), ("sync",)]
    if deed[1] == "put":
        return [("create", deed[2])]
    return [("write",) + deed[2:], ("sync",)] if deed[1] == "write" else [deed[1:]]


class Cold(World):
    """As the world of two servers, with the journal in the place of the second one. The hand of a server that is down is kept: a waiting
    entry joins the history at the next start, if the journal has it."""

    def __init__(self, line):
        super().__init__(line)
        self.roles = {b"a": b"active", b"b": b"journal"}
        self.arms = {b"a": None, b"b": None}
        self.deeds, self.found = [], None

    def is_up(self):
        return self.roles[b"a"] == b"active"

    def role(self, server):
        return b"armed" if server == b"a" and self.is_up() and any(arm is not None for arm in self.arms.values()) else self.roles[server]

    def commit(self):
        super().commit()
        self.deeds.append(self.hand["deeds"])

    # Disks.

    def make(self, call):
        if call[0] == "create":
            self.files[call[1]] = b""
        elif call[0] == "write":
            self.perform([(2, "write") + call[1:]])
        elif call[0] != "sync":
            self.perform([(1,) + call])

    def change(self, calls):
        """Changing calls of the record disk, which may stop in one of them."""
        for call in calls:
            if self.arms[b"a"] == 1:
                if call[0] == "write":
                    self.make(call[:3] + (call[3][:len(call[3]) // 2],))
                self.fall(b"a")
                raise Fell
            self.make(call)
            if self.arms[b"a"] is not None:
                self.arms[b"a"] -= 1

    # The server and its journal.

    def fall(self, server):
        """An entry that waits is found at the next start if the journal has its gate open: where its last call stopped."""
        waits = self.hand is not None and self.hand["state"] == "waiting"
        self.found = self.hand if waits and self.arms[b"b"] == 0 else None
        self.link[b"b"], self.back[b"b"], self.hand = [], [], None
        self.arms = {b"a": None, b"b": None}
        self.turn(server, b"down")

    def mirror(self, server):
        self.link[server].pop(0)
        arm = self.arms[b"b"]
        if arm is not None and arm <= APPEND:
            self.arms[b"b"] = 0 if arm == APPEND else arm
            self.fall(b"a")
            raise Fell
        if arm is not None:
            self.arms[b"b"] -= APPEND
        self.back[server].append("mirrored")
        self.look()

    def work(self):
        self.change([call for deed in self.hand["deeds"] for call in calls_of(deed)])
        reply, self.hand = self.hand["reply"], None
        if reply:
            self.post(reply)

    def start(self):
        """A cold start: what is found is told, and the last entry's deeds are done again."""
        self.hand, self.found = self.found, None
        if self.hand is not None:
            self.commit()
        self.hand = None
        self.perform(self.deeds[-1] if self.deeds else [])
        self.turn(b"a", b"active")

    # Lines.

    def deliver(self, place):
        message = self.net[place - 1]
        if self.is_up() or message[0] not in ("req", "rcpt"):
            super().deliver(place)
        else:
            self.tell(b"ignored", place, b"down")

    def is_refused(self, word, words):
        ready = self.hand is not None and self.hand["state"] == "ready"
        if word in (b"mirror", b"ack", b"work", b"push", b"settle", b"arm") and not self.is_up():
            return True
        if word in (b"crash", b"restart"):
            return words[1] == b"b" or self.is_up() == (word == b"restart")
        return (word == b"deliver" and int(words[1]) > len(self.net) or word == b"mirror" and not self.first(self.link)
                or word == b"ack" and not self.first(self.back)
                or word == b"work" and not ready or word == b"push" and self.hand is not None
                or word == b"cat" and unquoted(words[1]) not in self.files or word == b"inject" and wire.judged(unquoted(words[1])) is None)

    def event(self, line):
        words = words_of(line)
        if self.is_refused(words[0], words):
            return False
        try:
            self.do(words[0], words)
        except Fell:
            pass
        return True

    def do(self, word, words):
        if word == b"arm":
            self.arms[words[1]] = int(words[2])
        elif word == b"disarm":
            self.arms = {b"a": None, b"b": None}
        elif word == b"restart":
            self.start()
        else:
            super().do(word, words)


def played_cold(script):
    """The world behind the lines of a script."""
    lines = [line for line in script.split(b"\n") if line and not line.startswith(b"#")]
    world = Cold(lines[0])
    for line in lines[1:]:
        if not world.event(line):
            world.refuse(spelled(line))
    return world
