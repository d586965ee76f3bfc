"""The cluster of the plain program: servers, agents and net by their events, and the text that a script's run prints."""
import re

from grammar import quote, unescape
from plain import COMMON, SYSTEM, UNSET, Service, options, unquoted, words_of
import wire

PAIR, TRIO = (b"a", b"b"), (b"a", b"b", b"c")


class Agent:
    """A client's agent: what it sent, what it waits for, what it was fed, and the last mark that it saw of each stream."""

    def __init__(self):
        self.calls, self.waiting, self.living, self.fed, self.given, self.marks = [], {}, {}, [], 0, {}
        self.using = {b"log": False, b"ntf": False}

    def is_full(self, places):
        return len(self.fed) - self.given >= places

    def refusal(self, call):
        """The status with which a call is refused, or none."""
        service, word = call[0], call[2]
        if word == b"init":
            release, major, _ = call[3].split(b".")
            if release != b"A" or int(major) > (2 if service == b"log" else 1):
                return b"VERSION"
        elif not self.using[service]:
            return b"BAD_HANDLE"
        return b"TRY_AGAIN" if self.waiting and min(self.waiting) <= len(self.calls) + 1 - 32 else None

    def send(self, call):
        self.calls.append(call)
        number = len(self.calls)
        self.waiting[number] = call
        if call[2] in (b"init", b"fini"):
            self.using[call[0]] = call[2] == b"init"
        if call[0] == b"ntf" and call[2] == b"fini":
            self.living = {}
        if call[2] == b"unsubscribe":
            self.living = {key: sub for key, sub in self.living.items() if sub["id"] != int(call[3])}
        if call[2] == b"subscribe":
            self.living[number] = {"id": int(call[3]), "next": 1}
        return number

    def resent(self, client):
        messages = [("req", client, number) for number in sorted(self.waiting)]
        return messages + [("rcpt", client, key, sub["next"] - 1) for key, sub in sorted(self.living.items()) if sub["next"] > 1]


class World:
    """Servers of these names, net, agents and files; each event adds its lines."""

    def __init__(self, line, names=PAIR):
        found = options(words_of(line))
        self.places = int(found[b"callbacks"])
        wells = []
        for word, kind, name, text in ((b"alarm", b"alarm", b"saLogAlarm", COMMON), (b"ntf", b"notification", b"saLogNotification", COMMON),
                                       (b"sys", b"system", b"saLogSystem", SYSTEM)):
            wells.append((kind, {"file": name, "path": b".", "max": int(found.get(word + b"max", 262144)), "rec": int(found.get(word + b"rec", 256)),
                                 "ha": 0, "full": found.get(word + b"full", b"rotate"), "rot": int(found.get(word + b"rot", 4)),
                                 "fmt": unquoted(found[word + b"fmt"]) if word + b"fmt" in found else text}))
        self.now = int(found[b"start"])
        self.service = Service(self.now, int(found[b"queue"]), wells)
        self.files, self.lines, self.net, self.places_of, self.agents = {}, [], [], {}, {}
        self.perform(self.service.opening)
        self.history, self.hand, self.arm = [], None, None
        # Of each server what is on the way to it and back, and whether it is sent what is accepted; and the last entry that it applied
        # since it received the service, with its deeds.
        self.roles = {name: b"standby" if name != b"a" else b"active" for name in names}
        self.link, self.back, self.linked = {name: [] for name in names}, {name: [] for name in names}, set(names[1:])
        self.kept = {name: None for name in names}

    # What lines tell.

    def text(self):
        return b"".join(line + b"\n" for line in self.lines)

    def totals(self):
        """The line of `load`."""
        replies = sum(len(agent.calls) - len(agent.waiting) for agent in self.agents.values())
        return b"load entries=%d replies=%d net=%d files=%d bytes=%d a=%s b=%s\n" % (
            len(self.history), replies, len(self.net), len(self.files), sum(map(len, self.files.values())), self.role(b"a"), self.role(b"b"))

    def tell(self, *words):
        self.lines.append(b" ".join(word if isinstance(word, bytes) else str(word).encode() for word in words))

    def role(self, server):
        return b"armed" if self.roles[server] == b"active" and self.arm is not None else self.roles[server]

    def turn(self, server, role):
        self.roles[server] = role
        self.tell(b"server", server, role)

    def refuse(self, line):
        self.tell(b"refused", line, *(name + b"=" + self.role(name) for name in self.roles), b"net=%d" % len(self.net),
                  b"link=%d" % sum(map(len, self.link.values())), b"back=%d" % sum(map(len, self.back.values())),
                  b"hand=%s" % (b"-" if self.hand is None else b"%d" % self.number()))

    def number(self):
        return len(self.history) + (self.hand["state"] == "waiting")

    def post(self, message, *told):
        """A message enters the net once; its line tells its kind and its numbers."""
        if message not in self.places_of:
            self.net.append(message)
            self.places_of[message] = len(self.net)
            self.tell(b"post", len(self.net), *(told or message[:4 if message[0] in ("item", "rcpt") else 3]))

    # Files.

    def perform(self, deeds):
        for deed in deeds:
            if deed[1] == "put":
                self.files[deed[2]] = deed[3]
            elif deed[1] == "write":
                text, at = self.files[deed[2]], deed[3]
                self.files[deed[2]] = text[:at] + deed[4] + text[at + len(deed[4]):]
            elif deed[1] == "remove":
                self.files.pop(deed[2], None)
            elif deed[2] in self.files:
                self.files[deed[3]] = self.files.pop(deed[2])

    # Servers.

    def active(self):
        return next(server for server, role in self.roles.items() if role == b"active")

    def in_service_beside(self, server):
        """Whether another server is in service."""
        return any(self.role(other) in (b"active", b"standby") for other in self.roles if other != server)

    def first(self, lists):
        """The first server whose list is not empty, or none."""
        return next((server for server in self.roles if lists[server]), None)

    def hear(self, message):
        """What the active server says of a request or receipt: why it has no effect, or none."""
        if self.hand is not None:
            return b"busy %d" % self.number()
        client, number = message[1], message[2]
        if message[0] == "rcpt":
            if not self.service.is_new(*message[1:]):
                return b"done"
            self.accept({"rcpt": message[1:]})
            return None
        count = len(self.service.calls.get(client, []))
        if number <= count - 32:
            return b"old"
        if number > count + 1:
            return b"ahead"
        if number <= count:
            self.post(("rep", client, number, self.service.calls[client][number - 1]))
            return None
        self.accept({"call": (client, number)})
        return None

    def reply(self, client, number):
        """The service's reply to a call of the history, or none."""
        replies = self.service.calls.get(client, [])
        return replies[number - 1] if number <= len(replies) else None

    def accept(self, entry):
        self.hand = {"entry": dict(entry, time=self.now), "state": "waiting"}
        for server in self.linked:
            self.link[server].append("mirror")
        self.look()

    def look(self):
        """The entry in hand is committed once it is on the way to no server, and ready once no answer of it is on the way back."""
        if self.hand is None or self.hand["state"] == "ready":
            return
        if self.hand["state"] == "waiting":
            if any("mirror" in link for link in self.link.values()):
                return
            self.commit()
        if not any("mirrored" in back for back in self.back.values()):
            self.hand["state"] = "ready"

    def commit(self):
        """The entry in hand joins the history."""
        entry = self.hand["entry"]
        self.history.append(entry)
        if "rcpt" in entry:
            self.service.receipt(*entry["rcpt"])
            self.hand["deeds"], self.hand["reply"] = [], None
            self.tell(b"acc", len(self.history), b"rcpt", *entry["rcpt"], entry["time"])
        else:
            client, number = entry["call"]
            call = self.agents[client].calls[number - 1]
            reply, self.hand["deeds"] = self.service.apply(client, call, entry["time"], len(self.history))
            self.hand["reply"] = ("rep", client, number, reply)
            self.tell(b"acc", len(self.history), b"call", client, number, entry["time"])
        self.hand["state"] = "applied"

    def mirror(self, server):
        if self.link[server].pop(0) == "mirror":
            self.kept[server] = self.hand
            self.back[server].append("mirrored")
        else:
            self.kept[server] = None
            self.turn(server, b"standby")
            self.back[server].append("joined")
        self.look()

    def confirm(self, server):
        self.back[server].pop(0)
        self.look()

    def work(self):
        calls = sum(deed[0] for deed in self.hand["deeds"])
        if self.arm is not None and calls >= self.arm:
            self.fall(self.active())
            return
        if self.arm is not None:
            self.arm -= calls
        self.perform(self.hand["deeds"])
        reply, self.hand = self.hand["reply"], None
        if reply:
            self.post(reply)
        self.join()

    def join(self):
        """Servers that join are sent the service once the hand is empty."""
        for server in self.roles:
            if self.hand is None and self.roles[server] == b"joining" and server not in self.linked:
                self.linked.add(server)
                self.link[server].append("snapshot")

    def fall(self, server):
        """A server goes down."""
        if self.roles[server] == b"active":
            self.take_over(server)
            return
        self.link[server], self.back[server] = [], []
        self.linked.discard(server)
        self.look()
        self.turn(server, b"down")

    def take_over(self, active):
        """The active server goes down. Where a standby has applied the waiting entry, all do, and it is committed; else it is gone. The first
        that has applied none since it received the service takes over, else the first that is standby, which performs the deeds of the last
        entry once more; the others receive its service."""
        standbys = [server for server in self.roles if self.roles[server] == b"standby"]
        if self.hand is not None and self.hand["state"] == "waiting" and any(self.kept[server] is self.hand for server in standbys):
            self.commit()
            self.kept.update((server, self.hand) for server in standbys)
        self.hand, self.arm = None, None
        self.turn(active, b"down")
        leader = next((server for server in standbys if self.kept[server] is None), standbys[0])
        self.perform(self.kept[leader]["deeds"] if self.kept[leader] else [])
        self.turn(leader, b"active")
        self.linked = set()
        for server in self.roles:
            self.link[server], self.back[server], self.kept[server] = [], [], None
            if self.roles[server] in (b"standby", b"joining"):
                self.linked.add(server)
                if self.roles[server] == b"joining":
                    self.turn(server, b"standby")

    # Clients.

    def take(self, message):
        """What a client's agent says of a reply or an item: why it has no effect, or none."""
        client, agent = message[1], self.agents[message[1]]
        if message[0] == "rep":
            return self.take_reply(client, agent, *message[2:])
        key, number, content = message[2:]
        sub = agent.living.get(key)
        if sub is None:
            return b"gone"
        if number != sub["next"]:
            return b"taken" if number < sub["next"] else b"ahead"
        if agent.is_full(self.places):
            return b"left"
        sub["next"] += 1
        agent.fed.append(callbacks_of(sub["id"], content))
        self.post(("rcpt", client, key, number))
        return None

    def take_reply(self, client, agent, number, reply):
        """Why a reply has no effect, or none. It gives one callback at most, of a mask that became another one, of a write, or of both."""
        call, (text, mark) = agent.waiting.get(number), reply
        if call is None:
            return b"answered"
        told = []
        if mark:
            name, (since, mask) = stream_name(call[3]), mark
            seen = agent.marks.get(name, UNSET)
            told += [b"filter %s mask=%d" % (name, mask)] if since > seen[0] and mask != seen[1] else []
        if call[2] == b"write" and int(options(call)[b"flags"]) == 1:
            told.append(b"write %d %s" % (int(options(call)[b"inv"]), text.split(b" ")[0]))
        if told and agent.is_full(self.places):
            return b"left"
        del agent.waiting[number]
        self.tell(b"reply", client, number, text)
        if call[2] == b"subscribe" and text != b"ok":
            agent.living.pop(number, None)
        if mark and since > seen[0]:
            agent.marks[name] = mark
        agent.fed += [told] if told else []
        return None

    def ask(self, client, call):
        agent = self.agents.get(client) or Agent()
        status = agent.refusal(call)
        if status:
            self.tell(b"reply", client, b"-", status)
            return
        self.agents[client] = agent
        self.post(("req", client, agent.send(call)))

    def dispatch(self, client, words):
        agent = self.agents.get(client)
        if agent is None or not any(agent.using.values()):
            self.tell(b"reply", client, b"-", b"BAD_HANDLE")
            return
        end = min(agent.given + 1, len(agent.fed)) if words[2] == b"one" else len(agent.fed)
        for number in range(agent.given, end):
            for text in agent.fed[number]:
                self.tell(b"callback", client, number + 1, text)
        self.tell(b"reply", client, b"-", b"ok", b"dispatched=%d" % (end - agent.given))
        agent.given = end

    # Lines.

    def deliver(self, place):
        message = self.net[place - 1]
        if message[0] == "raw":
            why = b"bad %d %s" % (wire.judged(message[1])[0], wire.judged(message[1])[1].encode())
        else:
            why = self.hear(message) if message[0] in ("req", "rcpt") else self.take(message)
        if why:
            self.tell(b"ignored", place, why)

    def push(self):
        items = [("item",) + held for held in self.service.held()]
        for item in items:
            self.post(item)
        return items

    def drain(self):
        while self.first(self.link) or self.first(self.back) or self.hand is not None:
            if self.first(self.link):
                self.mirror(self.first(self.link))
            elif self.first(self.back):
                self.confirm(self.first(self.back))
            else:
                self.work()

    def settle(self):
        while True:
            before = len(self.history), sum(len(agent.waiting) for agent in self.agents.values()), sum(len(agent.fed) for agent in self.agents.values())
            self.drain()
            for client in sorted(self.agents):
                for message in self.agents[client].resent(client):
                    self.hear(message)
                    self.drain()
                    if message[0] == "req":
                        reply = ("rep",) + message[1:] + (self.reply(*message[1:]),)
                        if reply in self.places_of:
                            self.take(reply)
            for item in self.push():
                self.take(item)
            if before == (len(self.history), sum(len(agent.waiting) for agent in self.agents.values()),
                          sum(len(agent.fed) for agent in self.agents.values())):
                return

    def show(self, name):
        lines = self.files[name].split(b"\n")
        for line in lines[:-1] + ([lines[-1]] if lines[-1] else []):
            self.lines.append(b"text " + line.rstrip(b" "))

    def event(self, line):
        """Plays a line: whether it is not refused."""
        words = words_of(line)
        word = words[0]
        ready = self.hand is not None and self.hand["state"] == "ready"
        if word == b"deliver" and int(words[1]) > len(self.net):
            return False
        if word in (b"mirror", b"ack"):
            lists = self.link if word == b"mirror" else self.back
            if not (lists[words[1]] if words[1:] else self.first(lists)):
                return False
        if word == b"work" and not ready or word == b"push" and self.hand is not None or word == b"cat" and unquoted(words[1]) not in self.files:
            return False
        if word == b"inject" and wire.judged(unquoted(words[1])) is None:
            return False
        if word in (b"crash", b"arm") and not self.in_service_beside(words[1]) or word == b"arm" and self.roles[words[1]] != b"active":
            return False
        if word in (b"crash", b"restart") and (self.roles[words[1]] == b"down") != (word == b"restart"):
            return False
        self.do(word, words)
        return True

    def do(self, word, words):
        """Plays a line that is not refused."""
        if word in (b"log", b"ntf"):
            self.ask(int(words[1]), words)
        elif word == b"time":
            self.now = int(words[1])
        elif word == b"deliver":
            self.deliver(int(words[1]))
        elif word == b"resend":
            for message in self.agents[int(words[1])].resent(int(words[1])) if int(words[1]) in self.agents else []:
                self.deliver(self.places_of[message])
        elif word in (b"work", b"push", b"settle"):
            getattr(self, word.decode())()
        elif word == b"mirror":
            self.mirror(words[1] if words[1:] else self.first(self.link))
        elif word == b"ack":
            self.confirm(words[1] if words[1:] else self.first(self.back))
        elif word == b"crash":
            self.fall(words[1])
        elif word == b"arm":
            self.arm = int(words[2])
        elif word == b"disarm":
            self.arm = None
        elif word == b"restart":
            self.turn(words[1], b"joining")
            self.join()
        elif word == b"dispatch":
            self.dispatch(int(words[1]), words)
        elif word == b"servers":
            for server in self.roles:
                self.tell(b"server", server, self.role(server))
        elif word == b"files":
            for name in sorted(self.files):
                self.tell(b"file", name, len(self.files[name]))
        elif word == b"cat":
            self.show(unquoted(words[1]))
        elif word == b"inject":
            text = unquoted(words[1])
            self.post(("raw", text), b"raw", len(text))


def callbacks_of(number, content):
    """The lines of an item's callback: of losses one for each kind, by rising codes."""
    if content[0] == "ntf":
        return [b"ntf %d %s" % (number, content[1])]
    kinds = sorted({(code, kind) for code, kind, _ in content[1]})
    return [b"lost %d %s count=%d ids=%s" % (number, kind, sum(one[0] == code for one in content[1]),
                                             b",".join(b"%d" % one[2] for one in content[1] if one[0] == code)) for code, kind in kinds]


def stream_name(word):
    """The name of a stream in the one spelling."""
    return b"app:" + quote(unquoted(word[4:])) if word.startswith(b"app:") else word


def spelled(line):
    """A line as a refusal tells it: its quoted text in the one spelling."""
    return re.sub(rb'"(.*)"', lambda found: quote(unescape(found.group(1))), line)


def played(script, names=PAIR):
    """The world of servers of these names behind the lines of a script."""
    lines = [line for line in script.split(b"\n") if line and not line.startswith(b"#")]
    world = World(lines[0], names)
    for line in lines[1:]:
        if not world.event(line):
            world.refuse(spelled(line))
    return world
