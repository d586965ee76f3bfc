"""Scripts that fill what a world keeps, whose cost may grow with it: queues, the net, clients, subscriptions, calls without reply; or that
hand it on again and again; and long runs of lines of one kind, of which that is compared what they add."""
import os
import sys

sys.path.insert(0, os.path.join(os.path.dirname(os.path.abspath(__file__)), "..", "..", "bench"))
from measuring import START, differ, instructions, play, processor_time, save_script, spent, write_line

CLIENTS, WINDOW, SUBSCRIPTIONS = 4096, 32, 64
# So many falls of a server are in a script at most.
FALLS = 300
# So many clients at most fill their windows before a long run, whose own lines would be lost in what many more take.
FILLED = 64
# What takes less than so many seconds is lost in what else a run takes. A long run takes so many more, or has so many turns.
LEAST_SECONDS, LONG_SECONDS, TURNS = 0.01, 0.05, 10000


def upto(rng, most):
    """A number from 1 on, small ones as often as great ones."""
    return min(most, int(most ** rng.random() + 0.5))


class Client:
    """What decides whether a client may ask for one call more: the calls whose replies wait, and its queue."""

    def __init__(self):
        self.next, self.kept, self.queue = 1, [], 0

    def can_ask(self):
        return not self.kept or self.next - self.kept[0][0] < WINDOW

    def ask(self, flagged=False):
        self.kept.append((self.next, flagged))
        self.next += 1

    def settle(self, callbacks):
        left = []
        for number, flagged in self.kept:
            if flagged and self.queue == callbacks:
                left.append((number, flagged))
            else:
                self.queue += flagged
        self.kept = left


class Script:
    """A script of the lines that bench/plain takes, by two servers or three. Writers have no subscription, so their queues hold replies
    alone; such a share of them opens the stream that they write. What counts is what the lines behind the first `begun` add."""

    def __init__(self, rng, writers, openers=0.5):
        self.rng, self.callbacks, self.sent, self.falls = rng, upto(rng, 256), 0, 0
        self.word, self.servers = rng.choice((("run", "ab"), ("run", "ab"), ("trio", "abc")))
        self.lines, self.begun = [f"cluster start={START} queue={upto(rng, 256)} callbacks={self.callbacks}"], 1
        self.writers = [Client() for _ in range(writers)]
        self.subscriber = len(self.writers) + 1
        order = list(range(1, self.subscriber))
        rng.choice((list, list.reverse, rng.shuffle))(order)
        for number in order:
            self.ask(number, f"log {number} init A.2.1")
            if rng.random() < openers or number == 1:
                self.ask(number, f"log {number} open system")
            else:
                self.writers[number - 1].next = 0
        subscriptions = rng.choice((0, upto(rng, SUBSCRIPTIONS - 1), SUBSCRIPTIONS - 1))
        self.lines += [f"ntf {self.subscriber} init A.1.1"] + ["settle"] * (subscriptions > WINDOW - 2)
        for place in range(subscriptions):
            self.lines += [f"ntf {self.subscriber} subscribe {place + 1} filter alarm"] + ["settle"] * (place % (WINDOW - 2) == WINDOW - 3)
        self.settle()

    def ask(self, client, line, flagged=False):
        self.writers[client - 1].ask(flagged)
        self.lines.append(line)

    def settle(self):
        for client in self.writers:
            client.settle(self.callbacks)
        self.lines.append("settle")

    def write(self, client=None):
        client = client or upto(self.rng, len(self.writers))
        writer = self.writers[client - 1]
        if writer.next and writer.can_ask():
            flagged = self.rng.random() < self.flags
            self.ask(client, write_line(len(self.lines), flags=int(flagged), client=client), flagged)

    def send(self):
        self.sent += 1
        if self.sent % (WINDOW - 2) == 0:
            self.settle()
        self.lines.append(f'ntf {self.subscriber} send alarm type=0x4001 obj="node1" by="hw" class=1.2.3 '
                          f'time={START + self.rng.randrange(10**6)} text="fan {self.sent} stands" cause=5 sev=4')

    def dispatch(self):
        client = self.rng.choice((1, self.subscriber, upto(self.rng, len(self.writers))))
        if client < self.subscriber:
            self.writers[client - 1].queue = 0
        self.lines.append(f"dispatch {client} all workers={self.rng.choice((1, 1, 2, 8))}")

    def fail(self):
        server = self.rng.choice(self.servers)
        if self.falls == FALLS:
            return
        self.falls += 1
        self.settle()
        self.lines += [f"crash {server}", f"restart {server}"]
        self.settle()

    def play(self, count):
        """Adds so many turns, of each kind as many as this script has, by chance."""
        self.flags = self.rng.choice((0, 0.1, 1))
        kinds = (self.write, self.send, self.settle, self.dispatch, self.fail)
        often = [upto(self.rng, 100) - 1 for _ in kinds[:-1]] + [self.rng.choice((0, 0, 1, upto(self.rng, 100)))]
        for kind in self.rng.choices(kinds, often, k=count) if any(often) else ():
            kind()

    def lengthen(self):
        """Whether it can be made longer, and then is."""
        return False


class Long(Script):
    """Lines that make a state, and behind them turns of one kind, of lines that leave it as it is or add to it. They dispatch by one worker,
    since bench/plain has no others."""

    def __init__(self, rng):
        super().__init__(rng, rng.choice((1, upto(rng, 32), upto(rng, 32), upto(rng, CLIENTS - 1))), openers=1)
        self.flags = 0
        for client in range(1, rng.choice((0, min(len(self.writers), FILLED))) + 1):
            for _ in range(WINDOW - 2):
                self.write(client)
        self.settle()
        for _ in range(rng.choice((0, 0, 1, upto(rng, 1000)))):
            self.send()
        self.settle()
        self.begun, self.count, self.further = len(self.lines), 0, rng.randrange(4)
        kinds = (self.join, self.join, self.take_over, self.settle, self.tell, self.hand_out, self.ask_once, self.ask_often, self.report)
        self.turn = rng.choice(kinds)

    def lengthen(self):
        if self.count >= TURNS:
            return False
        more = 3 * self.count + 8
        for _ in range(more):
            self.turn()
        self.count += more
        return True

    def join(self):
        server = self.servers[-1]
        self.lines += [f"crash {server}", f"restart {server}"] + (["settle"] if self.further % 2 else ["mirror", "ack"])

    def take_over(self):
        for server in self.servers:
            self.lines += [f"crash {server}", f"restart {server}", "settle"]

    def tell(self):
        self.lines.append(("servers", "files", 'cat "saLogSystem.cfg"', f"time {START + self.count}")[self.further])

    def hand_out(self):
        self.lines.append(f"dispatch {(1, self.subscriber)[self.further % 2]} {('one', 'all workers=1')[self.further // 2]}")

    def ask_once(self):
        """A write, its reply and its callback."""
        self.flags = self.further % 2
        self.write(1)
        self.settle()
        self.writers[0].queue = 0
        self.lines += ["dispatch 1 all workers=1"] * self.flags

    def ask_often(self):
        for _ in range(WINDOW - 2):
            self.write(self.rng.randint(1, min(len(self.writers), self.further * 8 + 1)))
        self.settle()

    def report(self):
        """A send, its items and their receipts, and those of items that wait until a queue is emptied."""
        self.send()
        self.settle()
        self.lines += [f"dispatch {self.subscriber} all workers=1", "settle"][:self.further]


def script_of(rng):
    """A script, of up to some 10,000 lines where it is not made longer."""
    if rng.random() < 0.5:
        return Long(rng)
    script = Script(rng, upto(rng, CLIENTS - 1))
    script.play(upto(rng, 8000))
    return script


class Pair:
    """The program and bench/plain, which play scripts below a folder."""

    def __init__(self, program, plain, folder):
        self.script, self.places = os.path.join(folder, "script"), [os.path.join(folder, name) for name in ("beside", "played")]
        self.words = {word: ([plain] + [word] * (word != "run"), [program, word]) for word in ("run", "trio")}

    def added(self, measured, script):
        """What the lines of a script behind those that it begins with add, of bench/plain and of the program, by this measure."""
        found = []
        for words, place in zip(self.words[script.word], self.places):
            costs = []
            for lines in (script.lines[:script.begun], script.lines):
                save_script(self.script, lines)
                costs.append(measured(words, place, self.script))
            found.append(None if None in costs else costs[1] - costs[0])
        return found

    def fault_of(self, script, most):
        """What is wrong with what a script costs, or None: its lines take more than so many times what they take of bench/plain, or the two
        differ. Instructions decide where they can be counted, since times are not the same on a busy machine; beside them, since those of
        the system are none of them, twice as many times the time."""
        least, seconds = self.added(once, script)
        while seconds < LONG_SECONDS and script.lengthen():
            least, seconds = self.added(once, script)
        if differ(*self.places):
            return "the two print other lines or leave other files"
        if seconds < LEAST_SECONDS or seconds <= most / 2 * least:
            return None
        least, seconds = self.added(processor_time, script)
        few, taken = self.added(instructions, script)
        if seconds <= most * (2 if few else 1) * max(least, LEAST_SECONDS / 10) and (not few or taken <= most * few):
            return None
        counted = f", {taken:,} instructions and {few:,}, {taken / few:.1f} times" if few else ""
        return (f"{len(script.lines) - script.begun} lines behind the first {script.begun}, the last of them {script.lines[-1]!r}, take "
                f"{seconds:.3f} s of the processor and of bench/plain {least:.3f} s{counted}")


def once(words, folder, script):
    """The seconds of a processor of one run of a script."""
    return spent(lambda: play(words, folder, script))[0]
