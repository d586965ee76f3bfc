"""What the scripts of bench/ share: the programs, proved and plain; runs with their time, memory and instructions; the comparison of what two
runs left; and tables, as Markdown."""
import filecmp
import os
import re
import resource
import shutil
import subprocess
import sys
import tempfile
import time

BENCH = os.path.dirname(os.path.abspath(__file__))
TOP = os.path.dirname(BENCH)
START = 1704067200000000000


def proved(crate, *words):
    """The proved program of a crate. It is proved and built first where it is missing, and these are words with which it ends at once."""
    path = os.path.join(TOP, "crates", crate, "out", crate)
    if not os.path.exists(path) and subprocess.run([os.path.join(TOP, "launch", "prove"), crate, *words], check=False).returncode:
        sys.exit(70)
    return path


def program():
    """The program that plays scripts: AISRUN, if that is set, and else the proved one."""
    return os.environ.get("AISRUN") or proved("aisrun", "expr", "system", "x")


def build(source, folder):
    """Builds a plain Rust program of this folder in another one, and answers its path."""
    path = os.path.join(folder, "plain")
    subprocess.run(["rustc", "--edition", "2021", "-O", "-o", path, os.path.join(BENCH, source)], check=True)
    return path


def table(*names):
    """Begins a table."""
    print(f"| {' | '.join(names)} |\n|{'---|' * len(names)}", flush=True)


def row(*cells):
    """A row of the table."""
    print(f"| {' | '.join(str(cell) for cell in cells)} |", flush=True)


def write_line(number, flags=0, client=1):
    """The line of a write."""
    return (f'log {client} write system inv={number} flags={flags} gen sev=6 class=1.2.3 user="safApp=web" '
            f'body="request {number} is served"')


def alarm_line(number):
    """The line of a send of client 2."""
    return (f'ntf 2 send alarm type=0x4001 obj="node1" by="hw" class=1.2.3 time={START + number} '
            f'text="fan {number} stands" cause=5 sev=4')


def save_script(path, lines):
    """Writes a script of these lines."""
    with open(path, "w", encoding="ascii") as file:
        file.writelines(line + "\n" for line in lines)


def play(words, folder, script, watched=False):
    """Plays a script in a folder of its own: the seconds, and, if it is watched, the most memory in MB: looked at without a pause at first, since
    a short run has it for a moment only, and then each millisecond."""
    shutil.rmtree(folder, ignore_errors=True)
    os.mkdir(folder)
    most = 0
    with open(script, "rb") as source, open(os.path.join(folder, "printed"), "wb") as out:
        begin = time.perf_counter()
        child = subprocess.Popen(words, stdin=source, stdout=out, cwd=folder)
        while watched and child.poll() is None:
            most = max(most, peak_of(child.pid))
            time.sleep(0.001 * (time.perf_counter() - begin > 0.05))
        status = child.wait()
        seconds = time.perf_counter() - begin
    if status != 0:
        sys.exit(f"{words[0]} ended with {status}")
    return seconds, most


def peak_of(process):
    """The most memory that a process had so far, in MB; 0 once it has ended."""
    try:
        with open(f"/proc/{process}/status", encoding="ascii") as status:
            return max((int(line.split()[1]) * 1024 / 1e6 for line in status if line.startswith("VmHWM:")), default=0)
    except OSError:
        return 0


def differ(one, other):
    """Whether two folders differ in a name or a byte."""
    names = sorted(os.listdir(one))
    if names != sorted(os.listdir(other)):
        return True
    for name in names:
        left, right = os.path.join(one, name), os.path.join(other, name)
        if os.path.isdir(left):
            if differ(left, right):
                return True
        elif not filecmp.cmp(left, right, shallow=False):
            return True
    return False


def spent(act):
    """The seconds of a processor that the children took while this was done, and what it answered."""
    before = resource.getrusage(resource.RUSAGE_CHILDREN)
    answer = act()
    after = resource.getrusage(resource.RUSAGE_CHILDREN)
    return after.ru_utime + after.ru_stime - before.ru_utime - before.ru_stime, answer


def processor_time(words, folder, script):
    """The least seconds of a processor of three runs of a script."""
    return min(spent(lambda: play(words, folder, script))[0] for _ in range(3))


def most_memory(words, folder, script):
    """The most memory of two runs of a script, in MB; of more where none was seen, since they were too short."""
    seen = [play(words, folder, script, watched=True)[1] for _ in range(2)]
    while not any(seen) and len(seen) < 10:
        seen.append(play(words, folder, script, watched=True)[1])
    return max(seen)


def answer_time(*words):
    """The least seconds of a processor of three runs of a program without input, and what it printed."""
    runs = [spent(lambda: subprocess.run(words, stdout=subprocess.PIPE, check=True).stdout.decode().strip()) for _ in range(3)]
    return min(runs)[0], runs[0][1]


def counted(words, **how):
    """The instructions of a run, by callgrind; none where that is not installed. The C library is told to use no repeated store or move, of
    which callgrind counts each byte."""
    if not shutil.which("valgrind"):
        return None
    plainly = dict(os.environ, GLIBC_TUNABLES="glibc.cpu.x86_rep_stosb_threshold=1000000000:glibc.cpu.x86_rep_movsb_threshold=1000000000")
    done = subprocess.run(["valgrind", "--tool=callgrind", "--callgrind-out-file=/dev/null", *words], stderr=subprocess.PIPE, env=plainly,
                          check=True, **how)
    return int(re.search(rb"Collected : (\d+)", done.stderr).group(1))


def instructions(words, folder, script):
    """The instructions of a script, played in a folder of its own."""
    shutil.rmtree(folder, ignore_errors=True)
    os.mkdir(folder)
    with open(script, "rb") as source, open(os.path.join(folder, "printed"), "wb") as out:
        return counted(words, stdin=source, stdout=out, cwd=folder)


def ratio(one, other):
    """How many times the other one is, as a cell; none where one was not measured, or is lost in what else the runs took."""
    return f"{one / other:.2f}" if min(one or 0, other or 0) > 0 else ""


BESIDE = ("time", "to plain", "instructions a line", "to plain", "memory", "to plain")


def compared(plain, folder, script, word="run"):
    """What the plain program and the proved one take for a script, which it plays by this word: seconds, instructions and memory of each.
    Ends where the two printed other lines or left other files."""
    found = []
    for name, words in (("plain", [plain] + [word] * (word != "run")), ("proved", [program(), word])):
        where = os.path.join(folder, name)
        taken = instructions(words, where, script)
        found.append((processor_time(words, where, script), taken, most_memory(words, where, script)))
    if differ(os.path.join(folder, "plain"), os.path.join(folder, "proved")):
        sys.exit(f"the two differ: {script}")
    return found


def beside(plain, folder, script, lines):
    """The cells of `BESIDE` for a script of so many lines: what the program takes, and how many times what the plain one takes."""
    return cells(compared(plain, folder, script), lines)


def cells(found, lines):
    """The cells of `BESIDE` for what a script of so many lines took."""
    (least, few, small), (seconds, taken, memory) = found
    return (f"{seconds * 1e3:.0f} ms", ratio(seconds, least), f"{taken / lines:,.0f}" if taken else "", ratio(taken, few), f"{memory:.1f} MB",
            ratio(memory, small))


def compare_rates(what, source, count):
    """The table of how many things of this name a second the proved program makes, beside a plain one: both are told how many, and print the
    same line."""
    made = proved("library_bench", what, "1")
    with tempfile.TemporaryDirectory() as folder:
        plain = build(source, folder)
        table("How many", "proved", "plain", "to plain, in time", "half of them, in time")
        least, wanted = answer_time(plain, count)
        seconds, found = answer_time(made, what, count)
        if found != wanted:
            sys.exit(f"the two make other {what}: {found}, {wanted}")
        half, _ = answer_time(made, what, str(int(count) // 2))
        row(f"{int(count):,} {what}", *(f"{int(count) / one:,.0f} a second" for one in (seconds, least)), ratio(seconds, least),
            ratio(half, seconds))
