"""Refuses each allocation in turn, one a run, and sees how the run ends.

    python3 trials/refused_memory.py PROGRAM [RUN..]

In an empty folder, with the program that ./first-look or ./account builds: built/unproved/account, which checks each
access, or built/proved/account. In a copy of it the two functions that allocate and that grow an allocation call malloc
and realloc through a count, and the call of one number is refused. What the C library allocates for itself isn't. The
runs are

    first   the first run of a replay: a bind, an opening and its closing
    gen     gen 1
    audit   the audit of the first run's events
    call    domains, of a server of the program as it is
    serve   two links, each with a bind, two openings, the creation of a user and the closing of its handle
    disk    the same over a store in a file, and before the second link no write to a file has room any more, so that
            the commit of its creation fails; opening a store takes seconds in a program that checks each access, and
            has thousands of allocations, so that of such a one only 48 are refused, evenly spread
    commit  a replay over a keeper in memory, of which one commit fails: PROGRAM is then the program of tests that the
            gate leaves, crates/server_vectors/out/server_vectors_tests, and the run one of its tests

For each run a line says how many allocations it has, and then how often it ended in which way. A run that crashes,
hangs, or says or stores what it may not is told besides, with its number. The exit code is 1 where there is one.
"""
import collections
import contextlib
import os
import re
import resource
import shutil
import signal
import socket
import sqlite3
import struct
import subprocess
import sys
import time

from common import BIND, Server, connect, pdu, read_pdu, write_configuration

TOP = os.path.dirname(os.path.dirname(os.path.abspath(__file__)))
NEVER = 77777777
PAGE = 4096
PORT = 4153

CLOSED, CREATED, OPENED, CONNECTED = 1, 50, 7, 57
NO_MEMORY, NOT_STORED, NO_HANDLE = 0xC0000017, 0xC0000158, 0x1C00001A


class Image:
    """An ELF program for x86-64: where its functions and its segments are."""

    def __init__(self, whole):
        self.whole = whole
        self.headers, sections = struct.unpack_from("<QQ", whole, 32)
        count = struct.unpack_from("<H", whole, 56)[0]
        self.segments = [struct.unpack_from("<IIQQQQQQ", whole, self.headers + 56 * at) for at in range(count)]
        self.symbols = {}
        for at in range(struct.unpack_from("<H", whole, 60)[0]):
            kind, _, _, start, size, link = struct.unpack_from("<IQQQQI", whole, sections + 64 * at + 4)
            if kind == 2:
                names = struct.unpack_from("<Q", whole, sections + 64 * link + 24)[0]
                self.add_symbols(start, size, names)

    def add_symbols(self, start, size, names):
        for at in range(start, start + size, 24):
            name, _, _, _, value, length = struct.unpack_from("<IBBHQQ", self.whole, at)
            end = self.whole.index(b"\0", names + name)
            self.symbols[self.whole[names + name:end].decode()] = value, length

    def place_of(self, address):
        """Where in the file the byte of an address stands, or None where it isn't of the code."""
        for kind, flags, start, first, _, size, _, _ in self.segments:
            if kind == 1 and flags & 1 and first <= address < first + size:
                return address - first + start
        return None

    def call_in(self, function):
        """The address of the one call that a function makes, and what it calls."""
        first, size = self.symbols[function]
        calls = []
        for at in range(first, first + size - 4):
            code = self.whole[self.place_of(at):self.place_of(at) + 5]
            called = at + 5 + struct.unpack_from("<i", code, 1)[0]
            if code[0] == 0xE8 and self.place_of(called) is not None:
                calls.append((at, called))
        if len(calls) != 1:
            raise SystemExit("the program allocates in another way than this trial knows")
        return calls[0]

    def new_segment(self, size):
        """The address of new pages after all others and their place in the file, and the program header of them, which
        takes the place of a note's."""
        notes = [at for at, segment in enumerate(self.segments) if segment[0] == 4]
        if not notes:
            raise SystemExit("the program has no room for a count")
        end = max(first + held for kind, _, _, first, _, _, held, _ in self.segments if kind == 1)
        address, place = -(-end // PAGE) * PAGE, -(-len(self.whole) // PAGE) * PAGE
        header = struct.pack("<IIQQQQQQ", 1, 7, place, address, address, size, size, PAGE)
        return address, place, self.headers + 56 * notes[-1], header


class Program:
    """A copy of the program, in which the allocation of a number fails, or ends it by an instruction that is none."""

    def __init__(self, built, path):
        self.path, self.places = path, []
        image = Image(open(built, "rb").read())
        self.is_checked = "__asan_init" in image.symbols
        address, place, header_at, header = image.new_segment(2 * PAGE)
        shutil.copyfile(built, path)
        os.chmod(path, 0o755)
        with open(path, "r+b") as file:
            file.seek(header_at)
            file.write(header)
            for at, function in (0, "rattle_alloc"), (32, "rattle_realloc"):
                call, called = image.call_in(function)
                file.seek(image.place_of(call + 1))
                file.write(struct.pack("<i", address + at - call - 5))
                file.seek(place + at)
                file.write(counting(address + at, address + PAGE, called))
                self.places.append(place + at)
            file.truncate(place + 2 * PAGE)

    def refuse(self, number, ends=False):
        with open(self.path, "r+b") as file:
            for at in self.places:
                file.seek(at + 16)
                file.write(struct.pack("<I", number - 1))
                file.seek(at + 22)
                file.write(b"\x0f\x0b" if ends else b"\x31\xc0")


def counting(at, count, called):
    """mov eax, 1; lock xadd [count], rax; cmp rax, NUMBER; jne to the last; xor eax, eax; ret; jmp called."""
    return b"\xb8\1\0\0\0\xf0\x48\x0f\xc1\x05" + struct.pack("<i", count - at - 14) + b"\x48\x3d" \
        + struct.pack("<I", NEVER) + b"\x75\x03\x31\xc0\xc3\xe9" + struct.pack("<i", called - at - 30)


def crashed(code, errors):
    return code < 0 or b"AddressSanitizer" in errors


class Command:
    """A run that reads and prints, and ends by itself."""

    def __init__(self, words, events=b""):
        self.words, self.events = words, events
        self.own = None

    def run(self, program):
        try:
            done = subprocess.run([program.path, *self.words], input=self.events, capture_output=True, timeout=30)
        except subprocess.TimeoutExpired:
            return "it hangs", b""
        if crashed(done.returncode, done.stderr):
            return "it crashes", done.stderr
        if self.own is None:
            self.own = done.stdout
        return self.kind(done.returncode, done.stdout), done.stderr

    def kind(self, code, printed):
        """How it ended, where it may end so."""
        if code == 0 and printed == self.own:
            return "its own status"
        if code == 0 and self.is_refused(printed):
            return "its own status, and a call is answered STATUS_NO_MEMORY"
        if code == 1 and any(whole.startswith(printed) for whole in [self.own, *self.others()]):
            return "status 1"
        return None

    def others(self):
        """What is printed where a call is answered STATUS_NO_MEMORY."""
        return []

    def is_refused(self, printed):
        return printed in self.others()


class FirstRun(Command):
    """The first run: where its opening is refused, its closing has no handle."""

    def others(self):
        bound, _, _, gone = self.own.splitlines(True)
        refused = b"out 1 0500020310000000300000000200000018000000" + bytes(24).hex().encode() + b"170000c0\n"
        fault = b"out 1 0500032310000000200000000300000000000000000000001a00001c00000000\n"
        return [bound + refused + fault + gone]


class Audit(Command):
    """The audit of the first run: where its opening is refused, no call has a handle."""

    def others(self):
        return [b""]


class Summary(Command):
    """The generator: where a generated call is refused, there is less to be counted, or as much."""

    def is_refused(self, printed):
        fewer, own = ([line.split() for line in text.splitlines()] for text in (printed, self.own))
        return [words[0] for words in fewer] == [words[0] for words in own] \
            and all(int(a[1]) <= int(b[1]) for a, b in zip(fewer, own))


class FailedCommit(Command):
    """A test whose assertion tells what a replay left, where that isn't what its row wants: the status, the history,
    and the lines that were written. Where memory runs out before the replay or after it, the test says so."""

    def __init__(self):
        super().__init__(["tests::replays::a_commit_of_a_replay_fails"])

    def run(self, program):
        try:
            done = subprocess.run([program.path, *self.words], capture_output=True, timeout=30)
        except subprocess.TimeoutExpired:
            return "it hangs", b""
        texts = re.findall(r'^ *(?:left|right): "(.*)"$', done.stderr.decode(), re.M)
        if len(texts) == 2:
            return self.kind_of(*(text.replace("\\n", "\n") for text in texts)), done.stderr
        if crashed(done.returncode, done.stderr):
            return "it crashes", done.stderr
        return "its own status" if done.returncode == 0 else "the test itself has no memory", done.stderr

    def kind_of(self, left, right):
        """How the replay ended, where it may end so. Its calls are the first ones of the row, all of them where it is
        done. Where a call is answered STATUS_NO_MEMORY, those after it may go otherwise, but not without an
        answer by their verdict. Where the world has no memory for the period, its history isn't told."""
        status, calls, lines = parted(left)
        _, whole, own = parted(right)
        if status not in ("Done", "NoMemory"):
            return None
        if "|none|" in left:
            return "status 1" if status == "NoMemory" and lines == own[:len(lines)] else None
        verdicts = [call[3] for call in calls]
        is_done = status == "Done"
        may_be = [call[:3] + call[4:] for call in calls] == [call[:3] + call[4:] for call in whole][:len(calls)] \
            and set(verdicts) <= {"Ran", "NoMemory", "StoreFault(1)"} and verdicts.count("StoreFault(1)") < 2 \
            and verdicts.count("NoMemory") == is_done and lines[:1] == own[:len(lines)][:1] \
            and are_answered(verdicts, lines[1:], is_done) and (not is_done or len(calls) == len(whole))
        if not may_be:
            return None
        return "its own status, and a call is answered STATUS_NO_MEMORY" if is_done else "status 1"


def parted(left):
    """The status, the words of the calls, and the lines."""
    status, history, lines = left.split("|")
    return status, [entry.split() for entry in history.split(";") if entry.startswith("called")], lines.splitlines()


def are_answered(verdicts, lines, is_whole):
    """Whether each line answers the call of its place by its verdict, and where all lines are there, each call has
    one."""
    statuses = [struct.unpack("<I", bytes.fromhex(line[-8:]))[0] for line in lines if line.startswith("out 1 ")]
    answered = all((verdict == "NoMemory") == (status == NO_MEMORY) and
                   (verdict == "StoreFault(1)") == (status == NOT_STORED)
                   for verdict, status in zip(verdicts, statuses))
    return answered and len(statuses) <= len(verdicts) and (not is_whole or len(statuses) == len(verdicts))


def request(call_id, opnum, stub):
    return pdu(0, call_id, struct.pack("<IHH", len(stub), 0, opnum) + stub)


def answer(link):
    """The status of a response or of a fault, and the handle that it begins with or none."""
    kind, whole = read_pdu(link)
    if kind == 3:
        return struct.unpack_from("<I", whole, 24)[0], bytes(20)
    return struct.unpack_from("<I", whole, len(whole) - 4)[0], whole[24:44]


def talk(port, name, seconds):
    """What the calls of a connection are answered, as far as it goes, and whether it was served to its end."""
    answers = []
    units = name.encode("utf-16-le")
    user = struct.pack("<HHIIII", len(units), len(units), 0x20000, len(name), 0, len(name)) + units
    user += bytes(-len(user) % 4) + struct.pack("<II", 0x10, 0x02000000)
    domain = bytes.fromhex("00000002 04000000 0104 000000000005 15000000 01000000 02000000 03000000")
    stubs = [(CONNECTED, struct.pack("<II", 0, 0x02000000)), (OPENED, domain), (CREATED, user), (CLOSED, b"")]
    try:
        with connect(port, seconds) as link:
            link.sendall(BIND)
            read_pdu(link)
            handle = b""
            for call_id, (opnum, stub) in enumerate(stubs, 2):
                link.sendall(request(call_id, opnum, handle + stub))
                status, handle = answer(link)
                answers.append(status)
            link.shutdown(socket.SHUT_WR)
            return answers, link.recv(1) == b""
    except TimeoutError:
        return None, False
    except (OSError, EOFError):
        return answers, False


def may_be(answers, has_room):
    """Whether calls may be answered so: each is done, or memory ran out, which a closing never takes; a creation
    without room on the disk isn't stored; after a refusal there is no handle."""
    has_handle = True
    for place, status in enumerate(answers):
        own = 0 if place != 2 or has_room else NOT_STORED
        allowed = [NO_HANDLE] if not has_handle else [own] if place == 3 else [own, NO_MEMORY]
        if status not in allowed:
            return False
        has_handle = status == 0
    return True


def accounts_in(store):
    """The values of the account domain's accounts in a store, one after the other, or none where it is broken."""
    if not os.path.exists(store):
        return b""
    with contextlib.closing(sqlite3.connect(store)) as base:
        if base.execute("PRAGMA integrity_check").fetchall() != [("ok",)]:
            return None
        if not base.execute("SELECT name FROM sqlite_master WHERE name = 'pairs'").fetchall():
            return b""
        return b"".join(value for (value,) in base.execute("SELECT value FROM pairs WHERE hex(key) LIKE '6100%'"))


def is_right(name, answers, accounts):
    """Whether a user is stored exactly where its creation was answered as done; either way where it wasn't answered."""
    is_stored = name.encode("utf-16-le") in accounts
    if len(answers) > 2:
        return is_stored == (answers[2] == 0)
    return len(answers) == 2 or not is_stored


class Serving:
    """A server without a store or over one in a file, with a door of one link for each of two clients, one after the
    other. Over a store the second one finds no room on the disk."""

    def __init__(self, store):
        self.store = store
        self.seconds = 300 if store else 30
        write_configuration("refused.toml", PORT, "2\nlinks = 1")

    def start(self, program):
        """A write without room fails then, and ends no process by a signal."""
        for end in ("", "-wal", "-shm", "-journal") if self.store else ():
            with contextlib.suppress(FileNotFoundError):
                os.remove(self.store + end)
        return subprocess.Popen([program.path, "serve", "refused.toml", self.store], stdin=subprocess.DEVNULL,
                                stdout=subprocess.DEVNULL, stderr=subprocess.PIPE,
                                preexec_fn=lambda: signal.signal(signal.SIGXFSZ, signal.SIG_IGN))

    def clients(self, server):
        """What both clients are answered."""
        first = talk(PORT, "alice", self.seconds)
        if self.store:
            with contextlib.suppress(ProcessLookupError):
                resource.prlimit(server.pid, resource.RLIMIT_FSIZE, (0, 0))
        return first, talk(PORT, "carol", self.seconds)

    def run(self, program):
        server = self.start(program)
        said = server.stderr.readline()
        first, second = self.clients(server) if b"listening at" in said else (([], False), ([], False))
        try:
            said += server.communicate(timeout=self.seconds)[1]
        except subprocess.TimeoutExpired:
            server.kill()
            return "it hangs", said + server.communicate()[1]
        if crashed(server.returncode, said):
            return "it crashes", said
        return self.kind(server.returncode, first, second), said

    def kind(self, code, first, second):
        """How it ended, where it may end so: what was answered as done is stored, and nothing else."""
        (one, whole), (two, also) = first, second
        if one is None or two is None or code not in (0, 1):
            return None
        if not may_be(one, True) or not may_be(two, not self.store):
            return None
        if self.store and not self.is_stored(one, two):
            return None
        if code == 1:
            return "status 1"
        if NO_MEMORY in one + two:
            return "its own status, and a call is answered STATUS_NO_MEMORY"
        return "its own status" if whole and also else "its own status, and a link ends early"


    def is_stored(self, one, two):
        accounts = accounts_in(self.store)
        return accounts is not None and is_right("alice", one, accounts) and is_right("carol", two, accounts)


def first_run():
    with open(os.path.join(TOP, "examples", "first.events"), "rb") as file:
        return FirstRun(["replay", os.path.join(TOP, "examples", "first.toml")], file.read())


def audit():
    with open(os.path.join(TOP, "examples", "first.events"), "rb") as file:
        return Audit(["audit", os.path.join(TOP, "examples", "first.toml")], file.read())


def allocations(program, run):
    """How many allocations a run has: the first number at which the program isn't ended."""
    low, high = 0, 1024
    while True:
        program.refuse(high, ends=True)
        if run.run(program)[0] != "it crashes":
            break
        low, high = high, 2 * high
    while high - low > 1:
        middle = (low + high) // 2
        program.refuse(middle, ends=True)
        low, high = (middle, high) if run.run(program)[0] == "it crashes" else (low, middle)
    return low


def sweep(built, name, run, most_checked=None):
    """Each allocation in turn, or so many at most of a program that checks each access. How many runs ended in a way in
    which none may end."""
    program = Program(built, os.path.abspath(name + ".program"))
    program.refuse(NEVER)
    kind, errors = run.run(program)
    if kind != "its own status":
        raise SystemExit(f"{name} without a refusal: {kind} {errors.decode(errors='replace')}")
    count, began = allocations(program, run), time.time()
    most = most_checked if program.is_checked and most_checked else count
    kinds, wrong = collections.Counter(), 0
    for number in range(1, count + 1, -(-count // most)):
        program.refuse(number)
        kind, errors = run.run(program)
        kinds[kind or "otherwise"] += 1
        if kind in (None, "it crashes", "it hangs"):
            wrong += 1
            print(f"{name} {number}: {kind or 'it may not end so'}", errors.decode(errors="replace")[:2000], flush=True)
    print(f"{name}: {count} allocations, {sum(kinds.values())} refused, {time.time() - began:.0f} s;",
          "; ".join(f"{count} {kind}" for kind, count in kinds.items()), flush=True)
    return wrong


def main():
    if len(sys.argv) < 2:
        raise SystemExit(__doc__)
    resource.setrlimit(resource.RLIMIT_CORE, (0, 0))
    built, wrong = os.path.abspath(sys.argv[1]), 0
    for name in sys.argv[2:] or ["first", "gen", "audit", "call", "serve", "disk"]:
        if name == "first":
            wrong += sweep(built, name, first_run())
        elif name == "audit":
            wrong += sweep(built, name, audit())
        elif name == "gen":
            wrong += sweep(built, name, Summary(["gen", "1"]))
        elif name == "serve":
            wrong += sweep(built, name, Serving(""))
        elif name == "disk":
            wrong += sweep(built, name, Serving("refused.db"), 48)
        elif name == "call":
            write_configuration("call.toml", PORT + 1, 2)
            server = Server(built, "call.toml", "")
            wrong += sweep(built, name, Command(["call", f"tcp:127.0.0.1:{PORT + 1}", "domains"]))
            server.end()
        elif name == "commit":
            wrong += sweep(built, name, FailedCommit())
        else:
            raise SystemExit(__doc__)
    raise SystemExit(1 if wrong else 0)


main()
