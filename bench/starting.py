#!/usr/bin/env python3
"""How long a server takes from its start to its first answer, over stores of four sizes, by turns.

    bench/starting.py [-r ROUNDS] [-n ROWS,..] [-d DISTRIBUTION,..] PROGRAM

For each number N and each DISTRIBUTION a store is made in a new folder: PROGRAM makes it, and N users are written into
it, as docs/SPECIFICATION.md has their pairs. Each user is a member of Domain Users. Besides there are N SIDs with one
sub-authority in no order, which are

    one       members of one alias
    tens      members of aliases of ten each
    policy    accounts of the policy, with a privilege each
    none      not there

A round starts PROGRAM over each store in its turn, and binds to it. Two tables are printed, of the least processor time
and of the least wall time of the rounds, in seconds, with the multiples of the row before.
"""
import argparse
import os
import socket
import sqlite3
import struct
import subprocess
import tempfile
import time

CONFIGURATION = """[domain]
name = "CORP"
sid = "S-1-5-21-1-2-3"

[[listener]]
name = "a"
address = "unix:{socket}"
token = ["S-1-5-21-1-2-3-500", "S-1-1-0", "S-1-5-32-544"]
"""
NDR = bytes.fromhex("045d888aeb1cc9119fe808002b10486002000000")
SAMR = bytes.fromhex("785734123412cdabef000123456789ac01000000")
BIND_BODY = struct.pack("<HHIB3x", 4280, 4280, 0, 1) + struct.pack("<HBx", 0, 1) + SAMR + NDR
BIND = struct.pack("<BBBBIHHI", 5, 0, 11, 3, 16, 16 + len(BIND_BODY), 0, 1) + BIND_BODY
TICK = os.sysconf("SC_CLK_TCK")


class Start:
    """A server that was started over a store and has answered a bind."""

    def __init__(self, program, folder, store):
        path = f"{folder}/socket"
        if os.path.exists(path):
            os.remove(path)
        file = f"{folder}/configuration.toml"
        with open(file, "w") as it:
            it.write(CONFIGURATION.format(socket=path))
        began = time.monotonic()
        self.process = subprocess.Popen([program, "serve", file, store], stderr=subprocess.PIPE)
        if b"listening" not in self.process.stderr.readline():
            raise SystemExit("the server doesn't listen")
        with socket.socket(socket.AF_UNIX) as link:
            link.connect(path)
            link.sendall(BIND)
            if len(link.recv(16)) != 16:
                raise SystemExit("the bind isn't answered")
            self.wall = time.monotonic() - began
            with open(f"/proc/{self.process.pid}/stat") as it:
                told = it.read().rsplit(")", 1)[1].split()
            self.processor = (int(told[11]) + int(told[12])) / TICK
        self.process.kill()
        self.process.wait()
        self.process.stderr.close()


def text(it):
    return struct.pack("<H", len(it)) + it.encode("utf-16-le")


def sid(*sub_authorities):
    return struct.pack("BB", 1, len(sub_authorities)) + bytes([0, 0, 0, 0, 0, 5]) + b"".join(
        struct.pack("<I", it) for it in sub_authorities)


def scattered(k):
    return sid(21, 9, 9, 9, k * 2654435761 % 2 ** 32)


def pairs(count, distribution):
    """The pairs of the users, and of what the distribution asks for; and the next RID after them."""
    for k in range(count):
        name = "u%07d" % (k * 7919 % 10000019)
        yield b"a\0" + struct.pack(">I", 1000 + k), struct.pack("<BII", 1, 16, 513) + text(name) + text("") + text("")
        yield b"m" + struct.pack(">II", 513, 1000 + k), struct.pack("<I", 7)
        if distribution == "one":
            yield b"l\1" + struct.pack(">I", 545) + scattered(k), b""
        if distribution == "tens":
            alias = 1000 + count + k // 10
            if k % 10 == 0:
                yield (b"a\0" + struct.pack(">I", alias),
                       struct.pack("<BII", 4, 0, 0) + text("alias%07d" % k) + text("") + text(""))
            yield b"l\0" + struct.pack(">I", alias) + scattered(k), b""
        if distribution == "policy":
            yield b"s" + scattered(k), struct.pack("<IBBI", 0, 1, 23, 0)


def make(program, folder, store, count, distribution):
    Start(program, folder, store)
    with sqlite3.connect(store) as base:
        base.executemany("INSERT INTO pairs VALUES (?, ?)", sorted(pairs(count, distribution)))
        (domain,) = base.execute("SELECT value FROM pairs WHERE key = ?", (b"d\0",)).fetchone()
        after = struct.pack("<I", 1000 + 2 * count) + domain[4:]
        base.execute("UPDATE pairs SET value = ? WHERE key = ?", (after, b"d\0"))
    base.close()


def main():
    parser = argparse.ArgumentParser()
    parser.add_argument("-r", type=int, default=5)
    parser.add_argument("-n", default="1000,10000,30000,100000")
    parser.add_argument("-d", default="one,tens,policy,none")
    parser.add_argument("program")
    words = parser.parse_args()
    sizes, distributions = [int(it) for it in words.n.split(",")], words.d.split(",")
    told = {}
    with tempfile.TemporaryDirectory() as folder:
        for size in sizes:
            for distribution in distributions:
                make(words.program, folder, f"{folder}/{distribution}.{size}", size, distribution)
        for _ in range(words.r):
            for size in sizes:
                for distribution in distributions:
                    start = Start(words.program, folder, f"{folder}/{distribution}.{size}")
                    told.setdefault((size, distribution), []).append((start.processor, start.wall))
    for which, name in ((0, "processor time"), (1, "wall time")):
        print(f"| {name} | " + " | ".join(distributions) + " |\n" + "|---" * (1 + len(distributions)) + "|")
        before = None
        for size in sizes:
            least = [min(it[which] for it in told[size, distribution]) for distribution in distributions]
            shown = [f"{now:.2f} s" + (f" ({now / was:.1f})" if before and was else "")
                     for now, was in zip(least, before or least)]
            print(f"| {size:,} | " + " | ".join(shown) + " |")
            before = least
        print()


main()
