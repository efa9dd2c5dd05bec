#!/usr/bin/env python3
"""Runs programs of the account server side by side, by turns, and prints a table of medians.

    bench/turns.py [-r ROUNDS] [-n CALLS] [-k KIND,..] [-c CONNECTIONS,..] [-u USERS] [-s STORE] NAME=PROGRAM ..

Each PROGRAM is started once, with 256 workers at sockets in files and a store in memory (or a new one in the file
STORE.NAME), and USERS users are made there by `calls`, which stands beside this script. Then, for each KIND and each
number of connections, ROUNDS times, each program in its turn is asked CALLS calls. A program takes 1,000,000 calls in
all. Ratios are to the last program, in the same round.
"""
import argparse
import os
import statistics
import subprocess
import tempfile
import time

HERE = os.path.dirname(os.path.abspath(__file__))
LISTENERS, WORKERS = 4, 64


def configuration(addresses):
    listeners = "".join(
        f'\n[[listener]]\nname = "l{k}"\naddress = "{at}"\nworkers = {WORKERS}\n'
        'token = ["S-1-5-21-1-2-3-500", "S-1-1-0", "S-1-5-32-544"]\n'
        for k, at in enumerate(addresses)
    )
    return (
        '[domain]\nname = "CORP"\nsid = "S-1-5-21-1-2-3"\n' + listeners +
        "\n[limits]\nmax_calls = 1000000\nmax_bytes = 1073741824\nmax_conns = 65536\n"
    )


class Server:
    def __init__(self, name, program, folder, store):
        self.name = name
        self.addresses = [f"unix:{folder}/{name}.{k}" for k in range(LISTENERS)]
        file = f"{folder}/{name}.toml"
        with open(file, "w") as it:
            it.write(configuration(self.addresses))
        words = [program, "serve", file, f"{store}.{name}" if store else ""]
        self.process = subprocess.Popen(words, stderr=subprocess.PIPE, text=True)
        for _ in range(LISTENERS):
            line = self.process.stderr.readline()
            if "listening" not in line:
                raise SystemExit(f"{name}: {line}")

    def ask(self, kind, connections, calls, users):
        words = [f"{HERE}/calls", "-k", kind, "-c", connections, "-n", calls, "-u", users, "-p", self.process.pid]
        said = subprocess.run([str(it) for it in words] + self.addresses, capture_output=True, text=True)
        if said.returncode:
            raise SystemExit(f"{self.name}: {said.stderr}")
        it = said.stdout.split()
        return {it[k]: float(it[k + 1]) for k in range(1, len(it), 2)}

    def stop(self):
        self.process.kill()
        self.process.wait()


def main():
    parser = argparse.ArgumentParser()
    parser.add_argument("-r", type=int, default=5)
    parser.add_argument("-n", type=int, default=10000)
    parser.add_argument("-k", default="names:1")
    parser.add_argument("-c", default="1,2,4,16,64,256")
    parser.add_argument("-u", type=int, default=1000)
    parser.add_argument("-s", default="")
    parser.add_argument("programs", nargs="+")
    words = parser.parse_args()
    with tempfile.TemporaryDirectory() as folder:
        servers = [Server(*it.split("=", 1), folder, words.s) for it in words.programs]
        try:
            for it in servers:
                it.ask("fill", 1, words.u, words.u)
            print("| kind | connections | program | calls a second | ratio | processor us a call | median wait us "
                  "| slowest hundredth us | bytes a call |\n|---|---|---|---|---|---|---|---|---|")
            for kind in words.k.split(","):
                for connections in words.c.split(","):
                    told = [[] for _ in servers]
                    for _ in range(words.r):
                        for k, it in enumerate(servers):
                            told[k].append(it.ask(kind, connections, words.n, words.u))
                            time.sleep(0.05)
                    for k, it in enumerate(servers):
                        def of(word):
                            return statistics.median(row[word] for row in told[k])
                        ratio = statistics.median(a["a_second"] / b["a_second"] for a, b in zip(told[k], told[-1]))
                        print(f"| {kind} | {connections} | {it.name} | {of('a_second'):,.0f} | {ratio:.2f} "
                              f"| {of('cpu_us'):.1f} | {of('median_us'):,.0f} | {of('slow_us'):,.0f} "
                              f"| {of('bytes'):,.0f} |", flush=True)
        finally:
            for it in servers:
                it.stop()


main()
