"""A server that runs a program for each change of an account, beside its connections.

    python3 trials/programs_beside.py PROGRAM

In an empty folder. First the times of a thousand calls in ten seconds, while another client makes ten users: without a
program, and with one that sleeps for a second. Then a server whose program fails, which ends once its one connection
has ended, the next server over its store, and `hooks`. Then a server under a load of creations, killed at random
moments twenty times and started again: the program notes each change that it is run for, and ends with 1 in about one
of five runs. After each kill, and after `hooks` in the end, the notes are compared with the store.
"""
import contextlib
import os
import random
import sqlite3
import stat
import subprocess
import threading
import time

from common import Server, bound, call, read_pdu, request, words, write_configuration

PORT = 4157
SLEEPING = """#!/bin/sh
echo "$*" >> "{notes}"
sleep 1
"""
NOTING = """#!/bin/sh
end=$(($$ % 5 == 0))
echo "$end $*" >> "{notes}"
exit $end
"""


def with_program(path, text, notes):
    with open(path, "w") as file:
        file.write(text.format(notes=os.path.abspath(notes)))
    os.chmod(path, os.stat(path).st_mode | stat.S_IXUSR)
    return os.path.abspath(path)


def configure(path, program=None, workers=4, links=0, tries=100):
    write_configuration(path, PORT, f"{workers}\nlinks = {links}", max_calls=65536, max_conns=1024)
    if program:
        with open(path, "a") as file:
            file.write(f'\n[hook]\nprogram = "{program}"\ntries = {tries}\n')


def lines_of(path):
    if not os.path.exists(path):
        return []
    with open(path) as file:
        return file.read().splitlines()


def latencies(program, configuration):
    """The times of a thousand calls on one connection, while another client makes ten users."""
    server = Server(program, configuration, "")
    maker = threading.Thread(target=lambda: [call(program, PORT, "create-user", "CORP", f"u{n}") for n in range(10)])
    maker.start()
    times = []
    with bound(PORT) as link:
        for number in range(1000):
            began = time.monotonic()
            link.sendall(request(number + 2))
            read_pdu(link)
            times.append(time.monotonic() - began)
            time.sleep(0.01)
    maker.join()
    server.end()
    times.sort()
    return times


def told(times):
    shares = [("median", 0.5), ("99 of 100", 0.99), ("999 of 1000", 0.999), ("slowest", 1.0)]
    return ", ".join(f"{name} {1000 * times[int(share * (len(times) - 1))]:.2f} ms" for name, share in shares)


def measure(program):
    configure("plain.toml")
    print("without a program:", told(latencies(program, "plain.toml")), flush=True)
    configure("slow.toml", with_program("slow.sh", SLEEPING, "slow.txt"))
    times = latencies(program, "slow.toml")
    print("beside sleep 1:   ", told(times) + f"; {len(lines_of('slow.txt'))} programs were started", flush=True)


def hold(program):
    """A server of one connection, whose program fails; the next server, whose program doesn't; and `hooks`."""
    configure("held.toml", "false", workers=1, links=1, tries=3)
    server = Server(program, "held.toml", "held.db", "held.txt")
    made = call(program, PORT, "create-user", "CORP", "alice")
    print(f"held: the client has {made}, the server ended with {server.process.wait()} and said:")
    print("".join("    " + line + "\n" for line in lines_of("held.txt")) + f"changes left: {left('held.db')}")
    configure("mended.toml", with_program("mended.sh", NOTING.replace("$$", "1"), "mended.txt"))
    server = Server(program, "mended.toml", "held.db")
    time.sleep(3)
    print(f"the next server ran, in 3 seconds without a call: {runs_of('mended.txt')}")
    call(program, PORT, "create-user", "CORP", "bob")
    time.sleep(3)
    server.end()
    print(f"and after one more change: {runs_of('mended.txt')}, changes left: {left('held.db')}")
    done = subprocess.run([program, "hooks", "mended.toml", "held.db"], stderr=subprocess.DEVNULL)
    print(f"`hooks` ended with {done.returncode}, having run {len(runs_of('mended.txt')) - 2} more", flush=True)


def pairs(store, first):
    """The pairs of a store whose keys begin with this byte: the key after it, and the value."""
    with contextlib.closing(sqlite3.connect(store)) as base:
        found = base.execute("select key, value from pairs where hex(key) like ? order by key", (f"{first:02X}%",))
        return [(key[1:], value) for key, value in found]


def left(store):
    """The numbers of the changes that are left."""
    return [int.from_bytes(number, "big") for number, _ in pairs(store, 0x71)]


def added(store):
    """How many changes were added so far."""
    return sum(int.from_bytes(value, "little") - 1 for key, value in pairs(store, 0x6E) if not key)


def runs_of(notes):
    """The runs so far: the change's number, whether it ended with 0, and the other arguments."""
    runs = []
    for line in lines_of(notes):
        end, number, arguments = line.split(" ", 2)
        runs.append((int(number), end == "0", arguments))
    return runs


def faults(store, runs, starts):
    """What is wrong: of the order of the runs, where each start goes on with the least change that was left, and of
    what the store has. A start is the count of runs before it, and the least change that was left."""
    found = []
    wanted = 1
    for place, (number, well, arguments) in enumerate(runs):
        wanted = starts.get(place, wanted)
        if number != wanted:
            found.append(f"change {number} was run where {wanted} was next")
        if not arguments.startswith(f"create user CORP {999 + number} "):
            found.append(f"change {number} has {arguments}")
        wanted = number + 1 if well else number
    rest = left(store)
    if rest != list(range(added(store) + 1 - len(rest), added(store) + 1)):
        found.append(f"of {added(store)} changes {rest} are left")
    out = added(store) - len(rest)
    if out not in (wanted - 1, wanted - 2):
        found.append(f"{out} changes are out of the store, and {wanted - 1} ended with 0")
    return found


def load(program, first, stopping):
    made = first
    while not stopping.is_set():
        try:
            call(program, PORT, "create-user", "CORP", f"user{made}")
        except subprocess.TimeoutExpired:
            return
        made += 1


def is_running(path):
    for process in os.listdir("/proc"):
        with contextlib.suppress(OSError), open(f"/proc/{process}/cmdline") as arguments:
            if path in arguments.read():
                return True
    return False


def kill(program, configuration, hook, start):
    """Starts the server, and kills it under a load of three clients."""
    server = Server(program, configuration, "killed.db")
    stopping = threading.Event()
    makers = [threading.Thread(target=load, args=(program, 100000 * start + 10000 * n, stopping)) for n in range(3)]
    for maker in makers:
        maker.start()
    time.sleep(random.uniform(0.3, 6.0))
    server.end(9)
    stopping.set()
    for maker in makers:
        maker.join()
    while is_running(hook):
        time.sleep(0.02)


def main():
    (program,) = words("PROGRAM")
    measure(program)
    hold(program)
    hook = with_program("noting.sh", NOTING, "notes.txt")
    configure("noting.toml", hook)
    random.seed(58)
    starts, met, wrong = {}, [], []
    for start in range(20):
        kill(program, "noting.toml", hook, start)
        wrong += faults("killed.db", runs_of("notes.txt"), starts)
        met.append((added("killed.db"), len(left("killed.db"))))
        starts[len(runs_of("notes.txt"))] = met[-1][0] + 1 - met[-1][1]
    print("changes added and left at each kill:", " ".join(f"{all_of}/{rest}" for all_of, rest in met))
    done = subprocess.run([program, "hooks", "noting.toml", "killed.db"], stderr=subprocess.DEVNULL)
    runs = runs_of("notes.txt")
    wrong += faults("killed.db", runs, starts)
    well = [number for number, ended, _ in runs if ended]
    print(f"killed 20 times, and `hooks` ended with {done.returncode}: {added('killed.db')} changes, "
          f"{len(left('killed.db'))} left; {len(runs)} runs, {len(well)} of which ended with 0, for "
          f"{len(set(well))} changes; {len(wrong)} faults")
    if wrong or done.returncode != 0 or left("killed.db") or set(well) != set(range(1, added("killed.db") + 1)):
        raise SystemExit("\n".join(["a change was skipped, or taken out though its program didn't end with 0"] + wrong))


if __name__ == "__main__":
    main()
