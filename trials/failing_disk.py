"""Lets each write and each sync of a commit fail in turn, by strace, and compares the answers with the next start.

    python3 trials/failing_disk.py PROGRAM

In an empty folder. PROGRAM is the program `account` by its absolute path. For each kind of call of the system that a
commit makes, for EIO and ENOSPC, and for the first failure, the second and so on until none is met: a server over a
copy of one store makes a user and deletes another, and then makes a third one, by which it is seen that it serves
changes again; it is killed, or ended by SIGTERM; and a server without failures says which users there are. A line for
each difference, and at the end how many runs there were.
"""
import os
import shutil
import signal

from common import Server, call, words, write_configuration

PORT = 4151
KINDS = ["pwrite64", "fdatasync", "fsync", "ftruncate"]


def users(program):
    code, printed = call(program, PORT, "users", "CORP")
    if code:
        raise SystemExit(f"no users: {code} {printed}")
    return {line.split()[1] for line in printed.splitlines()}


def copy_store(number):
    for end in ("", "-wal"):
        shutil.copyfile("base.db" + end, f"{number}.db" + end)


def run(program, kind, error, when, sign, number):
    """What differs, and whether a call failed."""
    copy_store(number)
    traced = f"trace{number}"
    server = Server(program, "serving.toml", f"{number}.db", f"errors{number}")
    tracer = server.fail(kind, error, when, traced)
    asked = [("create-user", "CORP", "bob"), ("delete-user", "CORP", "alice"), ("create-user", "CORP", "carol")]
    answers = [call(program, PORT, *one) for one in asked]
    server.end(sign)
    tracer.wait()
    met = "(INJECTED)" in open(traced).read()
    server = Server(program, "serving.toml", f"{number}.db", f"again{number}")
    found = users(program)
    server.end()
    bob, alice, carol = (code == 0 for code, _ in answers)
    wanted = {"Administrator", "Guest"} | ({"bob"} if bob else set()) | (set() if alice else {"alice"}) \
        | ({"carol"} if carol else set())
    said = open(f"errors{number}").read()
    why = []
    if found != wanted:
        why.append(f"answers {answers}, users {sorted(found)}")
        why.append("the line on the refused change is there" if "may be in the store" in said else "nothing was said")
    elif not carol and not (bob and alice):
        why.append(f"refused again after the failure: {answers}")
    for path in (f"{number}.db", f"{number}.db-wal", traced, f"errors{number}", f"again{number}"):
        if os.path.exists(path) and not why:
            os.remove(path)
    return why, met, not (bob and alice and carol)


def main():
    (program,) = words("PROGRAM")
    write_configuration("serving.toml", PORT, 1)
    server = Server(program, "serving.toml", "base.db")
    call(program, PORT, "create-user", "CORP", "alice")
    server.end()
    number, differing, refused = 0, 0, 0
    for kind in KINDS:
        for error in ("EIO", "ENOSPC"):
            for when in range(1, 200):
                signs = (signal.SIGKILL, signal.SIGTERM)
                met_any = False
                for sign in signs:
                    number += 1
                    why, met, failed = run(program, kind, error, when, sign, number)
                    met_any |= met
                    refused += failed
                    if why:
                        differing += 1
                        print(f"{kind} {error} {when} {sign.name}: " + "; ".join(why), flush=True)
                if not met_any:
                    print(f"{kind} {error}: {when - 1} calls failed in turn", flush=True)
                    break
    print(f"{number} runs, {refused} with a refused change, {differing} that differ")


main()
