"""Copies of a store that are made while its server changes it, as docs/OPERATING.md says.

    python3 trials/copy_while_serving.py PROGRAM

In an empty folder. Each copy for which the log's head stayed the same is opened: it is whole, and has each user that
was answered before the copy began.
"""
import shutil
import sqlite3
import threading
import time

from common import Server, call, words, write_configuration

PORT = 4158
COPIES = 20

answered = []
is_over = threading.Event()


def make_users(program):
    number = 0
    while not is_over.is_set():
        code, printed = call(program, PORT, "create-user", "CORP", f"user{number}")
        if code == 0:
            answered.append(int(printed.removeprefix("created ")))
        number += 1


def head_of(path):
    with open(path, "rb") as file:
        return file.read(32)


def copy(number):
    """How many users were answered before, and whether the copy counts."""
    before = len(answered)
    head = head_of("accounts.db-wal")
    shutil.copyfile("accounts.db", f"copy{number}.db")
    shutil.copyfile("accounts.db-wal", f"copy{number}.db-wal")
    return before, head == head_of("accounts.db-wal")


def is_good(number, before):
    with sqlite3.connect(f"copy{number}.db") as store:
        whole = store.execute("PRAGMA integrity_check").fetchone()[0] == "ok"
        keys = {row[0] for row in store.execute("SELECT key FROM pairs")}
    return whole and all(b"a\0" + rid.to_bytes(4, "big") in keys for rid in answered[:before])


def main():
    (program,) = words("PROGRAM")
    write_configuration("serving.toml", PORT, 4)
    server = Server(program, "serving.toml", "accounts.db")
    makers = [threading.Thread(target=make_users, args=(program,)) for _ in range(1)]
    for maker in makers:
        maker.start()
    good = again = 0
    for number in range(COPIES):
        time.sleep(1)
        before, counts = copy(number)
        if not counts:
            again += 1
        elif is_good(number, before):
            good += 1
        else:
            print("a copy that isn't good:", number)
    is_over.set()
    for maker in makers:
        maker.join()
    server.end()
    print(f"{COPIES} copies: {good} good, {again} to be made again; {len(answered)} users were made meanwhile")


main()
