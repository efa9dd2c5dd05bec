"""A server that is started with standard input and error closed, the modes of its files, and SIGHUP.

    python3 trials/closed_streams.py PROGRAM

In an empty folder.
"""
import os
import signal
import subprocess
import time

from common import bound, words, write_configuration

PORT = 4157

SOCKET = '[[listener]]\nname = "b"\naddress = "unix:sock"\ntoken = ["S-1-1-0"]\n'


def mode_of(path):
    return oct(os.stat(path).st_mode & 0o777)


def close_streams():
    os.close(0)
    os.close(2)


def main():
    (program,) = words("PROGRAM")
    write_configuration("serving.toml", PORT, 1)
    with open("serving.toml", "r+") as file:
        text = file.read().replace("[limits]", SOCKET + "[limits]")
        file.seek(0)
        file.write(text)
    server = subprocess.Popen([program, "serve", "serving.toml", "accounts.db"], stdout=subprocess.DEVNULL,
                              preexec_fn=close_streams)
    for _ in range(1200):
        try:
            bound(PORT).close()
            break
        except OSError:
            time.sleep(0.05)
    folder = f"/proc/{server.pid}/fd"
    at = {int(number): os.readlink(f"{folder}/{number}") for number in os.listdir(folder)}
    print("0, 1 and 2 are", at[0], at[1], at[2])
    others = sorted(number for number, name in at.items() if "accounts.db" in name or "socket:" in name)
    print("files and sockets have", others)
    for path in ("accounts.db", "accounts.db-wal", "sock"):
        print(path, mode_of(path))
    server.send_signal(signal.SIGHUP)
    print("SIGHUP ends it:", server.wait() == -signal.SIGHUP)


main()
