"""Peers that say nothing, and one that takes nothing, against a server with two workers.

    python3 trials/silent_peers.py PROGRAM

In an empty folder. It takes ten minutes: the limits of time are those of the program.
"""
import time

from common import BIND, Server, bound, connect, read_pdu, request, words, write_configuration

PORT = 4153


def main():
    (program,) = words("PROGRAM")
    write_configuration("serving.toml", PORT, 2)
    server = Server(program, "serving.toml", "")
    began = time.monotonic()
    silent, greedy = bound(PORT, 2000), connect(PORT)
    greedy.sendall(BIND)
    greedy.settimeout(1)
    try:
        for number in range(2, 2000000):
            greedy.sendall(request(number))
    except OSError:
        print("the one that takes nothing is no longer heard")
    waiting = bound(PORT, 2000)
    print(f"a third client was answered after {time.monotonic() - began:.0f} seconds")
    waiting.sendall(request(2))
    print("and its call by a PDU of type", read_pdu(waiting)[0])
    print("the silent one heard the end:", silent.recv(1) == b"", f"after {time.monotonic() - began:.0f} seconds")
    server.end()
    print(open("errors.txt").read(), end="")


main()
