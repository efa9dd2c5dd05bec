"""What a server says of its periods and of connections that end otherwise than by their end.

    python3 trials/what_is_said.py PROGRAM

In an empty folder. It takes two minutes: what was left out is said in the minute after that of the lines.
"""
import re
import socket
import struct
import time

from common import BIND, BUSY, Server, bound, connect, pdu, read_pdu, request, words, write_configuration

PORT = 4155
RESETS = 1000

EXPECTED = [
    "serving 8 accounts",
    "connection 1 at listener 0 was closed: a PDU was refused",
    "connection 2 at listener 0 was closed: a PDU was refused",
    "connection 3 at listener 0 was closed: 200 bytes were read, which is max_read, or else memory ran out",
    "connection 4 at listener 0 ended: reading failed (Connection reset by peer (os error 104))",
    "connection 5 at listener 0 was closed: the history was full",
    "period 2 begins, with 8 accounts",
]


def hear_end(link):
    """Reads on until the server has closed the connection."""
    try:
        while link.recv(4096):
            pass
    except OSError:
        pass
    link.close()


def find_full(link):
    """The fourth call finds the history full."""
    link.sendall(request(5))
    kind, answer = read_pdu(link)
    print("the fourth call is answered by a fault", hex(struct.unpack_from("<I", answer, 24)[0]), hex(BUSY))
    hear_end(link)


def reset(link):
    link.setsockopt(socket.SOL_SOCKET, socket.SO_LINGER, struct.pack("ii", 1, 0))
    link.close()


def said():
    with open("errors.txt") as errors:
        return [line.removeprefix("account: ").rstrip("\n") for line in errors]


def main():
    (program,) = words("PROGRAM")
    write_configuration("serving.toml", PORT, 1, max_calls=3, max_periods=2)
    with open("serving.toml", "a") as file:
        file.write("max_read = 200\n")
    server = Server(program, "serving.toml", "accounts.db")
    for first in (b"GET / HTTP/1.1\r\nHost: a\r\n\r\n", BIND + BIND):
        link = connect(PORT)
        link.sendall(first)
        hear_end(link)
    link = bound(PORT)
    link.sendall(pdu(0, 2, bytes(4000))[:200 - len(BIND)])
    hear_end(link)
    reset(bound(PORT))
    link = bound(PORT)
    for number in range(2, 5):
        link.sendall(request(number))
        read_pdu(link)
    find_full(link)
    bound(PORT).close()
    time.sleep(1)
    lines = said()[1:]
    for line in EXPECTED:
        print("said:" if line in lines else "NOT said:", line)
    for _ in range(RESETS):
        reset(bound(PORT))
    time.sleep(75)
    server.end()
    lines = said()
    ends = sum("ended:" in line or "was closed:" in line for line in lines)
    left_out = sum(int(found[1]) for line in lines if (found := re.fullmatch(r"(\d+) lines were left out", line)))
    print(f"{RESETS + 5} connections ended otherwise: {ends} lines, and {left_out} left out")


main()
