"""Bytes that spell no call or no PDU, against a server that listens at a port and at a socket in a file.

    python3 trials/malicious_bytes.py PROGRAM [SEED]

In an empty folder. A stub that spells no call is answered by the fault of bad stub data, and its connection goes on;
each whole request is answered once; a stream that is no PDU is answered by the fault of a protocol error, and ends.
Whatever else comes, each answer is a PDU of a server, and the server goes on. What isn't so is told, and the exit code
is then 1.
"""
import collections
import random
import socket
import struct
import sys

from common import BIND, NDR, Server, pdu, read_pdu, write_configuration

PORT, PATH = 4157, "malicious.socket"
BAD_STUB, PROTOCOL_ERROR = 0x6F7, 0x1C01000B
SAMR, LSA = 0, 1
CONNECT, OPEN_POLICY = 57, 44
LSA_ID = bytes.fromhex("785734123412cdabef000123456789ab")
BIND_LSA = pdu(11, 1, struct.pack("<HHIBBHHBB", 4280, 4280, 0, 1, 0, 0, 0, 1, 0) + LSA_ID + struct.pack("<I", 0) + NDR
               + struct.pack("<I", 2))
OPENINGS = {SAMR: (BIND, CONNECT, struct.pack("<II", 0, 0x02000000)),
            LSA: (BIND_LSA, OPEN_POLICY, struct.pack("<IIIIIIII", 0, 24, 0, 0, 0, 0, 0, 0x02000000))}


def u32(*numbers):
    return struct.pack(f"<{len(numbers)}I", *(number & 0xFFFFFFFF for number in numbers))


SID = bytes.fromhex("0101 000000000005 20000000")
LONG_SID = u32(16) + bytes.fromhex("0110 000000000005") + bytes(64)
ALICE = "alice".encode("utf-16-le") + bytes(2)
TAIL = u32(0, 0, 1, 0)
LATER = TAIL + u32(0, 2)

# What stands after the handle, by interface and opnum: too many elements, another count, a null element, a SID of 16
# sub-authorities, texts of an odd length, with an offset or too short, and the end within the arguments.
TABLE = [
    (SAMR, 17, u32(-1, 1000, 0, -1)),
    (SAMR, 17, u32(1001, 1001, 0, 1001) + bytes(8 * 1001)),
    (SAMR, 16, u32(1025, 0x20000, 1025) + u32(0x20004) * 1025 + (u32(1) + SID) * 1025),
    (SAMR, 16, u32(1, 0x20000, 2, 0x20004, 0x20008)),
    (SAMR, 16, u32(1, 0x20000, 1, 0)),
    (SAMR, 7, u32(0x02000000) + LONG_SID),
    (SAMR, 50, struct.pack("<HH", 9, 10) + u32(0x20000, 5, 0, 5) + ALICE + u32(0x10, 0x02000000)),
    (SAMR, 50, struct.pack("<HH", 10, 10) + u32(0x20000, 5, 1, 5) + ALICE + u32(0x10, 0x02000000)),
    (SAMR, 50, struct.pack("<HH", 10, 10) + u32(0x20000, 5, 0, 4) + ALICE + u32(0x10, 0x02000000)),
    (SAMR, 40, b"\1\0"),
    (SAMR, 2, u32(4, 262145, 0x20000, 262145) + bytes(262145)),
    (SAMR, 2, u32(4, 1, 0)),
    (SAMR, 2, u32(4, 2, 0x20000, 2) + b"\1"),
    (LSA, 14, u32(1001, 1001) + bytes(8 * 1001) + TAIL),
    (LSA, 15, u32(20481, 1, 20481) + u32(1) * 20481 + (u32(0) + bytes.fromhex("0100 000000000000")) * 20481 + TAIL),
    (LSA, 57, u32(0, 0, 20481, 1, 20481) + (u32(1) + bytes(16)) * 20481 + LATER),
    (LSA, 57, u32(1, 1, 1, 1) + LONG_SID),
    (LSA, 58, u32(0, 0, 1001, 1, 1001) + (u32(1) + bytes(12)) * 1001 + LATER),
    (LSA, 58, u32(1, 1) + struct.pack("<HHI", 0xFFFF, 0xFFFF, 1)),
    (LSA, 68, u32(0, 0, 1, 1, 1, 1, 1, 0, 0) + LONG_SID),
    (LSA, 4, u32(4, 262145, 0x20000, 262145) + bytes(262145)),
    (LSA, 4, u32(4, 2, 0x20000, 3) + b"\1\2\3"),
]


def connect(is_file):
    if not is_file:
        link = socket.create_connection(("127.0.0.1", PORT), timeout=120)
        link.setsockopt(socket.IPPROTO_TCP, socket.TCP_NODELAY, 1)
        return link
    link = socket.socket(socket.AF_UNIX)
    link.settimeout(120)
    link.connect(PATH)
    return link


def request(call_id, opnum, stub):
    """The fragments of a request."""
    parts = [stub[at:at + 4096] for at in range(0, len(stub), 4096)] or [b""]
    whole = b""
    for place, part in enumerate(parts):
        flags = (1 if place == 0 else 0) | (2 if place == len(parts) - 1 else 0)
        whole += struct.pack("<BBBB4sHHIIHH", 5, 0, 0, flags, bytes.fromhex("10000000"), 24 + len(part), 0, call_id,
                             len(part), 0, opnum) + part
    return whole


def answer(link, call_id):
    """The status of the one answer to a request, the number of a fault or of a response's end, and its stub."""
    stub = b""
    while True:
        kind, whole = read_pdu(link)
        if whole[:2] != b"\5\0" or struct.unpack_from("<I", whole, 12)[0] != call_id or kind not in (2, 3):
            raise ValueError("answered by " + whole[:32].hex())
        if kind == 3:
            return struct.unpack_from("<I", whole, 24)[0], None
        stub += whole[24:]
        if whole[3] & 2:
            return struct.unpack_from("<I", stub, len(stub) - 4)[0], stub


def opened(link, face):
    """The handle of an opening after a bind."""
    bind, opnum, stub = OPENINGS[face]
    link.sendall(bind)
    if read_pdu(link)[0] != 12:
        raise ValueError("the bind was refused")
    return handle_of(link, 2, opnum, stub)


def handle_of(link, call_id, opnum, stub):
    link.sendall(request(call_id, opnum, stub))
    status, got = answer(link, call_id)
    if status != 0:
        raise ValueError(f"opnum {opnum} is answered {status:#x}")
    return got[:20]


def is_bad(is_file, face, opnum, stub):
    """Whether a stub is answered as one that spells no call, and the connection goes on."""
    with connect(is_file) as link:
        handle = opened(link, face)
        link.sendall(request(3, opnum, handle + stub))
        if answer(link, 3) != (BAD_STUB, None):
            return False
        return len(handle_of(link, 4, *OPENINGS[face][1:])) == 20


def answers_of(is_file, stream):
    """The types of the PDUs that a stream is answered by, until the server ends it, and the last one."""
    kinds, last = [], b""
    with connect(is_file) as link:
        try:
            link.sendall(stream)
            link.shutdown(socket.SHUT_WR)
            while True:
                kind, last = read_pdu(link)
                kinds.append(kind)
        except EOFError:
            return kinds, last
        except (BrokenPipeError, ConnectionResetError):
            return kinds + ["reset"], last


def first_run():
    handle = bytes.fromhex("0000000000000000000001000000000000000001")
    return BIND + request(2, CONNECT, OPENINGS[SAMR][2]) + request(3, 1, handle)


def changed_streams():
    """The first run with each of its bytes changed in turn."""
    whole = first_run()
    for place in range(len(whole)):
        for byte in {0, 0xFF, whole[place] ^ 0x80, whole[place] + 1 & 0xFF} - {whole[place]}:
            yield whole[:place] + bytes([byte]) + whole[place + 1:]


def random_streams(chance, count):
    """Bytes that are none, after a bind or not, with a header or not."""
    for _ in range(count):
        body = chance.randbytes(chance.randrange(2000))
        if chance.random() < 0.5:
            body = pdu(chance.choice([0, 11, 14, 18, 19, chance.randrange(256)]), chance.randrange(5), body[:1400])
        yield (BIND if chance.random() < 0.5 else b"") + body


def random_stub(chance):
    """Words as counts, pointers and texts have them, and bytes."""
    stub = b""
    for _ in range(chance.randrange(24)):
        stub += chance.choice([u32(chance.randrange(4)), u32(0x20000), u32(chance.getrandbits(32)), SID, ALICE,
                               u32(chance.choice([256, 257, 1000, 1001, 20480, 65535, 0x7FFFFFFF, 0xFFFFFFFF])),
                               struct.pack("<HH", 10, 10) + u32(1, 5, 0, 5) + ALICE,
                               chance.randbytes(chance.randrange(40))])
    return stub


def random_requests(chance, is_file, face, count):
    """How requests with such stubs are answered, whatever their opnum and handle."""
    found = collections.Counter()
    with connect(is_file) as link:
        handles = [opened(link, face)]
        if face == SAMR:
            domain = bytes.fromhex("0104 000000000005 15000000 01000000 02000000 03000000")
            handles.append(handle_of(link, 3, 7, handles[0] + u32(0x02000000, 4) + domain))
            handles.append(handle_of(link, 4, 34, handles[1] + u32(0x02000000, 501)))
        for call_id in range(5, 5 + count):
            opnum = chance.randrange(80)
            handle = b"" if (face, opnum) in ((SAMR, 57), (SAMR, 62), (SAMR, 64), (LSA, 44)) else chance.choice(handles)
            link.sendall(request(call_id, opnum, handle + random_stub(chance)))
            status, stub = answer(link, call_id)
            found["bad stub" if status == BAD_STUB else "another fault" if stub is None else "response"] += 1
    return found


def main():
    program, seed = sys.argv[1], int(sys.argv[2]) if len(sys.argv) > 2 else 1
    chance, wrong = random.Random(seed), 0
    write_configuration("malicious.toml", PORT, 2)
    with open("malicious.toml", "a") as file:
        file.write(f'\n[[listener]]\nname = "b"\naddress = "unix:{PATH}"\ntoken = ["S-1-5-32-544"]\nworkers = 2\n')
    server = Server(program, "malicious.toml", "")
    for is_file in (False, True):
        for face, opnum, stub in TABLE:
            if not is_bad(is_file, face, opnum, stub):
                wrong += 1
                print("not answered as bad stub data:", face, opnum, stub[:60].hex())
        kinds, last = answers_of(is_file, b"\xff" * 65535)
        if kinds[:1] != [3] or struct.unpack_from("<I", last, 24)[0] != PROTOCOL_ERROR:
            wrong += 1
            print("65,535 bytes 0xFF are answered by", kinds, last.hex())
    print(f"{2 * len(TABLE)} stubs that spell no call, {wrong} answered otherwise", flush=True)
    for name, streams in ("changed", changed_streams()), ("random", random_streams(chance, 1000)):
        count, found = 0, collections.Counter()
        for stream in streams:
            count += 1
            kinds, _ = answers_of(count % 2 == 0, stream)
            found.update(kinds)
        others = set(found) - {2, 3, 12, 13, 15, "reset"}
        wrong += len(others)
        print(f"{count} {name} streams, answered by", dict(found), "which is no server's" if others else "", flush=True)
    for face in (SAMR, LSA):
        found = collections.Counter()
        for turn in range(40):
            found.update(random_requests(chance, turn % 2 == 0, face, 250))
        print(f"{sum(found.values())} random requests of the interface {face}:", dict(found), flush=True)
    if not is_bad(False, *TABLE[0]) or server.process.poll() is not None:
        wrong += 1
        print("the server doesn't go on")
    server.end()
    said = open("errors.txt").read()
    if server.process.returncode not in (-15, 143) or "AddressSanitizer" in said:
        wrong += 1
        print("the server ended with", server.process.returncode, said[-2000:])
    raise SystemExit(1 if wrong else 0)


main()
