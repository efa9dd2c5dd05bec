"""64 connections ask without a rest while a small history fills again and again, beside one that says nothing.

    python3 trials/full_history.py PROGRAM LIMIT COUNT

In an empty folder. LIMIT is `max_calls` or `max_conns`, and COUNT what it is set to. It ends once as many calls were
answered as fill twenty periods, or after ten minutes. It prints how many calls were answered, how many clients met the
full history by a call of their own, how many were turned away otherwise, and the longest time in which no client was
answered.
"""
import struct
import threading
import time

from common import BUSY, Server, bound, connect, read_pdu, request, words, write_configuration

PORT = 4154
CLIENTS = 64
PERIODS = 20


class Seen:
    def __init__(self, most):
        self.lock = threading.Lock()
        self.most, self.answered, self.busy, self.away = most, 0, 0, 0
        self.last, self.longest = time.monotonic(), 0.0
        self.is_over = False

    def note(self, answered=0, busy=0, away=0):
        with self.lock:
            now = time.monotonic()
            if answered:
                self.longest = max(self.longest, now - self.last)
                self.last = now
            self.answered += answered
            self.busy += busy
            self.away += away
            self.is_over |= self.answered >= self.most


def serve_one(seen, calls):
    """One connection of so many calls."""
    link = bound(PORT)
    try:
        for number in range(2, 2 + calls):
            link.sendall(request(number))
            kind, answer = read_pdu(link)
            if kind == 3 and struct.unpack_from("<I", answer, 24)[0] == BUSY:
                seen.note(busy=1)
                return
            seen.note(answered=1)
    finally:
        link.close()


def ask(seen, calls):
    while not seen.is_over:
        try:
            serve_one(seen, calls)
        except (EOFError, OSError) as error:
            seen.note(away=1)
            if seen.away < 10:
                print("turned away:", repr(error), flush=True)


def main():
    program, limit, count = words("PROGRAM", "LIMIT", "COUNT")
    count = int(count)
    limits = {"max_calls": 1000000, "max_conns": 65536, limit: count}
    write_configuration("serving.toml", PORT, 8, max_periods=1000, **limits)
    calls = 50 if limit == "max_calls" else 4
    server = Server(program, "serving.toml", "")
    idle = bound(PORT)
    seen = Seen(PERIODS * count * (1 if limit == "max_calls" else calls))
    threads = [threading.Thread(target=ask, args=(seen, calls), daemon=True) for _ in range(CLIENTS)]
    began = time.monotonic()
    for thread in threads:
        thread.start()
    idles = 0
    while not seen.is_over and time.monotonic() - began < 600:
        time.sleep(0.5)
        idle.settimeout(0.01)
        try:
            if idle.recv(1) == b"":
                idle.close()
                idle = connect(PORT)
                idles += 1
        except OSError:
            pass
    seen.is_over = True
    for thread in threads:
        thread.join()
    server.end()
    took = time.monotonic() - began
    print(f"{seen.answered} calls answered in {took:.0f} seconds, {seen.busy} met the full history, {seen.away} "
          f"turned away otherwise, {idles} idle ones ended, longest silence {seen.longest:.1f} seconds")


main()
