"""What the trials share: a configuration, a server, calls of the client, and connections that speak by themselves."""
import signal
import socket
import struct
import subprocess
import sys
import time

CONFIGURATION = """[domain]
name = "CORP"
sid = "S-1-5-21-1-2-3"

[[listener]]
name = "a"
address = "tcp:127.0.0.1:{port}"
token = ["S-1-5-21-1-2-3-500", "S-1-1-0", "S-1-5-32-544"]
workers = {workers}

[limits]
max_calls = {max_calls}
max_bytes = 1073741824
max_conns = {max_conns}
max_periods = {max_periods}
"""


def write_configuration(path, port, workers, max_calls=1000000, max_conns=65536, max_periods=1000):
    with open(path, "w") as file:
        file.write(CONFIGURATION.format(**{k: v for k, v in locals().items() if k != "path"}))


class Server:
    """A server that listens, with a limit to its open files or none."""

    def __init__(self, program, configuration, store, errors="errors.txt", limit=None):
        self.errors = open(errors, "wb")
        set_limit = None
        if limit:
            import resource
            set_limit = lambda: resource.setrlimit(resource.RLIMIT_NOFILE, (limit, 4096))
        self.process = subprocess.Popen([program, "serve", configuration, store], stdin=subprocess.DEVNULL,
                                        stderr=self.errors, preexec_fn=set_limit)
        for _ in range(600):
            with open(errors) as said:
                if "listening at" in said.read():
                    return
            if self.process.poll() is not None:
                raise SystemExit("the server ended: " + open(errors).read())
            time.sleep(0.05)
        raise SystemExit("the server doesn't listen")

    def fail(self, kind, error, when, traced):
        """From here on lets the calls of a kind fail with an error, the one with this number in each thread."""
        tracer = subprocess.Popen(["strace", "-f", "-qq", "-o", traced, "-e", "trace=" + kind, "-e",
                                   f"inject={kind}:error={error}:when={when}", "-p", str(self.process.pid)])
        while True:
            with open(f"/proc/{self.process.pid}/status") as status:
                if "TracerPid:\t0\n" not in status.read():
                    break
            time.sleep(0.02)
        time.sleep(0.2)
        return tracer

    def end(self, sign=signal.SIGTERM):
        self.process.send_signal(sign)
        self.process.wait()
        self.errors.close()


def call(program, port, *words):
    """The exit code of a call of the client, and what it printed."""
    done = subprocess.run([program, "call", f"tcp:127.0.0.1:{port}", *words], stdin=subprocess.DEVNULL,
                          capture_output=True, text=True, timeout=120)
    return done.returncode, done.stdout.strip()


SAMR = bytes.fromhex("785734123412cdabef000123456789ac")
NDR = bytes.fromhex("045d888aeb1cc9119fe808002b104860")
BUSY = 0x1C010014


def pdu(kind, call_id, body):
    return struct.pack("<BBBB4sHHI", 5, 0, kind, 3, bytes.fromhex("10000000"), 16 + len(body), 0, call_id) + body


BIND = pdu(11, 1, struct.pack("<HHIBBHHBB", 4280, 4280, 0, 1, 0, 0, 0, 1, 0) + SAMR + struct.pack("<I", 1) + NDR
           + struct.pack("<I", 2))


def request(call_id):
    """SamrConnect2 with a null name, and access to look at the server."""
    stub = struct.pack("<II", 0, 0x10)
    return pdu(0, call_id, struct.pack("<IHH", len(stub), 0, 57) + stub)


def read_exactly(link, count):
    got = b""
    while len(got) < count:
        piece = link.recv(count - len(got))
        if not piece:
            raise EOFError
        got += piece
    return got


def read_pdu(link):
    head = read_exactly(link, 16)
    return head[2], head + read_exactly(link, struct.unpack_from("<H", head, 8)[0] - 16)


def connect(port, timeout=120):
    link = socket.create_connection(("127.0.0.1", port), timeout=timeout)
    link.setsockopt(socket.IPPROTO_TCP, socket.TCP_NODELAY, 1)
    return link


def bound(port, timeout=120):
    link = connect(port, timeout)
    link.sendall(BIND)
    kind, _ = read_pdu(link)
    if kind != 12:
        raise ValueError(f"answered by {kind}")
    return link


def words(*names):
    if len(sys.argv) != 1 + len(names):
        raise SystemExit("usage: python3 " + sys.argv[0] + " " + " ".join(names))
    return sys.argv[1:]
