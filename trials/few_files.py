"""A server with 64 workers that may open 40 files.

    python3 trials/few_files.py PROGRAM

In an empty folder. 100 clients connect, more than there are files for. They go, the limit is raised, and then 64
clients are served at once: no worker was lost.
"""
import resource
import time

from common import Server, bound, connect, words, write_configuration

PORT = 4152


def main():
    (program,) = words("PROGRAM")
    write_configuration("serving.toml", PORT, 64)
    server = Server(program, "serving.toml", "", limit=40)
    clients = [connect(PORT) for _ in range(100)]
    time.sleep(3)
    for client in clients:
        client.close()
    time.sleep(3)
    resource.prlimit(server.process.pid, resource.RLIMIT_NOFILE, (4096, 4096))
    links = []
    try:
        for _ in range(64):
            links.append(bound(PORT, 10))
    except OSError as error:
        print("not served:", error)
    print(len(links), "clients were served at once")
    server.end()
    print(open("errors.txt").read(), end="")


main()
