"""Sites of the built program in processes of their own, and what a client of them is told. No test
of itself."""
import hashlib
import pathlib
import random
import signal
import socket
import subprocess
import sys
import time

sys.path.insert(0, str(pathlib.Path(__file__).resolve().parent.parent / "lib"))

from messages import QUERY, Message, message
from testing import PROGRAM, run

TURNS = "4294967295"
SITES = (1, 2, 3)
# What keeps the ports that this process was given from the other tests that run.
KEPT = []


def socket_at(port=0):
    """A socket on this port of 127.0.0.1, or on a free one."""
    made = socket.socket(socket.AF_INET, socket.SOCK_DGRAM)
    made.bind(("127.0.0.1", port))
    return made


def free_ports(count):
    """The numbers of ports that were free just now, of those that no client is given. No other
    test is given one of them while this process runs, whether a site is there or not."""
    ports = []
    while len(ports) < count:
        port = random.randrange(10000, 32000)
        kept = socket.socket(socket.AF_UNIX, socket.SOCK_DGRAM)
        try:
            kept.bind(f"\0bagpaxos: port {port}")
            socket_at(port).close()
        except OSError:
            kept.close()
            continue
        KEPT.append(kept)
        ports.append(port)
    return ports


def make_bag(folder, content):
    """Makes a bag of one file of this content, and gives its identity."""
    (folder / "data").mkdir(parents=True)
    (folder / "data" / "a.txt").write_bytes(content)
    declaration = b"BagIt-Version: 1.0\nTag-File-Character-Encoding: UTF-8\n"
    (folder / "bagit.txt").write_bytes(declaration)
    manifest = f"{hashlib.sha512(content).hexdigest()}  data/a.txt\n".encode()
    (folder / "manifest-sha512.txt").write_bytes(manifest)
    return hashlib.sha512(manifest).hexdigest()


def make_empty_bag(folder):
    """Makes the bag without a file."""
    (folder / "data").mkdir(parents=True)
    declaration = b"BagIt-Version: 1.0\nTag-File-Character-Encoding: UTF-8\n"
    (folder / "bagit.txt").write_bytes(declaration)
    (folder / "manifest-sha512.txt").write_bytes(b"")


def write_members(file, ports, weights=()):
    """Writes a members file of federation 7, in which only the sites of these weights name one."""
    words = [f"site {site} {port}" for site, port in enumerate(ports, 1)]
    for place, weight in enumerate(weights):
        words[place] += f" {weight}"
    file.write_text("".join(f"{line}\n" for line in ["federation 7", *words]))
    return file


class Served:
    """A site in a process of its own, on a cell that outlives it."""

    def __init__(self, room, members, number, wait=20, options=("--turns", TURNS)):
        self.room, self.cell, self.number = room, room / f"cell-{number}", number
        self.words = [PROGRAM, "site", "--members", members, "--number", str(number)]
        self.words += ["--cell", self.cell, "--wait", str(wait), *options]
        self.log = room / f"lines-{number}"
        self.start()

    def start(self):
        with open(self.log, "a") as log:
            how = {"stdout": log, "stdin": subprocess.DEVNULL, "cwd": self.room}
            self.process = subprocess.Popen(self.words, **how)

    def kill(self):
        self.process.send_signal(signal.SIGKILL)
        self.process.wait()

    def lines(self):
        return self.log.read_text().splitlines()


class Federation(dict):
    """Sites that serve in a room, by their numbers; in the end all are killed."""

    def __init__(self, room, members, numbers=SITES, **how):
        super().__init__({it: Served(room, members, it, **how) for it in numbers})

    def __enter__(self):
        return self

    def __exit__(self, *_):
        for site in self.values():
            site.kill()


def send(members, site, *words, wait=500):
    """What a client is told by the site, and the status."""
    return run("send", "--members", members, "--to", str(site), "--wait", str(wait), *words)


def until(members, site, words, wanted, seconds=20):
    """Asks the site until it answers so, or time is up; gives the last answer."""
    end = time.monotonic() + seconds
    while True:
        answer = send(members, site, *words)
        if answer == wanted or time.monotonic() > end:
            return answer
        time.sleep(0.02)


def is_answered(client, port):
    """Whether a query by this socket has its answer, in the time that the socket waits."""
    client.sendto(Message(QUERY, 0, "up", 1).bytes(), ("127.0.0.1", port))
    try:
        while message(client.recv(2048)).object != "up":
            pass
        return True
    except TimeoutError:
        return False
