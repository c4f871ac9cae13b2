"""Hosts on a bridge: each is a network namespace of this process. No test of itself."""
import ctypes
import os
import signal
import socket
import subprocess
import sys
import threading
import traceback
from typing import NamedTuple

LIBC = ctypes.CDLL(None, use_errno=True)
# As linux/sched.h, sys/mount.h and sys/prctl.h have them.
NEW_MOUNTS, NEW_PROCESSES, NEW_NETWORK = 0x00020000, 0x20000000, 0x40000000
PRIVATE_BELOW = 1 << 18 | 1 << 14
KILLED_WITH_PARENT = 1


class Family(NamedTuple):
    """A family of addresses: how those of hosts and of sites are written."""

    name: str
    sockets: socket.AddressFamily
    host: str
    length: int
    site: str

    def address(self, number):
        """The address of the host of this number."""
        return self.host.format(number)

    def place(self, address, port):
        """The address and the port, as a members file has them."""
        return self.site.format(address, port)


IPV4 = Family("IPv4", socket.AF_INET, "192.0.2.{}", 24, "{}:{}")
IPV6 = Family("IPv6", socket.AF_INET6, "2001:db8::{:x}", 64, "[{}]:{}")
FAMILIES = (IPV4, IPV6)


def needs(status):
    """Raises what a call of the C library has failed with."""
    if status:
        raise OSError(ctypes.get_errno(), os.strerror(ctypes.get_errno()))


def enter(namespace):
    """Has this thread, and what it starts, in this network."""
    needs(LIBC.setns(namespace, NEW_NETWORK))


def present():
    """The network in which this thread is."""
    return os.open("/proc/thread-self/ns/net", os.O_RDONLY)


def ip(commands, *namespaces):
    """Runs these commands of `ip`, one a line."""
    how = {"text": True, "check": True, "capture_output": True, "pass_fds": namespaces}
    subprocess.run(["ip", "-batch", "-"], input=commands, **how)


class Host:
    """A network with a loopback of its own. `with` it this thread is there."""

    def __init__(self):
        self.before = threading.local()
        here = present()
        needs(LIBC.unshare(NEW_NETWORK))
        self.namespace = present()
        ip("link set lo up\n")
        enter(here)
        os.close(here)

    def __enter__(self):
        self.before.namespace = present()
        enter(self.namespace)
        return self

    def __exit__(self, *_):
        enter(self.before.namespace)
        os.close(self.before.namespace)

    def takes(self, family, address, link):
        """Gives the host an address on this link of its own, which is usable at once."""
        at_once = " nodad" if family.sockets == socket.AF_INET6 else ""
        with self:
            ip(f"addr add {address}/{family.length} dev {link}{at_once}\n")

    def socket(self, family, address, port=0):
        """A socket at this address of the host; its port is a free one, if none is given."""
        with self:
            made = socket.socket(family.sockets, socket.SOCK_DGRAM)
        made.bind((address, port))
        return made


class Network(dict):
    """Hosts of these numbers on one bridge, each with its address of a family."""

    def __init__(self, family, numbers):
        super().__init__()
        self.family, self.bridge = family, Host()
        with self.bridge:
            ip("link add hub type bridge mcast_snooping 0\nlink set hub up\n")
        for number in numbers:
            self[number] = host = Host()
            join(self.bridge, f"to-{number}", host, "net")
            host.takes(family, self.address(number), "net")
            with self.bridge:
                ip(f"link set to-{number} master hub\n")

    def address(self, number):
        """The address of this host."""
        return self.family.address(number)

    def place(self, number, port):
        """A port of this host, as a members file has it."""
        return self.family.place(self.address(number), port)

    def socket(self, number, port=0):
        """A socket of this host."""
        return self[number].socket(self.family, self.address(number), port)


def join(one, its_link, other, others_link):
    """Makes a link between two hosts, and has both ends up."""
    with one:
        there = f"netns /proc/self/fd/{other.namespace}"
        ip(f"link add {its_link} type veth peer name {others_link} {there}\n", other.namespace)
        ip(f"link set {its_link} up\n")
    with other:
        ip(f"link set {others_link} up\n")


def why_not():
    """Why no such network can be made here; None where one can."""
    try:
        Network(IPV4, [1])
    except subprocess.CalledProcessError as error:
        return error.stderr.strip().split("\n")[0]
    except OSError as error:
        return str(error)
    return None


def has(family):
    """Whether hosts can have addresses of this family here."""
    try:
        Network(family, [1]).socket(1).close()
    except (OSError, subprocess.CalledProcessError):
        return False
    return True


def apart(room, work):
    """Does this work in a process whose files in the room, and whose processes, end with it; gives
    its status. Whatever ends this process ends it too."""
    needs(LIBC.unshare(NEW_PROCESSES))
    worker = os.fork()
    if worker == 0:
        status = 1
        try:
            LIBC.prctl(KILLED_WITH_PARENT, signal.SIGKILL)
            needs(LIBC.unshare(NEW_MOUNTS))
            needs(LIBC.mount(None, b"/", None, PRIVATE_BELOW, None))
            needs(LIBC.mount(b"tmpfs", bytes(room), b"tmpfs", 0, b"mode=700"))
            status = work()
            sys.stdout.flush()
        except Exception:
            traceback.print_exc()
        finally:
            os._exit(status)
    for it in (signal.SIGINT, signal.SIGTERM, signal.SIGHUP):
        signal.signal(it, lambda *_: os.kill(worker, signal.SIGKILL))
    return os.waitstatus_to_exitcode(os.waitpid(worker, 0)[1])
