"""Sites on hosts of their own, their clients, and what stands between them. No test of itself."""
import threading

from relay import Relay
from sites import SITES, Federation, Served, send, until, write_members
from testing import run

# Each host has one site at most, at this port.
PORT = 5011
# The numbers of the other hosts.
CLIENT, STRANGER, RELAY = 50, 60, 100
FOREVER = ("--forever",)
# Seconds for what nothing holds up; a busy machine may need them.
PATIENCE = 60


class SiteOnHost(Served):
    """A site whose processes are on a host."""

    def __init__(self, host, *words, **how):
        self.host = host
        super().__init__(*words, **how)

    def start(self):
        with self.host:
            super().start()

    def restart(self):
        self.kill()
        self.start()


class Sites(Federation):
    """Sites on the hosts of a network, each with a members file and options of its own."""

    def __init__(self, room, network, files, options, wait=50):
        super().__init__(room, None, ())
        for site, file in files.items():
            words = (*FOREVER, *options(site))
            self[site] = SiteOnHost(network[site], room, file, site, wait=wait, options=words)


class Client:
    """Who asks sites from a host."""

    def __init__(self, host, members, *options):
        self.host, self.members, self.options = host, members, options

    def send(self, site, *words, wait=500):
        with self.host:
            return send(self.members, site, *self.options, *words, wait=wait)

    def until(self, site, words, wanted):
        with self.host:
            return until(self.members, site, (*self.options, *words), wanted, PATIENCE)

    def decides(self, site, object, *bag):
        """What the site says once it knows; with a bag this is deposited first."""
        return self.send(site, "--until-known", str(PATIENCE), object, "1", *bag)

    def catch_up(self, site, *lists):
        words = ["--members", self.members, "--to", str(site), "--for", str(PATIENCE)]
        with self.host:
            return run("catch-up", *words, *self.options, *lists)


def members_at(file, network):
    """A members file by which each site is on its own host."""
    return write_members(file, [network.place(it, PORT) for it in SITES])


class HostRelay(Relay):
    """A host between the sites: each site's members file has its addresses for the others."""

    def __init__(self, network, **how):
        self.network = network
        super().__init__([PORT] * len(SITES), **how)

    def socket(self):
        return self.network.socket(RELAY)

    def target(self, site):
        return self.network.address(site), PORT

    def place(self, site, to):
        if site == to:
            return self.network.place(site, PORT)
        return self.network.place(RELAY, self.sockets[site, to].getsockname()[1])


class Passage:
    """Passes on what comes at a socket to a site, and back: whoever sends there has a socket of his
    own, from which his datagrams go on."""

    def __init__(self, front, target, socket_for):
        self.front, self.target, self.socket_for = front, target, socket_for
        self.backs, self.sees, self.adds = {}, lambda datagram: None, lambda reply: ()
        self.begin(self.pass_on)

    def begin(self, work, *words):
        threading.Thread(target=work, args=words, daemon=True).start()

    def back_of(self, asker):
        """The socket of whoever has this address."""
        if asker not in self.backs:
            self.backs[asker] = self.socket_for(asker)
            self.begin(self.pass_back, self.backs[asker], asker)
        return self.backs[asker]

    def pass_on(self):
        while True:
            datagram, asker = self.front.recvfrom(2048)
            self.sees(datagram)
            self.back_of(asker[:2]).sendto(datagram, self.target)

    def pass_back(self, back, asker):
        while True:
            reply = back.recv(2048)
            for it in (*self.adds(reply), reply):
                self.front.sendto(it, asker)
