"""Three nodes of etcd, for `serving`: each put is synced by two of them before it is answered."""
import base64
import json
import socket
import subprocess
import sys
import time
import urllib.request

from sites import free_ports


class Etcd:
    """Three nodes of etcd."""

    def __init__(self, room):
        peers, ports = free_ports(3), free_ports(3)
        address = "http://127.0.0.1:{}".format
        members = ",".join(f"n{it}={address(peers[it])}" for it in range(3))
        self.processes = []
        for it in range(3):
            words = ["etcd", "--name", f"n{it}", "--data-dir", str(room / f"etcd-{it}")]
            words += ["--initial-cluster", members, "--log-level", "fatal"]
            for option in ("listen-client-urls", "advertise-client-urls"):
                words += [f"--{option}", address(ports[it])]
            for option in ("listen-peer-urls", "initial-advertise-peer-urls"):
                words += [f"--{option}", address(peers[it])]
            quiet = {"stdout": subprocess.DEVNULL, "stderr": subprocess.DEVNULL}
            self.processes.append(subprocess.Popen(words, **quiet))
        self.leader = leader_among(ports)

    def outputs(self):
        return []

    def client(self, _):
        return EtcdClient(self.leader)

    def end(self):
        for it in self.processes:
            it.kill()
            it.wait()


class EtcdClient:
    """A client of the leader. No put of its is lost, so none is sent again."""

    def __init__(self, port):
        self.socket = socket.create_connection(("127.0.0.1", port))
        self.socket.setsockopt(socket.IPPROTO_TCP, socket.TCP_NODELAY, 1)

    def fileno(self):
        return self.socket.fileno()

    def begin(self, name):
        text = lambda it: base64.b64encode(it.encode()).decode()
        body = json.dumps({"key": text(name), "value": text(64 * "b")})
        head = f"POST /v3/kv/put HTTP/1.1\r\nHost: x\r\nContent-Length: {len(body)}\r\n\r\n"
        self.socket.sendall((head + body).encode())

    def again(self):
        pass

    def take(self):
        """Takes in an answer, with which a put ends."""
        answer = self.socket.recv(65536)
        assert answer.startswith(b"HTTP/1.1 200") and b'"revision"' in answer, answer
        return True


def leader_among(ports, seconds=30):
    """The port of the leader, once there is one."""
    end = time.monotonic() + seconds
    while time.monotonic() < end:
        for port in ports:
            try:
                url = f"http://127.0.0.1:{port}/v3/maintenance/status"
                said = json.load(urllib.request.urlopen(url, data=b"{}", timeout=1))
            except OSError:
                continue
            if said.get("leader") == said["header"]["member_id"]:
                return port
        time.sleep(0.1)
    sys.exit("etcd has no leader")
