"""Three members of etcd and three nodes of a replicated store, on this machine or each in a network namespace."""

from __future__ import annotations

import os
import resource
import shutil
import signal
import socket
import subprocess
import sys
import threading
import time
from collections.abc import Sequence
from typing import Any, NoReturn, Protocol

from .store_runs import PROGRAM, TOP, need_program

# Where the packages are that are tried.
PACKAGES = [os.path.join(TOP, "python"), os.path.join(TOP, "replicated")]
sys.path[:0] = PACKAGES

from confstore_replicated import Client  # noqa: E402
from confstore_replicated.etcd import Etcd  # noqa: E402

MACHINES = 3
BASE_AFTER = 200

# How many seconds one command may take with all that fails meanwhile.
PATIENCE = 90

# The mark that is in the environment of all that is started here, and in names of namespaces.
MARK = os.environ.setdefault("CONFSTORE_CHECK_MARK", f"cf{os.getpid()}")

# A request to a node, and what it answers.
Request = dict[str, Any]


def need_etcd() -> None:
    """Ends the script where etcd or the program is missing."""
    need_program()
    if shutil.which("etcd") is None:
        sys.exit("etcd is not installed: apt-get install etcd-server")


def end_after(seconds: int) -> None:
    """Has the script stop with TimeoutError if it isn't done by then."""

    def give_up(*_: object) -> NoReturn:
        raise TimeoutError(f"not done after {seconds} seconds")

    signal.signal(signal.SIGALRM, give_up)
    signal.alarm(seconds)


def free_port() -> int:
    with socket.socket() as probe:
        probe.bind(("127.0.0.1", 0))
        return int(probe.getsockname()[1])


class Process:
    """A process that is started, killed, stopped, and started again."""

    def __init__(self, words: Sequence[str], log: str) -> None:
        self.words, self.log = words, log
        self.limit: int | None = None
        self.process: subprocess.Popen[bytes] | None = None
        self.began = 0.0

    def running(self) -> subprocess.Popen[bytes]:
        """The process that runs."""
        assert self.process is not None
        return self.process

    def start(self) -> None:
        def limited() -> None:
            if self.limit is not None:
                resource.setrlimit(resource.RLIMIT_FSIZE, (self.limit, self.limit))

        environment = {**os.environ, "PYTHONPATH": os.pathsep.join(PACKAGES), "CONFSTORE": PROGRAM}
        with open(self.log, "ab") as log:
            self.process = subprocess.Popen(
                self.words, stdin=subprocess.DEVNULL, stdout=log, stderr=log, env=environment, preexec_fn=limited,
                start_new_session=True,
            )  # fmt: skip
        self.began = time.monotonic()

    def children(self) -> list[int]:
        """The sessions that it has started, as a machine that goes takes them with it."""
        found: list[int] = []
        tasks = f"/proc/{self.running().pid}/task"
        try:
            for task in os.listdir(tasks):
                with open(f"{tasks}/{task}/children", encoding="ascii") as children:
                    found += map(int, children.read().split())
        except OSError:
            pass
        return found

    def kill(self) -> None:
        """Kills the process, and what it has started."""
        if self.process is None:
            return
        for child in [*self.children(), self.process.pid]:
            try:
                os.kill(child, signal.SIGKILL)
            except ProcessLookupError:
                pass
        self.process.wait()
        self.process = None

    def end(self, number: int) -> int | str:
        """Tells the process to end by a signal, and waits until it has. Its status, or 0 of one that had just started,
        since Python may not take signals yet."""
        is_new = time.monotonic() - self.began < 5
        self.running().send_signal(number)
        try:
            status = self.running().wait(60)
        except subprocess.TimeoutExpired:
            self.kill()
            return "none: it had to be killed"
        self.process = None
        return 0 if is_new else status

    def pause(self, seconds: float, ended: threading.Event) -> None:
        self.running().send_signal(signal.SIGSTOP)
        ended.wait(seconds)
        self.running().send_signal(signal.SIGCONT)


def etcd_words(name: str, folder: str, url: str, peer: str, cluster: str) -> list[str]:
    """The words of a member of etcd: its name, its folder, where clients and members reach it, and all members."""
    return [
        "etcd", "--name", name, "--data-dir", folder, "--listen-client-urls", url, "--advertise-client-urls", url,
        "--listen-peer-urls", peer, "--initial-advertise-peer-urls", peer, "--initial-cluster", cluster,
        "--log-level", "error",
    ]  # fmt: skip


class Ground(Protocol):
    """Where the machines are: their hosts, and what is put before the words of a process on one of them."""

    hosts: list[str]

    def words(self, machine: int, words: Sequence[str]) -> Sequence[str]: ...

    def cut_off(self, machine: int, seconds: float, ended: threading.Event) -> None: ...

    def remove(self) -> None: ...


class Loopback:
    """All machines are this one."""

    def __init__(self) -> None:
        self.hosts = ["127.0.0.1"] * MACHINES

    def words(self, machine: int, words: Sequence[str]) -> Sequence[str]:
        return words

    def cut_off(self, machine: int, seconds: float, ended: threading.Event) -> None:
        raise NotImplementedError("a machine can't be cut off from itself")

    def remove(self) -> None:
        pass


class Namespaces:
    """A network namespace for each machine, all on one bridge. A machine is cut off by taking its end of the bridge."""

    def __init__(self) -> None:
        net = f"10.213.{os.getpid() % 250}"
        self.hosts = [f"{net}.{machine + 1}" for machine in range(MACHINES)]
        self.run("link", "add", "name", MARK, "type", "bridge")
        self.run("addr", "add", f"{net}.254/24", "dev", MARK)
        self.run("link", "set", MARK, "up")
        for machine, host in enumerate(self.hosts):
            name, end = f"{MARK}-{machine}", self.end_of(machine)
            self.run("netns", "add", name)
            self.run("link", "add", end, "type", "veth", "peer", "name", "eth0", "netns", name)
            self.run("link", "set", end, "master", MARK, "up")
            self.run("-n", name, "addr", "add", f"{host}/24", "dev", "eth0")
            for link in ("eth0", "lo"):
                self.run("-n", name, "link", "set", link, "up")

    def run(self, *words: str) -> None:
        subprocess.run(["ip", *words], check=True, stdin=subprocess.DEVNULL, capture_output=True)

    def end_of(self, machine: int) -> str:
        return f"{MARK}e{machine}"

    def words(self, machine: int, words: Sequence[str]) -> Sequence[str]:
        return ["ip", "netns", "exec", f"{MARK}-{machine}", *words]

    def cut_off(self, machine: int, seconds: float, ended: threading.Event) -> None:
        self.run("link", "set", self.end_of(machine), "down")
        ended.wait(seconds)
        self.run("link", "set", self.end_of(machine), "up")

    def remove(self) -> None:
        for machine in range(MACHINES):
            subprocess.run(["ip", "netns", "delete", f"{MARK}-{machine}"], check=False, capture_output=True)
        subprocess.run(["ip", "link", "delete", MARK], check=False, capture_output=True)


class Cluster:
    """The members of etcd and the nodes, in a folder."""

    def __init__(self, folder: str, ground: Ground) -> None:
        self.folder, self.ground = folder, ground
        self.small = os.path.join(folder, "store0")
        ports = [(free_port(), free_port()) for _ in range(MACHINES)]
        self.addresses = [f"{host}:{client}" for host, (client, _) in zip(ground.hosts, ports)]
        peers = [f"http://{host}:{peer}" for host, (_, peer) in zip(ground.hosts, ports)]
        together = ",".join(f"m{machine}={peer}" for machine, peer in enumerate(peers))
        self.members = [
            Process(
                ground.words(machine, etcd_words(f"m{machine}", place, f"http://{address}", peer, together)),
                f"{place}.log",
            )
            for machine, (address, peer) in enumerate(zip(self.addresses, peers))
            for place in [os.path.join(folder, f"m{machine}")]
        ]
        self.nodes = [self.node(machine) for machine in range(MACHINES)]

    def socket_of(self, number: int) -> str:
        return os.path.join(self.folder, f"s{number}")

    def node(self, number: int) -> Process:
        addresses = self.addresses[number % MACHINES :] + self.addresses[: number % MACHINES]
        words = [
            sys.executable, "-m", "confstore_replicated.node", self.socket_of(number),
            os.path.join(self.folder, f"store{number}"), *addresses, "--base-after", str(BASE_AFTER),
        ]  # fmt: skip
        return Process(self.ground.words(number % MACHINES, words), os.path.join(self.folder, f"n{number}.log"))

    def start(self) -> None:
        os.mkdir(self.small)
        if os.geteuid() == 0:
            mounted = subprocess.run(["mount", "-t", "tmpfs", "-o", "size=4m", "tmpfs", self.small], check=False)
            if mounted.returncode != 0:
                print("the full disk is a limit of file sizes: no file system may be mounted here")
        for process in self.members:
            process.start()
        Etcd(self.addresses, 60).put(b"/confstore/started", b"yes")
        for process in self.nodes:
            process.start()

    def stop(self) -> None:
        for process in [*self.nodes, *self.members]:
            process.kill()
        if os.path.ismount(self.small):
            subprocess.run(["umount", "--lazy", self.small], check=False)

    def fill_disk(self, seconds: float, ended: threading.Event) -> None:
        """Has no byte free on the disk of the first node for so long."""
        if not os.path.ismount(self.small):
            return limit_files(self.nodes[0], seconds, ended)
        ballast = os.path.join(self.small, "ballast")
        try:
            with open(ballast, "wb") as target:
                while True:
                    target.write(bytes(4096))
                    target.flush()
        except OSError:
            ended.wait(seconds)
        os.remove(ballast)


def limit_files(process: Process, seconds: float, ended: threading.Event) -> None:
    """Starts a process anew, so that none of its files can be longer than this for a while."""
    process.kill()
    process.limit = 20_000
    process.start()
    ended.wait(seconds)
    process.kill()
    process.limit = None
    process.start()


def asked(cluster: Cluster, number: int, request: Request, elsewhere: bool = True) -> Request:
    """What a node answers. Tries again, and at other nodes if that is allowed, until one answers."""
    deadline = time.monotonic() + PATIENCE
    while True:
        try:
            client = Client(cluster.socket_of(number))
            try:
                answer = client.ask(dict(request))
            finally:
                client.close()
            if "failed" not in answer:
                return answer
        except OSError:
            pass
        if time.monotonic() > deadline:
            raise TimeoutError(f"node {number} does not answer {request}")
        if elsewhere:
            number = (number + 1) % MACHINES
        time.sleep(0.05)
