"""Lets a second host go on where the first one is gone: on the folder of the first (a shared disk), and on a copy of it.

usage: gate/try_standby [--program FILE] [WORD ..]

Each host is a network of its own (`unshare --net`) with a server that hears 127.0.0.1 there, and a router before it; the
clients, which have names, are in a third one, and know one address, which one of the hosts has. A host is gone when its
server is killed by SIGKILL and its cable is cut, so that no client hears of it. Then the other one starts its server and
takes the address. On the same folder each call that was answered is there, once; on a copy those are there that were
answered before the last copy began, and how many were lost is said. docs/SCALING.md tells what that means. `rsync` makes
the copies where it is there, else `cp`. The file for Kubernetes is looked at beside the image's. Where `haproxy` is there
the router of each of the two is run: what Kubernetes asks it is answered, and a client whose cable is cut behind it holds
nothing more.

It is run as root.
"""
import contextlib
import ctypes
import http.client
import json
import os
import pathlib
import re
import shutil
import signal
import socket
import subprocess
import sys
import threading
import time
from collections.abc import Callable, Mapping, Sequence
from typing import Any, TypeVar

from clients.python.pathclient import CallError, Expired, Lost, NoServer, Object, Rejected
from gate import kept, served
from gate.fakes import METER
from gate.served import Server, free_port, is_whole
from gate.tried import TOP, Wrong, check, given_words, holds, lacks, program, there, until, whole

SECONDS, CLIENTS = 60, 4
# The address that the clients know, and the ports of routers and of servers.
ADDRESS, PORT, OWN = "10.77.0.10", 7000, 7101
# The lines by which a router asks a client that says nothing whether it is there.
ASKED_IN_VAIN = ("option clitcpka", "clitcpka-idle 10s", "clitcpka-intvl 5s", "clitcpka-cnt 3")
NEW_NETWORK = 0x40000000  # CLONE_NEWNET

T = TypeVar("T")


class Network:
    """A network of its own, which stays while its process does."""

    def __init__(self) -> None:
        self.keeper = subprocess.Popen(["unshare", "--net", "cat"], stdin=subprocess.PIPE, stdout=subprocess.DEVNULL)
        self.file = f"/proc/{self.keeper.pid}/ns/net"
        until(lambda: os.readlink(self.file) != os.readlink("/proc/self/ns/net"), "a network of its own", 10)
        self.ip("link", "set", "lo", "up")

    def words(self, *words: object) -> list[str]:
        return ["nsenter", f"--net={self.file}", *map(str, words)]

    def ip(self, *words: object) -> None:
        ran = subprocess.run(self.words("ip", *words), capture_output=True, text=True, timeout=SECONDS)
        holds(ran.returncode == 0, f"ip {' '.join(map(str, words))}: {ran.stderr.strip()}")

    def enter(self) -> None:
        """The thread that calls this is in this network from now on."""
        with open(self.file) as it:
            if ctypes.CDLL(None, use_errno=True).setns(it.fileno(), NEW_NETWORK):
                raise OSError(ctypes.get_errno(), "setns")

    def end(self) -> None:
        self.keeper.kill()
        self.keeper.communicate()


class Host(Network):
    """A host with a server over a folder, and a router before it."""

    def __init__(self, switch: Network, name: str, number: int) -> None:
        super().__init__()
        self.switch, self.name = switch, name
        self.server: Server | None = None
        switch.ip("link", "add", "name", name, "type", "veth", "peer", "name", "eth0", "netns", self.keeper.pid)
        switch.ip("link", "set", name, "master", "switch", "up")
        self.ip("address", "add", f"10.77.0.{number}/24", "dev", "eth0")
        self.ip("link", "set", "eth0", "up")
        ready = threading.Event()
        threading.Thread(target=self.route, args=(ready,), daemon=True).start()
        ready.wait(SECONDS)

    def route(self, ready: threading.Event) -> None:
        """Hands on what comes to the address of this host."""
        self.enter()
        taker = socket.create_server(("0.0.0.0", PORT))
        ready.set()
        while True:
            client = taker.accept()[0]
            try:
                server = socket.create_connection(("127.0.0.1", OWN))
            except OSError:
                client.close()
                continue
            for one, other in ((client, server), (server, client)):
                one.setsockopt(socket.IPPROTO_TCP, socket.TCP_NODELAY, 1)
                threading.Thread(target=hand_on, args=(one, other), daemon=True).start()

    def start(self, source: pathlib.Path, folder: pathlib.Path) -> None:
        """Starts a server here, and takes the address."""
        self.server = Server("keep", source, folder, "--stop-with-input", place=OWN, by=self.words(program()))
        self.server.start()
        self.ip("address", "add", f"{ADDRESS}/24", "dev", "eth0")
        # (what a host says to all when it takes an address)
        self.switch.ip("neighbour", "flush", "all")

    def is_gone(self) -> None:
        server = there(self.server)
        server.child.kill()
        self.switch.ip("link", "set", self.name, "down")
        server.kill()

    def end(self) -> None:
        if self.server:
            self.server.kill()
        super().end()


def hand_on(one: socket.socket, other: socket.socket) -> None:
    with contextlib.suppress(OSError):
        while piece := one.recv(1 << 16):
            other.sendall(piece)
    for it in (one, other):
        with contextlib.suppress(OSError):
            it.shutdown(socket.SHUT_RDWR)


class Hosts:
    """Two hosts, and the network of the clients between them."""

    def __enter__(self) -> "Hosts":
        self.stack = contextlib.ExitStack()
        self.switch = Network()
        self.stack.callback(self.switch.end)
        self.switch.ip("link", "add", "name", "switch", "type", "bridge")
        self.switch.ip("address", "add", "10.77.0.1/24", "dev", "switch")
        self.switch.ip("link", "set", "switch", "up")
        self.one, self.two = (Host(self.switch, *it) for it in (("one", 2), ("two", 3)))
        for it in (self.one, self.two):
            self.stack.callback(it.end)
        return self

    def __exit__(self, *_: object) -> None:
        self.stack.close()


class Client(threading.Thread):
    """Adds one after the other by a name, as a program has to that wants each to be done once: what is lost is asked again under its
    key, until it is known, or the session is not as it was left."""

    def __init__(self, network: Network, name: str) -> None:
        super().__init__(daemon=True)
        self.network, self.name = network, name
        self.gap, self.stops = 0.0, threading.Event()
        self.replies: list[Any] = []
        self.wrong: CallError | OSError | None = None
        self.start()

    def run(self) -> None:
        try:
            self.network.enter()
            it = self.opened()
            while not self.stops.is_set():
                begun, key = time.monotonic(), it.key
                self.replies.append(self.added(it, key))
                self.gap = max(self.gap, time.monotonic() - begun)
            it.close()
        except (CallError, OSError) as error:
            self.wrong = error

    def opened(self) -> Object:
        end = time.monotonic() + SECONDS
        while True:
            try:
                return Object(PORT, "meter", ADDRESS, 2, self.name)
            except NoServer:
                # (the address may have been taken a moment ago)
                if time.monotonic() > end:
                    raise

    def added(self, it: Object, key: Any) -> Any:
        while True:
            try:
                return it.call("add", 1, within=0.3, key=key)
            except Expired:
                raise
            except (Lost, NoServer):
                pass


def in_network(network: Network, work: Callable[[], T]) -> T:
    """What this comes to in that network."""
    found: list[T] = []

    def run() -> None:
        network.enter()
        found.append(work())

    thread = threading.Thread(target=run)
    thread.start()
    thread.join(SECONDS)
    holds(found, "nothing came of it")
    return found[0]


def total(network: Network) -> Any:
    with contextlib.closing(Object(PORT, "meter", ADDRESS, 10)) as it:
        return it.total()


def prepared(folder: pathlib.Path) -> tuple[pathlib.Path, pathlib.Path, pathlib.Path]:
    (folder / "meter.pp").write_text(METER)
    for it in ("one", "two"):
        (folder / it).mkdir(0o700)
    return folder / "meter.pp", folder / "one", folder / "two"


def a_shared_folder(folder: pathlib.Path) -> None:
    """Nothing that was answered is lost, and nothing is done twice."""
    source, data, _ = prepared(folder)
    with Hosts() as hosts:
        hosts.one.start(source, data)
        clients = [Client(hosts.switch, f"client_{it}") for it in range(CLIENTS)]
        time.sleep(1.5)
        before = sum(len(it.replies) for it in clients)
        hosts.one.is_gone()
        begun = time.monotonic()
        # (one answer of the first host may be on its way to each client)
        had = [len(it.replies) + 1 for it in clients]
        hosts.two.start(source, data)
        started = time.monotonic() - begun
        until(lambda: all(it.wrong or len(it.replies) > one for it, one in zip(clients, had)), "the clients come back", SECONDS)
        for it in clients:
            it.stops.set()
        for it in clients:
            it.join(SECONDS)
        check([it.wrong for it in clients], [None] * CLIENTS, "what clients say")
        replies = sorted(one for it in clients for one in it.replies)
        check(replies == list(range(1, len(replies) + 1)), True, "whether each call was done once")
        check(in_network(hosts.switch, lambda: total(hosts.switch)), len(replies), "the total")
        holds(0 < before < len(replies), "the second host has answered nothing")
        is_whole(source, data)
        print(f"  {before} answered by the first host, {len(replies) - before} by the second one, none lost; it listens {started:.2f} s")
        print(f"  behind the end of the first one, and the clients had no answer for {max(it.gap for it in clients):.1f} s")


def a_copied_folder(folder: pathlib.Path) -> None:
    """What was answered before the last copy began is there; what came behind it is lost, and its clients are told so."""
    source, data, copy = prepared(folder)
    with Hosts() as hosts:
        hosts.one.start(source, data)
        clients = [Client(hosts.switch, f"client_{it}") for it in range(CLIENTS)]
        end, copies, known = time.monotonic() + 3, 0, 0
        while time.monotonic() < end:
            answered = sum(len(it.replies) for it in clients)
            if copied(data, copy):
                copies, known = copies + 1, answered
            time.sleep(0.3)
        hosts.one.is_gone()
        answered = sum(len(it.replies) for it in clients)
        is_whole(source, copy)
        hosts.two.start(source, copy)
        for it in clients:
            it.join(SECONDS)
        told = [it.wrong for it in clients]
        holds(all(isinstance(it, Expired) or isinstance(it, Rejected) and it.word == "BadKey" for it in told), f"clients are told {told}")
        found = in_network(hosts.switch, lambda: total(hosts.switch))
        holds(copies > 1 and 0 < known <= found, f"{known} were answered when the last of {copies} copies began, and {found} are there")
        holds(found <= answered + CLIENTS, f"{found} are there, and {answered} were answered")
        print(f"  {copies} copies in 3 s; {answered} answered, {answered - min(found, answered)} of these lost")
        print(f"  (since the last copy began {answered - known} were answered)")


def copied(data: pathlib.Path, copy: pathlib.Path) -> bool:
    """Copies a folder as it is, while its server runs."""
    if shutil.which("rsync"):
        return subprocess.run(["rsync", "-a", "--delete", f"{data}/", f"{copy}/"], timeout=SECONDS).returncode in (0, 24)
    new = copy.with_name("new")
    shutil.rmtree(new, ignore_errors=True)
    if subprocess.run(["cp", "-r", data, new], timeout=SECONDS).returncode:
        return False
    shutil.rmtree(copy)
    new.rename(copy)
    return True


def two_servers(folder: pathlib.Path) -> None:
    """On one machine a folder has one server; the second one starts when the first one is gone."""
    source, data, _ = prepared(folder)
    with Hosts() as hosts:
        hosts.one.start(source, data)
        try:
            hosts.two.start(source, data)
            raise ValueError("two servers have one folder")
        except Wrong as why:
            holds("status 3" in str(why), str(why))
        hosts.one.is_gone()
        hosts.two.start(source, data)


def manifest() -> tuple[str, dict[str, str]]:
    """The file for Kubernetes, and the files in it."""
    text = (TOP / "examples" / "kubernetes.yaml").read_text()
    parts = {name: re.sub(r"(?m)^ {4}", "", part) for name, part in re.findall(r"(?m)^  ([\w.]+): \|\n((?: {4}.*\n)+)", text)}
    check(sorted(parts), ["haproxy.cfg", "objects.pp"], "the files")
    return text, parts


def asking(text: str) -> str:
    """The program by which the file for Kubernetes has its server asked."""
    found = there(re.search(r"- (alarm .*)\n +- (/\S+)\n", text), "what Kubernetes runs to ask the server")
    holds(found[2] in text.split("haproxy.cfg: |")[1].split("---")[0], "the server is asked at another socket than the router's")
    return found[1]


def a_manifest(folder: pathlib.Path) -> None:
    """The file for Kubernetes: its objects are accepted, and the folders of the image are those that it mounts."""
    text, parts = manifest()
    for name, part in parts.items():
        (folder / name).write_text(part)
    said, status, _ = served.run("check", folder / "objects.pp")
    check((status, said.splitlines()[-1]), (0, "1 objects, 0 refused"), "what is said of the objects")
    image = (TOP / "tools" / "package" / "Dockerfile").read_text()
    command = there(re.search(r"(?m)^CMD (.*)$", image))[1]
    mounts = re.findall(r"mountPath: (\S+)\}", text)
    for it in re.findall(r'"(/[^"]+)"', command):
        holds(any(it.startswith(one) for one in mounts), f"{it} is in no folder that is mounted")
    holds(there(re.search(r'server \S+ unix@(\S+)', parts["haproxy.cfg"]))[1] in command, "the router goes to another socket")
    health = json.loads(there(re.search(r"(?m)^HEALTHCHECK .* CMD (.*)$", image), "HEALTHCHECK")[1])
    check((health[:-2], health[-2].replace("qq(list\\n)", '"list\\n"')), (["perl", "-MIO::Socket::UNIX", "-e"], asking(text)), "how the image asks")
    holds(health[-1] in command, "the image asks at another socket than its server's")
    ports = re.findall(r"httpGet: \{path: (\S+), port: (\d+)\}", text)
    told = re.findall(r"bind :(\d+)\n +monitor-uri (\S+)", parts["haproxy.cfg"])
    check(sorted(ports), sorted((path, port) for port, path in told), "what Kubernetes asks the router")
    numbers = set(re.findall(r"(?:runAsUser|runAsGroup|fsGroup): (\d+)", text)) | set(re.findall(r"--[gu]id (\d+)", image))
    check(len(numbers), 1, "how many users and groups there are")


class Router:
    """HAProxy by a file, whose addresses and time-outs are others here."""

    def __init__(self, folder: pathlib.Path, text: str, changed: Mapping[str, str], by: Sequence[str] = ()) -> None:
        for old, new in changed.items():
            holds(old in text, f"the file of the router has no {old!r}")
            text = text.replace(old, new)
        file = folder / "haproxy.cfg"
        file.write_text(text)
        self.ran = subprocess.Popen([*by, "haproxy", "-f", file], stdout=subprocess.DEVNULL, stderr=subprocess.PIPE, text=True)

    def __enter__(self) -> "Router":
        return self

    def __exit__(self, *_: object) -> None:
        self.ran.kill()
        self.ran.communicate()


def example() -> str:
    """The file of examples/router."""
    return (TOP / "examples" / "router" / "haproxy.cfg").read_text()


def answer(port: int, path: str) -> int:
    """The status of the answer of a router to this request; 0 where it does not listen yet."""
    asks = http.client.HTTPConnection("127.0.0.1", port, timeout=SECONDS)
    with contextlib.closing(asks), contextlib.suppress(ConnectionError):
        asks.request("GET", path)
        return asks.getresponse().status
    return 0


def what_kubernetes_asks(folder: pathlib.Path) -> None:
    """The router says whether the server answers a client, and whether it goes on itself; the image's own client says the same."""
    text, parts = manifest()
    place, numbers = folder / "it.sock", {it: free_port() for it in (7000, 7001, 7002)}
    changed = {f"bind :{it}\n": f"bind 127.0.0.1:{number}\n" for it, number in numbers.items()}
    changed |= {"/run/pathserve/objects.sock": str(place), "inter 5s fastinter 1s downinter 1s": "inter 200ms", "check 10s": "check 200ms"}
    (folder / "objects.pp").write_text(parts["objects.pp"])
    (folder / "data").mkdir(0o700)
    has_perl = not lacks("perl")

    def told() -> list[int]:
        return [answer(numbers[7001], "/ready"), answer(numbers[7002], "/alive")]

    def asked() -> int:
        words = ["perl", "-MIO::Socket::UNIX", "-e", asking(text), str(place)]
        return subprocess.run(words, stderr=subprocess.DEVNULL, timeout=SECONDS).returncode

    with Router(folder, parts["haproxy.cfg"], changed):
        until(lambda: told() == [503, 200], "the router does not say that no server is there", 10)
        with Server("keep", folder / "objects.pp", folder / "data", "--stop-with-input", place=place) as server:
            until(lambda: told() == [200, 200], "the router does not say that the server is there", 10)
            holds(not has_perl or asked() == 0, "the image's own client says that the server is not there")
            with Object(numbers[7000], "cell", client="ann") as it:
                check((it.put(7), it.get()), (None, 7), "a cell")
            # (one that stands still takes a connection, and answers nothing)
            server.child.send_signal(signal.SIGSTOP)
            until(lambda: told() == [503, 200], "the router does not say that the server stands still", 10)
            server.child.send_signal(signal.SIGCONT)
            until(lambda: told() == [200, 200], "the router does not say that the server goes on", 10)
            server.child.kill()
            until(lambda: told() == [503, 200], "the router does not say that the server is gone", 10)
            holds(place.exists(), "a server that was killed leaves no socket: this tries nothing")
            holds(not has_perl or asked() != 0, "the image's own client says that a server is there that is gone")


def connected() -> socket.socket:
    """A connection to the router, which may not listen yet."""
    end = time.monotonic() + SECONDS
    while True:
        try:
            return socket.create_connection((ADDRESS, PORT), SECONDS)
        except OSError:
            if time.monotonic() > end:
                raise
            time.sleep(0.1)


def a_cut_cable(folder: pathlib.Path) -> None:
    """Behind a router a client whose cable is cut holds nothing more when it was asked in vain (here each second)."""
    for text in (manifest()[1]["haproxy.cfg"], example()):
        for line in ASKED_IN_VAIN:
            holds(re.search(rf"(?m)^ +{line}$", text.partition("frontend")[0]), f"a file of a router has no line {line!r}")
    place, source = folder / "it.sock", TOP / "examples" / "objects" / "build_slots.pp"
    changed = {"/run/pathserve/objects.sock": str(place), "clitcpka-idle 10s": "clitcpka-idle 1s", "clitcpka-intvl 5s": "clitcpka-intvl 1s"}
    (folder / "data").mkdir(0o700)

    def held() -> bool:
        with socket.socket(socket.AF_UNIX) as it, it.makefile("rb") as lines:
            it.connect(str(place))
            it.sendall(b"open build_slots\nwho\nquit\n")
            return b"\nholds 1 " in lines.read()

    with contextlib.ExitStack() as stack:
        machine, other = Network(), Network()
        for one in (machine, other):
            stack.callback(one.end)
        machine.ip("link", "add", "name", "eth0", "type", "veth", "peer", "name", "eth0", "netns", other.keeper.pid)
        for one, address in ((machine, ADDRESS), (other, "10.77.0.2")):
            one.ip("address", "add", f"{address}/24", "dev", "eth0")
            one.ip("link", "set", "eth0", "up")
        stack.enter_context(Server("keep", source, folder / "data", "--stop-with-input", place=place))
        stack.enter_context(Router(folder, manifest()[1]["haproxy.cfg"], changed, machine.words()))
        client = stack.enter_context(in_network(other, connected))
        client.sendall(b"open build_slots\ncall take_slot\n")
        until(held, "the client holds no slot", 10)
        other.ip("link", "set", "eth0", "down")
        begun = time.monotonic()
        until(lambda: not held(), "what a client held whose cable is cut is not given back", 15)
        print(f"  what a client held was given back {time.monotonic() - begun:.1f} s behind the cut of its cable")


def a_router(folder: pathlib.Path) -> None:
    """HAProxy, by the file of examples/router: each object by its port, and by the name that a client opens."""
    text = example()
    ports = {it: str(free_port()) for it in sorted(set(re.findall(r"127\.0\.0\.1:(\d+)", text)))}
    with contextlib.ExitStack() as stack:
        for name, port in (("cell", ports["7101"]), ("bounded_buffer", ports["7102"])):
            (folder / name).mkdir(0o700)
            source = TOP / "examples" / "objects" / f"{name}.pp"
            stack.enter_context(Server("keep", source, folder / name, "--stop-with-input", place=port))
        stack.enter_context(Router(folder, text, {f"127.0.0.1:{old}": f"127.0.0.1:{new}" for old, new in ports.items()}))
        for port in ("7001", "7000"):
            with Object(int(ports[port]), "cell", client="ann") as it:
                check((it.put(int(port)), it.get()), (None, int(port)), "a cell")
        for port in ("7002", "7000"):
            with Object(int(ports[port]), "bounded_buffer", client="ann") as it:
                check((it.put("bread"), it.get()), (None, "bread"), "a buffer")


def main() -> int:
    words = given_words()
    if any(it.startswith("-") for it in words):
        print(__doc__, file=sys.stderr)
        return 2
    if os.geteuid():
        print("not run: root")
        return 0
    if any([lacks(it) for it in ("unshare", "nsenter", "ip")]):
        return 0
    routed = [] if lacks("haproxy") else [what_kubernetes_asks, a_cut_cable, a_router]
    trials = [a_shared_folder, a_copied_folder, two_servers, a_manifest, *routed]
    return kept.run("try_standby", trials, words)


load_tests = whole(main)
