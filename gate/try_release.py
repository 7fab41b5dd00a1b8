"""Makes a release of the program at hand (tools/release), installs it where nothing else is, and uses it.

usage: gate/try_release [--program FILE] [WORD ..]

The archive is unpacked, and run from its folder. Debian's package is installed by `dpkg` in a root that has only the
programs which its scripts need, with the files that `ldd` names; the command of its unit is started as systemd would,
which hears when it listens, a client calls, the server is killed by SIGKILL and started anew, the values are there, and
the package is installed over itself where all that systemd is told fails, and removed. What the Dockerfile says is done
in another such root, as the first process of a new table of processes. It is run as root; what wants a tool that is not
there is not run. With words only the trials are run whose titles have them.
"""
import contextlib
import hashlib
import json
import os
import pathlib
import re
import resource
import shlex
import shutil
import signal
import socket
import stat
import subprocess
import sys
import tarfile
import tempfile
from collections.abc import Mapping, Sequence
from typing import Any

from clients.python.pathclient import Object
from gate import kept
from gate.tried import TOP, Wrong, check, given_words, holds, lacks, program, there, until, whole

SECONDS = 60
# What a root has before a package is installed: what `dpkg`, the package's scripts and `pathserve` itself call, and `sh`.
PROGRAMS = (
    "bash", "cat", "diff", "dpkg", "dpkg-deb", "dpkg-split", "env", "getent", "gpasswd", "grep", "groupadd", "install",
    "ldconfig", "ln", "mv", "readlink", "rm", "sh", "start-stop-daemon", "tar", "useradd",
)
DPKG = ("var/lib/dpkg/info", "var/lib/dpkg/updates", "var/lib/dpkg/triggers")
PATH = {"PATH": "/usr/sbin:/usr/bin"}
NOT_PROVED = "proved: not proved"

# The files of a release: its archive, its package where there is one, and the file of an image.
Files = list[pathlib.Path | None]


def said(*words: object, status: int = 0, **more: Any) -> str:
    """What a command says that has to end so."""
    more = {"cwd": "/", "stdin": subprocess.DEVNULL, **more}
    ran = subprocess.run([str(it) for it in words], stdout=subprocess.PIPE, stderr=subprocess.STDOUT, text=True, timeout=SECONDS, **more)
    if ran.returncode != status:
        raise Wrong(f"{' '.join(map(str, words))} ended with status {ran.returncode}: {ran.stdout[-600:]!r}")
    return ran.stdout


def made(folder: pathlib.Path) -> Files:
    """A release of the program, in this folder: its archive, its package, and the file of an image."""
    said(TOP / "tools" / "release", "--unproved", "--program", program(), folder)
    files = [next(folder.glob(it), None) for it in ("*.tar.gz", "*.deb", "Dockerfile")]
    holds(files[0] and files[2], f"the release has {sorted(it.name for it in folder.iterdir())}")
    said("sha256sum", "--quiet", "-c", "SHA256SUMS", cwd=folder)
    return files


def children(process: int) -> list[int]:
    text = pathlib.Path(f"/proc/{process}/task/{process}/children").read_text()
    return [int(it) for it in text.split()]


class Root:
    """A root folder in which commands are run, with `proc` and as little else as they need."""

    def __init__(self, folder: pathlib.Path) -> None:
        self.top = folder
        for it in ("bin", "sbin", "lib", "lib64"):
            (self.top / "usr" / it).mkdir(parents=True)
            (self.top / it).symlink_to(f"usr/{it}")
        for it in ("usr/local/bin", "proc", "dev", "etc", "run", "tmp", "var/log", *DPKG):
            (self.top / it).mkdir(parents=True, exist_ok=True)
        (self.top / "dev" / "fd").symlink_to("/proc/self/fd")
        (self.top / "dev" / "null").touch()
        for it, text in (("passwd", "root:x:0:0::/:/bin/sh\nnobody:x:65534:65534::/:/bin/sh\n"), ("group", "root:x:0:\nnogroup:x:65534:\n")):
            (self.top / "etc" / it).write_text(text)
        for it in PROGRAMS:
            self.give(pathlib.Path(there(shutil.which(it), it)))
        self.give(program(), as_libraries_alone=True)

    def give(self, file: pathlib.Path, as_libraries_alone: bool = False) -> None:
        """Copies a program, and the files that `ldd` names."""
        if not as_libraries_alone:
            shutil.copy2(file.resolve(), self.top / "usr" / ("sbin" if "sbin" in str(file) else "bin") / file.name)
        told = subprocess.run(["ldd", file], capture_output=True, text=True).stdout
        for name in re.findall(r"(/\S+) \(0x", told):
            place = self.top / name.lstrip("/")
            if not place.exists():
                place.parent.mkdir(parents=True, exist_ok=True)
                shutil.copy2(pathlib.Path(name).resolve(), place)

    def words(self, *words: object, user: str | None = None, groups: Sequence[str] = (), is_first: bool = False) -> list[str]:
        """The command that runs these words in the root, as this user and in these groups, the first of which is its own, or as the
        first process of a new table of processes."""
        mounts = f"mount --bind /dev/null {self.top}/dev/null && mount "
        mounts += f"-t proc proc {self.top}/proc" if is_first else f"--rbind /proc {self.top}/proc"
        numbers = [self.group(it) for it in groups]
        spec = [f"--userspec={':'.join([*self.ids(user)[:1], *(numbers or self.ids(user)[1:])][:2])}"] if user else []
        spec += [f"--groups={','.join(numbers)}"] if numbers else []
        more = ["--pid", "--fork", "--kill-child"] if is_first else []
        return ["unshare", "--mount", *more, "sh", "-c", f'{mounts} && exec "$@"', "sh", "chroot", *spec, str(self.top), *map(str, words)]

    def ids(self, user: str) -> list[str]:
        """The numbers of a user and of its group, as the root's own files have them."""
        rows = dict(it.split(":", 1) for it in (self.top / "etc" / "passwd").read_text().splitlines())
        holds(user in rows, f"there is no user {user}")
        return rows[user].split(":")[1:3]

    def group(self, name: str) -> str:
        """The number of a group."""
        rows = dict(it.split(":", 1) for it in (self.top / "etc" / "group").read_text().splitlines())
        holds(name in rows, f"there is no group {name}")
        return rows[name].split(":")[1]

    def members(self, name: str) -> str:
        return there(re.search(rf"(?m)^{name}:.*:(.*)$", (self.top / "etc" / "group").read_text()), f"the group {name}")[1]

    def run(self, *words: object, user: str | None = None, **more: Any) -> str:
        return said(*self.words(*words, user=user), env=PATH, **more)

    def at(self, path: str) -> pathlib.Path:
        return self.top / path.lstrip("/")


class Started:
    """A server that was started in a root: the process that holds its input, and its own."""

    def __init__(self, root: Root, words: Sequence[str], place: str, user: str | None, is_first: bool = False, files: int | None = None,
                 groups: Sequence[str] = (), mask: int = -1, env: Mapping[str, str] = PATH) -> None:
        limit = (lambda: resource.setrlimit(resource.RLIMIT_NOFILE, (files, files))) if files else None
        pipe = subprocess.PIPE
        self.ran = subprocess.Popen(
            root.words(*words, user=user, groups=groups, is_first=is_first), cwd="/", env=env, stdin=subprocess.DEVNULL, stdout=pipe,
            stderr=subprocess.STDOUT, text=True, start_new_session=True, preexec_fn=limit, umask=mask,
        )
        self.heard = [there(self.ran.stdout).readline() for _ in range(2)]
        check(self.heard, ["pathserve: not proved\n", f"listening {place}\n"], "what the server says first")
        self.holder = children(self.ran.pid)[0] if is_first else self.ran.pid
        until(lambda: children(self.holder), "the server runs")
        # (beside the server that has a child which hands on what it says)
        until(lambda: self.servers(), "the server runs")
        self.server, self.place, self.root = self.servers()[0], place, root

    def servers(self) -> list[int]:
        """The children of what holds its input that are the program."""
        return [it for it in children(self.holder) if os.readlink(f"/proc/{it}/exe").endswith("/pathserve")]

    def __enter__(self) -> "Started":
        return self

    def __exit__(self, *_: object) -> None:
        with contextlib.suppress(ProcessLookupError):
            os.killpg(self.ran.pid, signal.SIGKILL)
        self.ran.communicate()

    def is_of(self, user: str) -> None:
        owner = pathlib.Path(f"/proc/{self.server}").stat().st_uid
        check(owner, int(self.root.ids(user)[0]), "the user of the server")

    def client(self) -> Object:
        return Object(f"/proc/{self.server}/root{self.place}", "bounded_buffer", client="ann")

    def end(self, number: int, *processes: int) -> tuple[str, int]:
        """Sends this signal: what it says behind, and its status."""
        for it in processes:
            os.kill(it, number)
        said, _ = self.ran.communicate(timeout=SECONDS)
        return said, self.ran.returncode


class Keys(dict[str, str]):
    """The keys of a unit and what they say."""

    def __missing__(self, key: str) -> None:
        raise Wrong(f"the unit says nothing of {key}")


class Unit:
    """The unit of systemd for this name, and what systemd would do of it."""

    def __init__(self, root: Root, name: str) -> None:
        self.root, self.name, self.has_word = root, name, not lacks("systemd-notify")
        if self.has_word:
            root.give(pathlib.Path(there(shutil.which("systemd-notify"))))
        text = root.at("/usr/lib/systemd/system/pathserve@.service").read_text().replace("%i", name)
        rows = [it.split("=", 1) for it in text.splitlines() if "=" in it and not it.startswith("#")]
        self.keys = Keys()
        for key, value in rows:
            # (a list of system calls has a line for what is added and one for what is taken away)
            holds(key not in self.keys or key == "SystemCallFilter", f"{key} stands twice in the unit")
            self.keys[key] = value

    def make_folders(self) -> None:
        """What systemd and its `systemd-tmpfiles` make before a start."""
        keys = self.keys
        rows = self.root.at("/usr/lib/tmpfiles.d/pathserve.conf").read_text().splitlines()
        wanted = [it.split()[1:5] for it in rows if it.startswith("d ")]
        check([it[0] for it in wanted], [keys["ReadWritePaths"]], "the folder of the sockets")
        wanted.append([f"/var/lib/{keys['StateDirectory']}", keys["StateDirectoryMode"], keys["User"], keys["Group"]])
        for path, mode, user, group in wanted:
            made = self.root.at(path)
            made.mkdir(parents=True, exist_ok=True)
            os.chown(made, int(self.root.ids(user)[0]), int(self.root.group(group)))
            made.chmod(int(mode, 8))

    def start(self) -> Started:
        keys = self.keys
        check((keys["Type"], keys["NotifyAccess"]), ("notify", "all"), "what systemd waits for, and from whom")
        self.make_folders()
        file = self.root.at(keys["EnvironmentFile"].removeprefix("-"))
        given = dict(it.split("=", 1) for it in file.read_text().splitlines()) if file.exists() else {}
        words = []
        for it in shlex.split(keys["ExecStart"]):
            words += given.get(it[1:], "").split() if it.startswith("$") else [it]
        holds(keys["AssertPathExists"] in words, "the file of the objects is another one than the unit looks for")
        place = next(it for it in words if it.endswith(".sock"))
        groups = [keys["Group"], *keys["SupplementaryGroups"].split()]
        with socket.socket(socket.AF_UNIX, socket.SOCK_DGRAM) as hears:
            ear = self.root.at("/run/notify")
            ear.unlink(missing_ok=True)
            hears.bind(str(ear))
            ear.chmod(0o777)
            hears.settimeout(SECONDS)
            started = Started(self.root, words, place, keys["User"], files=int(keys["LimitNOFILE"]), groups=groups,
                              mask=int(keys["UMask"], 8), env={**PATH, "NOTIFY_SOCKET": "/run/notify"})
            if self.has_word:
                check(hears.recv(4096), b"READY=1", "what systemd hears when the server listens")
                # (what says it waits for the end of a pipe, which it hands over, to know that it was heard)
                for pipe in socket.recv_fds(hears, 4096, 1)[1]:
                    os.close(pipe)
        return started

    def verify(self) -> None:
        """Has systemd read it, beside its own units, where it is there."""
        own = pathlib.Path("/usr/lib/systemd/system")
        if not own.is_dir() or lacks("systemd-analyze"):
            return
        top = self.root.top.parent / "verified"
        shutil.copytree(own, top / "usr/lib/systemd/system", symlinks=True)
        for it in ("usr/bin/pathserve", "usr/lib/pathserve/pathserve", "usr/lib/systemd/system/pathserve@.service"):
            (top / it).parent.mkdir(parents=True, exist_ok=True)
            shutil.copy2(self.root.at(it), top / it)
        words = ["systemd-analyze", "verify", f"--root={top}", "--man=no", f"pathserve@{self.name}.service"]
        told = subprocess.run(words, cwd=top, capture_output=True, text=True, timeout=SECONDS).stderr
        check([it for it in told.splitlines() if "pathserve" in it], [], "what systemd says of the unit")

    def starts_again(self, status: int) -> bool:
        """Whether systemd starts it again after this status."""
        return self.keys["Restart"] == "always" and str(status) not in self.keys["RestartPreventExitStatus"].split()


def is_missing() -> bool:
    """Whether what installs in a root of its own cannot be run."""
    if os.geteuid():
        print("not run: root")
        return True
    return any([lacks(it) for it in ("unshare", "chroot", "mount", "ldd", *PROGRAMS)])


def archive(folder: pathlib.Path, release: Files) -> None:
    """It is what its sums say, runs where no kit is, and is the same when it is made again."""
    first, again = release, made(folder / "again")
    for it, other in zip(first, again):
        check(it and hashlib.sha256(it.read_bytes()).hexdigest(), other and hashlib.sha256(other.read_bytes()).hexdigest(), it.name if it else "")
    archived = there(first[0])
    with tarfile.open(archived) as tar:
        holds(all(it.uid == it.gid == 0 and it.isfile() and ".." not in it.name for it in tar), "a file of the archive has another owner")
        tar.extractall(folder / "there")
    top = next((folder / "there").iterdir())
    check(f"{top.name}.tar.gz", archived.name, "the folder of the archive")
    said("sha256sum", "--quiet", "-c", "SHA256SUMS", cwd=top)
    sums = [it.split("  ")[1] for it in (top / "SHA256SUMS").read_text().splitlines()]
    found = sorted(str(it.relative_to(top)) for it in top.rglob("*") if it.is_file() and it.name != "SHA256SUMS")
    check(sorted(sums), found, "the files of SHA256SUMS")
    told = (top / "RELEASE").read_text().splitlines()
    holds(NOT_PROVED in told, f"RELEASE says {told}")
    holds(f"program: {hashlib.sha256(program().read_bytes()).hexdigest()}" in told, "RELEASE has another program")
    commit = said("git", "log", "-1", "--format=%H", cwd=TOP).strip()
    holds(any(it.startswith(f"commit: {commit}") for it in told), "RELEASE has another commit")
    bare = {"PATH": "/usr/bin:/bin"}
    words = ("run", "examples/objects/bounded_buffer.pp", "examples/scripts/bounded_buffer.script")
    wanted = subprocess.run([program(), *words], cwd=TOP, capture_output=True, text=True, timeout=SECONDS)
    ran = subprocess.run(["./pathserve", *words], cwd=top, env=bare, capture_output=True, text=True, timeout=SECONDS)
    check((ran.stdout, ran.stderr, ran.returncode), (wanted.stdout, "pathserve: not proved\n", 0), "a run")
    (folder / "bin").mkdir()
    (folder / "bin" / "pathserve").symlink_to(top / "pathserve")
    check(said("pathserve", "--version", env={"PATH": f"{folder}/bin:/usr/bin:/bin"}).splitlines()[0], "pathserve: not proved", "by a link")
    shutil.copy(TOP / "examples/traces/ledger.trace", folder / "it.trace")
    said(top / "tools/timeline", folder / "it.trace")
    holds((folder / "it.svg").exists(), "tools/timeline draws nothing")
    for name in ("LICENSE", "LICENSES", "docs/pathserve.1", "docs/GUIDE.md", "clients/python/pyproject.toml"):
        holds((top / name).is_file(), f"there is no {name}")


def is_status(root: Root, name: str) -> str:
    return said("dpkg-query", f"--admindir={root.top}/var/lib/dpkg", "-W", "-f", "${Status}", name)


def installed(folder: pathlib.Path, package: pathlib.Path) -> tuple[Root, list[str]]:
    """A clean root in which the package is installed, and the paths of its files."""
    root = Root(folder / "root")
    # The package may stand on these, as this machine has them.
    needs = re.findall(r"[a-z0-9]+", re.sub(r"\(.*?\)", "", said("dpkg-deb", "-f", package, "Depends")))
    root.at("/var/lib/dpkg/status").write_text("".join(said("dpkg", "-s", it) + "\n" for it in needs))
    root.at("/var/lib/dpkg/available").touch()
    shutil.copy(package, root.at("/tmp/it.deb"))
    root.run("dpkg", "--force-unsafe-io", "-i", "/tmp/it.deb")
    check(is_status(root, "pathserve"), "install ok installed", "the status of the package")
    rows = [it.split(None, 5)[5].split(" -> ")[0] for it in said("dpkg-deb", "-c", package).splitlines()]
    return root, [it.removeprefix(".") for it in rows if not it.endswith("/")]


def package(folder: pathlib.Path, release: Files) -> None:
    """It is installed, serves, is killed, serves again, and is removed; what it kept stays."""
    root, files = installed(folder, there(release[1]))
    check([it for it in files if not root.at(it).exists() and not root.at(it).is_symlink()], [], "files that are not there")
    holds(NOT_PROVED in root.at("/usr/lib/pathserve/RELEASE").read_text(), "RELEASE does not say that it is not proved")
    version = root.run("pathserve", "--version", user="nobody").splitlines()[-1]
    holds(re.fullmatch(r"pathserve \d+\.\d+\.\d+", version), f"it says {version!r}")
    holds(root.at("/usr/share/man/man1/pathserve.1.gz").is_file(), "there is no manual page")
    for path in ("clients/python/pathclient/__init__.py", "clients/node/pathclient.mjs", "clients/java/PathClient.java", "tools/timeline"):
        holds(root.at(f"/usr/lib/pathserve/{path}").is_file(), f"there is no {path} where a slim image keeps it")
    shutil.copy(root.at("/usr/share/doc/pathserve/examples/objects/bounded_buffer.pp"), root.at("/etc/pathserve/buffer.pp"))
    root.run("groupadd", "--system", "pathserve-buffer")
    unit = Unit(root, "buffer")
    unit.verify()
    check(unit.keys["KillMode"], "mixed", "who gets the signal")
    with unit.start() as server, server.client() as it:
        place, own = root.at(server.place), int(root.group("pathserve-buffer"))
        data = root.at("/var/lib/pathserve/buffer")
        looked = (place, place.with_name(f"{place.name}.lock"), place.parent, data, data / "bounded_buffer.journal", data.parent)
        states = [one.stat() for one in looked]
        check({one.st_uid for one in states}, {int(root.ids("pathserve")[0])}, "the owners of the socket, the journal and the folders")
        modes = [oct(stat.S_IMODE(one.st_mode)) for one in states]
        check(modes, ["0o660", "0o600", "0o755", "0o700", "0o600", "0o700"], "the modes of the socket, its lock, the journal and the folders")
        check(states[0].st_gid, own, "the group of the socket")
        server.is_of("pathserve")
        check([it.put("bread"), it.put("milk"), it.get()], [None, None, "bread"], "replies")
        status = server.end(signal.SIGKILL, server.server)[1]
    holds(status == 137 and unit.starts_again(status), f"the end by SIGKILL has the status {status}")
    root.at("/etc/pathserve/buffer.conf").write_text("OPTIONS=--traces 10 --at-once 4 --status 1\n")
    with unit.start() as server, server.client() as it:
        check([it.key, it.call("get", key=3), it.waiting(), it.get(), it.put("tea")], [4, "bread", 1, "milk", None], "replies")
        holds(b"\0--at-once\0004\0" in pathlib.Path(f"/proc/{server.server}/cmdline").read_bytes(), "the options are not heeded")
        until(lambda: root.at("/var/lib/pathserve/buffer/status.prom").exists(), "the server writes its status")
        status_of = root.at("/usr/bin/pathserve-status").read_text().replace("/usr/lib/pathserve", str(root.at("/usr/lib/pathserve")))
        table = said("sh", "-c", status_of, "sh", root.at("/var/lib/pathserve/buffer"))
        holds("bounded_buffer  get " in table, f"pathserve-status says {table!r}")
        check(server.end(signal.SIGKILL, -server.ran.pid), ("", -signal.SIGKILL), "the end of both by SIGKILL")
    root.at("/etc/pathserve/buffer.conf").unlink()
    with unit.start() as server:
        with server.client() as it:
            check([it.waiting(), it.get()], [1, "tea"], "replies")
        check(server.end(signal.SIGTERM, server.holder), ("bounded_buffer entries 2\n", 0), "the end by SIGTERM")
    holds(root.at("/var/lib/pathserve/buffer/bounded_buffer.items.part").exists(), "the parts are not saved")
    audited = root.run("pathserve", "audit", "/etc/pathserve/buffer.pp", "/var/lib/pathserve/buffer", user="pathserve")
    holds(audited.splitlines()[-1].endswith(" whole"), f"audit says {audited!r}")
    upgraded(root)
    for word in ("-r", "-P"):
        root.run("dpkg", "--force-unsafe-io", word, "pathserve")
        check([it for it in files if root.at(it).exists() or root.at(it).is_symlink()], [], f"files that are there behind dpkg {word}")
        for kept_file in ("/var/lib/pathserve/buffer/bounded_buffer.journal", "/etc/pathserve/buffer.pp"):
            holds(root.at(kept_file).exists(), f"{kept_file} is gone behind dpkg {word}")
        left = [str(it) for folder in ("/usr/lib/pathserve", "/usr/share/doc/pathserve") for it in (root.at(folder), *root.at(folder).rglob("*")) if it.exists()]
        check(left, [], f"what is left in the package's folders behind dpkg {word}")


def upgraded(root: Root) -> None:
    """Installed once more, as by an upgrade, it has the same user and what was kept, whatever systemd says, and each name has its
    group: who was in `pathserve` before there was one is in it."""
    root.run("groupadd", "--system", "other")
    root.run("useradd", "--gid", "other", "--groups", "pathserve", "worker")
    shutil.copy(root.at("/etc/pathserve/buffer.pp"), root.at("/etc/pathserve/more.pp"))
    root.at("/run/systemd/system").mkdir(parents=True)
    for it in ("systemctl", "systemd-tmpfiles"):
        root.at(f"/usr/bin/{it}").write_text(f'#!/bin/sh\necho {it} "$@" >>/tmp/asked\nexit 1\n')
        root.at(f"/usr/bin/{it}").chmod(0o755)
    root.at("/etc/pathserve/more.conf").write_text("OPTIONS=--explain\n")
    told = root.run("dpkg", "--force-unsafe-io", "-i", "/tmp/it.deb")
    check(is_status(root, "pathserve"), "install ok installed", "the status of the package")
    check([root.members(f"pathserve-{it}") for it in ("more", "buffer")], ["worker", ""], "who is in the groups of the names")
    for line in ("pathserve: worker: now in pathserve-more; ", "/etc/pathserve/more.conf: "):
        holds(line in told, f"there is no line {line!r} in {told!r}")
    wanted = {"systemd-tmpfiles --create pathserve.conf", "systemctl daemon-reload", "systemctl try-restart pathserve@*.service"}
    check(set(root.at("/tmp/asked").read_text().splitlines()), wanted, "what systemd is told")


def image(folder: pathlib.Path, release: Files) -> None:
    """What the Dockerfile says, done in a clean root, of the archive alone."""
    root = Root(folder / "root")
    archive, file = there(release[0]), there(release[2])
    rows = re.sub(r"\\\n", " ", file.read_text()).splitlines()
    done: dict[str, Any] = {}
    user: str | None = None
    for word, rest in (it.split(" ", 1) for it in rows if it and not it.startswith("#")):
        if word == "FROM":
            holds(not done and rest.startswith("debian:"), f"the image is made of {rest}")
        elif word == "ADD":
            pattern, place = rest.split()
            holds(archive.match(pattern), f"{archive.name} is not what the Dockerfile adds")
            with tarfile.open(archive) as tar:
                tar.extractall(root.at(place))
        elif word == "RUN":
            root.run("sh", "-ec", rest)
        elif word == "USER":
            user = rest
        elif word in ("ENTRYPOINT", "CMD", "VOLUME"):
            done[word] = json.loads(rest)
        elif word == "HEALTHCHECK":
            done[word] = json.loads(rest.partition(" CMD ")[2])
        else:
            raise Wrong(f"the Dockerfile says {word}")
        done.setdefault(word, rest)
    root.at("/etc/pathserve").mkdir()
    shutil.copy(TOP / "examples/objects/bounded_buffer.pp", root.at("/etc/pathserve/objects.pp"))
    words = [*done["ENTRYPOINT"], *done["CMD"]]
    check([it for it in done["VOLUME"] if not any(one.startswith(it) for one in words[3:])], [], "folders that are not used")
    for turn in (1, 2):
        with Started(root, words, words[4], user, is_first=True) as server:
            with server.client() as it:
                check([it.put("bread"), it.waiting()], [None, turn], "replies")
            server.is_of("pathserve")
            # (the image has its own perl, of whose modules this root has none)
            asks = [*done["HEALTHCHECK"][:-1], f"/proc/{server.server}/root{done['HEALTHCHECK'][-1]}"]
            if not lacks(asks[0]):
                said(*asks)
            # (the first process of a table of processes heeds only the signals for which it has something to do)
            check(server.end(signal.SIGTERM, server.holder), ("bounded_buffer entries 2\n", 0), "the end by SIGTERM")


def main() -> int:
    words = given_words()
    if any(it.startswith("-") for it in words):
        print(__doc__, file=sys.stderr)
        return 2
    trials = (archive,) if is_missing() else (archive, package, image)
    with tempfile.TemporaryDirectory(prefix="try_release-") as folder:
        return kept.run("try_release", trials, words, release=made(pathlib.Path(folder)))


load_tests = whole(main)
