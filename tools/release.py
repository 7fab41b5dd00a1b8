"""Makes what a user installs without the kit, from the program that tools/prove has proved and the sources as they are.

usage: tools/release [FOLDER]                                  of out/proved, and of a tree that is all committed
       tools/release --unproved [--program FILE] [FOLDER]      of the program that ./pathserve runs, or of FILE: to try
                                                               the release itself. Each file of it says "not proved"

FOLDER (out/release where none is given) gets

  pathserve-VERSION-x86_64.tar.gz   unpack it anywhere: `./pathserve` there is the command, and all commands of the
                                    documents run there. RELEASE says of which commit it is, whether it is proved, by
                                    which kit, and what it needs of the system; SHA256SUMS has each file
  pathserve_VERSION_amd64.deb       the same for Debian, with a unit `pathserve@NAME` of systemd that keeps the objects
                                    of /etc/pathserve/NAME.pp in /var/lib/pathserve/NAME, at /run/pathserve/NAME.sock,
                                    and with tools/status as `pathserve-status`. It is left out where there is no
                                    `dpkg-deb`
  Dockerfile                        for an image, of the first file alone
  SHA256SUMS                        of these files

The VERSION of one that is not proved has `~unproved` behind it. The same commit and program make the same bytes. The
exit status is 0, or 70 where there is no such program, and then one line says why.
"""
import email.utils
import gzip
import hashlib
import io
import os
import pathlib
import re
import shutil
import subprocess
import sys
import tarfile
from collections.abc import Mapping
from typing import Any

from tools import ready, repository
from tools.repository import TOP

PACKAGE = TOP / "tools" / "package"
UNPROVED = "--unproved"
# What is released of the sources: all that is committed below these. (tools/timeline and tools/status read the modules
# that stand here.)
GIVEN = (
    "CHANGELOG.md", "LICENSE", "README.md", "__main__.py", "pathserve", "clients", "docs", "editors", "examples", "tools/__init__.py",
    "tools/diagram.py", "tools/held.py", "tools/inside.py", "tools/page.py", "tools/status", "tools/status.py", "tools/timeline",
    "tools/timeline.py", "tools/traced.py", "tools/package/pathserve@.service", "tools/package/pathserve.tmpfiles",
    "gate/__init__.py", "gate/slow_audit.py", "gate/slow_world.py",
)
# What Debian's package has of these beside the program, where an image keeps it: a slim one leaves out /usr/share/doc.
RUNS = ("__main__.py", "RELEASE", "clients/", "gate/", "libexec/", "pathserve", "tools/")
UNIT, SOCKETS = "pathserve@.service", "pathserve.tmpfiles"
STATUS = "#!/bin/sh\nexec python3 /usr/lib/pathserve /usr/lib/pathserve/tools/status \"$@\"\n"
# What lintian says of the package, and has its reason.
OVERRIDES = "# Not stripped: RELEASE has the digest of the program as it was proved.\npathserve: unstripped-binary-or-object *\n"
MAINTAINER = "the maintainers of pathserve <maintainers@pathserve.invalid>"
MACHINE, DEBIAN = "x86_64", "amd64"


def said(*words: object, **more: Any) -> str:
    """What a command says that has to do."""
    ran = subprocess.run([str(it) for it in words], cwd=TOP, stdin=subprocess.DEVNULL, capture_output=True, text=True, **more)
    if ran.returncode:
        lines = (ran.stderr or ran.stdout).strip().splitlines()
        raise ready.Stop(f"{words[0]} ended with status {ran.returncode}: {lines[-1] if lines else 'it said nothing'}")
    return ran.stdout


class Commit:
    """The commit that is released."""

    def __init__(self, is_proved: bool) -> None:
        self.name, self.time = said("git", "log", "-1", "--format=%H %ct").split()
        is_changed = bool(said("git", "status", "--porcelain").strip())
        if is_changed and is_proved:
            raise ready.Stop("a file is not committed: a release is of a commit")
        self.text = self.name + (", with changes that are not committed" if is_changed else "")
        self.files = said("git", "ls-files", "-z", "--", *GIVEN).split("\0")[:-1]


def the_program(is_proved: bool) -> tuple[pathlib.Path, str | None]:
    """The program that is released, and the digest of its sources where it was built from these."""
    of_sources = ready.digest(TOP, ready.kit())
    if is_proved:
        if not ready.stands(ready.PROVED, of_sources):
            raise ready.Stop("these sources are not proved: tools/prove proves them")
        return ready.OUT / ready.PROVED / ready.PROGRAM, of_sources
    program = ready.program()
    return program, of_sources if ready.stands(ready.UNPROVED, of_sources) and program.parent == ready.OUT / ready.UNPROVED else None


def version_of(program: pathlib.Path) -> str:
    """The version, which the program and CHANGELOG.md have to say alike."""
    found = re.fullmatch(r"pathserve (\d+\.\d+\.\d+)\n", said(program, "--version"))
    first = re.search(r"(?m)^## (\d+\.\d+\.\d+)$", (TOP / "CHANGELOG.md").read_text(encoding="utf-8"))
    if not found or not first or found[1] != first[1]:
        raise ready.Stop(f"the program is {found and found[1]}, and CHANGELOG.md begins with {first and first[1]}")
    return found[1]


def libraries_of(program: pathlib.Path) -> tuple[list[str], str | None]:
    """The shared libraries that a program needs, and the version of glibc that it needs at least."""
    ran = subprocess.run(["ldd", program], capture_output=True, text=True)
    names = re.findall(r"^\s+(\S+) => ", ran.stdout, re.M)
    versions = re.findall(rb"\0GLIBC_(\d+)\.(\d+)(?=[.\0])", program.read_bytes())
    return names, ".".join(map(str, max((int(it[0]), int(it[1])) for it in versions))) if versions else None


def notices(kit: pathlib.Path) -> str:
    """The licences of the crates of the kit that the program is made of, as the kit has them."""
    text, without = "The program is linked with these crates of the Rattle kit.\n", []
    for name in sorted(ready.of_kit(repository.crates(), kit)):
        files = sorted((kit / "rattle" / name).glob("LICENSE*"))
        # (of two that one may choose from, the one under which the program itself is)
        chosen = [it for it in files if it.name == "LICENSE-MIT"] or files
        if not chosen:
            without.append(name)
        text += "".join(f"\n==== {name}\n\n{it.read_text(encoding='utf-8').rstrip()}\n" for it in chosen)
    return text + f"\n==== Parts of the kit itself, in which it has no licence\n\n{' '.join(without) or 'none'}\n"


class Release:
    """The files of a release, by their paths below its folder: each its bytes, and whether it is a program."""

    def __init__(self, is_proved: bool) -> None:
        kit = ready.kit()
        commit, (program, of_sources) = Commit(is_proved), the_program(is_proved)
        self.number = version_of(program)
        self.version = self.number + ("" if is_proved else "~unproved")
        self.name, self.time = f"pathserve-{self.version}-{MACHINE}", int(commit.time)
        libraries, self.glibc = libraries_of(program)
        kind = ready.PROVED if is_proved else ready.UNPROVED
        self.files = {it: (TOP / it).read_bytes() for it in commit.files}
        self.programs = {it for it in commit.files if os.access(TOP / it, os.X_OK)} | {f"libexec/{kind}/{ready.PROGRAM}"}
        self.files[f"libexec/{kind}/{ready.PROGRAM}"] = program.read_bytes()
        self.files["LICENSES"] = notices(kit).encode()
        needs = f"{', '.join(libraries)}; glibc {self.glibc} or later; bash" if libraries else "bash"
        kit_name = (kit / "KIT-ID").read_text(encoding="utf-8").strip()
        lines = {
            "version": self.version,
            "commit": commit.text,
            "proved": f"yes, all that the program stands on, by tools/prove with {kit_name}" if is_proved else "not proved",
            "sources": of_sources or "not known: the program was given",
            "program": ready.sha256(program),
            "machine": f"{MACHINE}, Linux",
            "needs": needs,
        }
        self.files["RELEASE"] = "".join(f"{name}: {it}\n" for name, it in lines.items()).encode()
        self.files["SHA256SUMS"] = sums(self.files)

    def write_archive(self, file: pathlib.Path) -> None:
        """Writes the tar file."""
        with open(file, "wb") as raw, gzip.GzipFile("", "wb", 9, raw, self.time) as packed:
            with tarfile.TarFile(mode="w", fileobj=packed, format=tarfile.USTAR_FORMAT) as tar:
                for path in sorted(self.files):
                    entry = tarfile.TarInfo(f"{self.name}/{path}")
                    entry.mode, entry.mtime = 0o755 if path in self.programs else 0o644, self.time
                    entry.uname = entry.gname = "root"
                    entry.size = len(self.files[path])
                    tar.addfile(entry, io.BytesIO(self.files[path]))

    def place_in(self, path: str) -> str:
        """Where Debian's package has a file of the release."""
        names = {
            f"tools/package/{UNIT}": f"usr/lib/systemd/system/{UNIT}",
            f"tools/package/{SOCKETS}": "usr/lib/tmpfiles.d/pathserve.conf",
            "docs/pathserve.1": "usr/share/man/man1/pathserve.1.gz",
            "LICENSE": "usr/share/doc/pathserve/copyright",
        }
        return names.get(path, f"usr/{'lib' if path.startswith(RUNS) else 'share/doc'}/pathserve/{path}")

    def write_package(self, file: pathlib.Path, room: pathlib.Path) -> None:
        """Writes Debian's package."""
        top = room / "package"
        for path, content in self.files.items():
            if path != "SHA256SUMS":
                put(top / self.place_in(path), gzip.compress(content, 9, mtime=self.time) if path.endswith(".1") else content,
                    path in self.programs)
        put(top / "usr/bin/pathserve-status", STATUS.encode(), True)
        put(top / "usr/share/lintian/overrides/pathserve", OVERRIDES.encode())
        (top / "usr/bin/pathserve").symlink_to("../lib/pathserve/pathserve")
        (top / "etc/pathserve").mkdir(parents=True)
        put(top / "usr/share/doc/pathserve/changelog.gz", gzip.compress(self.changes().encode(), 9, mtime=self.time))
        size = sum(it.stat().st_size for it in top.rglob("*") if it.is_file()) // 1024 + 1
        rows = sorted((str(it.relative_to(top)), it) for it in top.rglob("*") if it.is_file() and not it.is_symlink())
        put(top / "DEBIAN/md5sums", "".join(f"{hashlib.md5(it.read_bytes()).hexdigest()}  {name}\n" for name, it in rows).encode())
        for name in ("postinst", "prerm", "postrm"):
            put(top / "DEBIAN" / name, (PACKAGE / name).read_bytes(), True)
        put(top / "DEBIAN/control", self.control(size).encode())
        for it in [top, *top.rglob("*")]:
            if it.is_dir():
                it.chmod(0o755)
        env = {**os.environ, "SOURCE_DATE_EPOCH": str(self.time)}
        said("dpkg-deb", "--root-owner-group", "-Zgzip", "--build", top, file, env=env)

    def changes(self) -> str:
        """The changes as Debian's tools read them."""
        when = email.utils.formatdate(self.time)
        return f"pathserve ({self.version}) unstable; urgency=medium\n\n  * CHANGELOG.md has what is new.\n\n -- {MAINTAINER}  {when}\n"

    def control(self, size: int) -> str:
        lines = {
            "Package": "pathserve",
            "Version": self.version,
            "Architecture": DEBIAN,
            "Maintainer": MAINTAINER,
            "Installed-Size": size,
            "Depends": ", ".join([*([f"libc6 (>= {self.glibc})"] if self.glibc else []), "passwd"]),
            "Recommends": "python3",
            "Section": "net",
            "Priority": "optional",
            "Description": "keeps objects whose paths say which of their operations may run at once\n"
            " What many programs share is written down as an object, and so is which of\n"
            " its operations may run at the same time. A server keeps that rule for all\n"
            " clients, and what it has answered over a kill -9.\n"
            f" {'Proved' if '~' not in self.version else 'Not proved'}: /usr/lib/pathserve/RELEASE",
        }
        return "".join(f"{name}: {it}\n" for name, it in lines.items())


def sums(files: Mapping[str, bytes]) -> bytes:
    """The lines of `sha256sum` for these files."""
    return "".join(f"{hashlib.sha256(files[it]).hexdigest()}  {it}\n" for it in sorted(files)).encode()


def put(file: pathlib.Path, content: bytes, is_program: bool = False) -> None:
    file.parent.mkdir(parents=True, exist_ok=True)
    file.write_bytes(content)
    file.chmod(0o755 if is_program else 0o644)


def work(is_proved: bool, folder: pathlib.Path) -> None:
    release = Release(is_proved)
    folder.mkdir(parents=True, exist_ok=True)
    with ready.new_folder("release-", ready.ROOMS) as room:
        made = room / "made"
        made.mkdir()
        release.write_archive(made / f"{release.name}.tar.gz")
        if shutil.which("dpkg-deb"):
            release.write_package(made / f"pathserve_{release.version}_{DEBIAN}.deb", room)
        else:
            ready.say("no package for Debian: there is no dpkg-deb")
        shutil.copyfile(PACKAGE / "Dockerfile", made / "Dockerfile")
        (made / "SHA256SUMS").write_bytes(sums({it.name: it.read_bytes() for it in made.iterdir()}))
        # What an earlier release left under these names is replaced, and nothing else is touched.
        for it in sorted(made.iterdir()):
            shutil.copyfile(it, folder / f"{it.name}.new")
            os.replace(folder / f"{it.name}.new", folder / it.name)
            print(folder / it.name)


def main() -> int:
    words, is_proved = ready.given_words(), True
    if words[:1] == [UNPROVED]:
        words, is_proved = words[1:], False
    if len(words) > 1 or any(it.startswith("-") for it in words) or is_proved and ready.FLAG in sys.argv:
        print(__doc__, file=sys.stderr)
        return 2
    folder = pathlib.Path(words[0]).absolute() if words else ready.OUT / "release"
    return ready.ran(lambda: work(is_proved, folder))
