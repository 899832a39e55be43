"""dist PROGRAM : packs PROGRAM, with its man page and examples, as a .tar.gz and a .deb in the folder dist/, and the Python
package as a wheel, a wheel with PROGRAM inside, an sdist and a .deb.

It packs twice, as different users would, and compares the bytes. All files get the date of HEAD's commit. It also
writes KIT (the kit, the commit, the program) and SHA256SUMS. It installs nothing.
Status: 0 packed, 1 the two results differ, 2 it can't be packed.
"""
import hashlib
import multiprocessing
import os
import pathlib
import re
import shutil
import signal
import subprocess
import sys
import tempfile
import time
from typing import Any

from ..repository import TOP as HERE
from ..runnable import runs
from . import debian_changelog, dist_python

TOP = pathlib.Path(HERE)
RT = os.environ.get("RT", "rt")
MAKE = os.environ.get("MAKE", "make")
PROVED = TOP / "crates/scanvolt/out/scanvolt"
NEEDED = (RT, "git", "dpkg-deb", "readelf", "strip", "tar", "gzip", "/usr/bin/python3")
# The packages of Debian that have the libraries which a program may load; that of glibc is added with its version.
LIBRARIES = {
    "libc.so.6": "",
    "libm.so.6": "",
    "ld-linux-x86-64.so.2": "",
    "libgcc_s.so.1": "libgcc-s1, ",
}
# The wheel with the program says that it runs with the glibc of Debian 12.
NEWEST = (2, 36)
# The time zones and masks of the users who pack.
USERS = (("first", "UTC", 0o022), ("second", "Asia/Tokyo", 0o077))


class Failed(Exception):
    """Why it can't be packed."""


def run(*words: str | pathlib.Path, **options: Any) -> str:
    """Runs a command, whose status has to be 0. Returns what it prints."""
    done = subprocess.run(words, stdout=subprocess.PIPE, text=True, **options)
    if done.returncode:
        raise Failed(f"{' '.join(map(str, words))} ended with status {done.returncode}")
    printed: str = done.stdout
    return printed


def folder(path: pathlib.Path) -> pathlib.Path:
    """Makes a folder that all may read, and those above it."""
    run("install", "-d", "-m", "755", path)
    return path


def put(text: str, path: pathlib.Path, mode: int = 0o644) -> None:
    """Writes a file with this mode, whatever the user's mask is."""
    path.write_text(text, encoding="utf-8")
    path.chmod(mode)


def copied(names: list[str], target: pathlib.Path, mode: str = "644") -> None:
    """Copies files of the repository into a folder."""
    run("install", "-m", mode, *[TOP / name for name in names], target)


def depends(program: str) -> str:
    """What the program loads, as a list of Debian's packages."""
    needed = sorted(re.findall(r"\(NEEDED\).*\[(.*)\]", run("readelf", "-d", program)))
    unknown = [name for name in needed if name not in LIBRARIES]
    if unknown:
        raise Failed(f"it isn't known which package has {unknown[0]}")
    glibc = [
        version(text) for text in re.findall(r"GLIBC_([0-9.]+)", run("readelf", "-V", program))
    ]
    least = max(glibc, default=(2,))
    if least > NEWEST:
        raise Failed(f"{program} needs a newer glibc than {'.'.join(map(str, NEWEST))}")
    return f"{''.join(LIBRARIES[name] for name in needed)}libc6 (>= {'.'.join(map(str, least))})"


def version(text: str) -> tuple[int, ...]:
    """The numbers of a version."""
    return tuple(int(number) for number in text.split("."))


class Packing:
    """What is packed, and the files in the folder `work` that all packages have: KIT and a changelog."""

    def __init__(self, program: str, work: pathlib.Path) -> None:
        self.program, self.work = program, work
        self.version = (TOP / "VERSION").read_text().strip()
        self.date = run("git", "-C", TOP, "log", "-1", "--format=%ct").strip()
        self.depends = depends(program)
        changelog = debian_changelog.text(int(self.date))
        if changelog is None:
            raise Failed(f"CHANGELOG.md doesn't begin with {self.version}")
        put(changelog, work / "changelog")
        put(self.kit(), work / "KIT")

    def kit(self) -> str:
        """The kit, the commit, and whether the program is known to be proved."""
        changed = subprocess.run(["git", "-C", TOP, "diff", "--quiet", "HEAD"]).returncode
        commit = run("git", "-C", TOP, "rev-parse", "HEAD").strip() + (
            ", with changes" if changed else ""
        )
        told = "named by SERVER: whether it is proved is not known here"
        if self.program == str(PROVED):
            told = "crates/scanvolt/out/scanvolt, which rt leaves there proved"
        return f"{run(RT, 'version')}commit {commit}\nprogram {told}\nIts symbols are left out.\n"

    def stage(self, target: pathlib.Path, prefix: str) -> None:
        """Installs into the folder, with the prefix."""
        run(
            MAKE,
            "--silent",
            "--no-print-directory",
            "-C",
            TOP,
            "install",
            "SERVER=" + self.program,
            "PREFIX=" + prefix,
            f"DESTDIR={target}",
        )
        run(
            "install",
            "-m",
            "644",
            self.work / "KIT",
            f"{target}{prefix}/share/doc/scanvolt/KIT",
        )
        run("strip", f"{target}{prefix}/bin/scanvolt")

    def archive(self, out: pathlib.Path) -> None:
        """Writes the archive into the folder, using tar/ in it."""
        name = f"scanvolt-{self.version}-x86_64"
        self.stage(out / "tar", "/" + name)
        run(
            "tar",
            "-C",
            out / "tar",
            "--sort=name",
            "--format=ustar",
            "--mtime=@" + self.date,
            "--owner=0",
            "--group=0",
            "--numeric-owner",
            "-cf",
            out / (name + ".tar"),
            name,
        )
        run("gzip", "-9n", out / (name + ".tar"))
        shutil.rmtree(out / "tar")

    def package(self, out: pathlib.Path) -> None:
        """Writes Debian's package of the program into the folder, using deb/ in it."""
        root = out / "deb"
        doc = root / "usr/share/doc/scanvolt"
        self.stage(root, "/usr")
        run("gzip", "-9n", root / "usr/share/man/man1/scanvolt.1")
        (doc / "LICENSE").rename(doc / "copyright")
        run("install", "-m", "644", self.work / "changelog", doc)
        run("gzip", "-9n", doc / "changelog")
        copied(["packaging/scanvolt.service"], folder(root / "usr/lib/systemd/system"))
        copied(["examples/bench.scenario"], folder(root / "etc/scanvolt"))
        self.control(root, "packaging/control")
        put("/etc/scanvolt/bench.scenario\n", root / "DEBIAN/conffiles")
        copied(
            ["packaging/postinst", "packaging/prerm", "packaging/postrm"], root / "DEBIAN", "755"
        )
        self.debian(root, out / f"scanvolt_{self.version}_amd64.deb")

    def python_package(self, out: pathlib.Path) -> None:
        """Writes the wheels, the sdist and Debian's package of the Python package into the folder, using tree/ and inside/ in it."""
        self.stage(out / "inside", "/program")
        if not dist_python.pack(out, self.version, out / "inside/program"):
            raise Failed(
                f"python/pyproject.toml has another version than VERSION, which is {self.version}"
            )
        shutil.rmtree(out / "inside")
        root = out / "tree"
        doc = folder(root / "usr/share/doc/python3-scanvolt")
        run("gzip", "-9n", *sorted((root / "usr/share/man/man1").glob("*.1")))
        run("install", "-m", "644", TOP / "LICENSE", doc / "copyright")
        run(
            "install",
            "-m",
            "644",
            self.work / "changelog",
            TOP / "python/README.md",
            TOP / "python/API.md",
            doc,
        )
        run("gzip", "-9n", doc / "changelog", doc / "README.md", doc / "API.md")
        self.control(root, "packaging/python-control")
        run("install", "-m", "755", TOP / "packaging/python-postinst", root / "DEBIAN/postinst")
        run("install", "-m", "755", TOP / "packaging/python-prerm", root / "DEBIAN/prerm")
        self.debian(root, out / f"python3-scanvolt_{self.version}_all.deb")

    def control(self, root: pathlib.Path, name: str) -> None:
        """Writes what a package of Debian says of itself: the form, and the sums of its files."""
        files = sorted(str(path.relative_to(root)) for path in root.rglob("*") if path.is_file())
        size = sum(-(-(root / path).stat().st_size // 1024) for path in files)
        sums = "".join(
            f"{hashlib.md5((root / path).read_bytes()).hexdigest()}  {path}\n"
            for path in files
            if path.startswith("usr/")
        )
        form = (TOP / name).read_text(encoding="utf-8")
        for mark, value in (
            ("@VERSION@", self.version),
            ("@SIZE@", str(size)),
            ("@DEPENDS@", self.depends),
        ):
            form = form.replace(mark, value)
        folder(root / "DEBIAN")
        put(form, root / "DEBIAN/control")
        put(sums, root / "DEBIAN/md5sums")

    def debian(self, root: pathlib.Path, deb: pathlib.Path) -> None:
        """Packs a root as a package of Debian. All files get the date of the commit."""
        for path in (root, *root.rglob("*")):
            os.utime(path, (int(self.date), int(self.date)), follow_symlinks=False)
        # With several threads xz would cut large files into blocks.
        run(
            "dpkg-deb",
            "--root-owner-group",
            "-Zxz",
            "--build",
            root,
            deb,
            env=dict(os.environ, DPKG_DEB_THREADS_MAX="1"),
        )
        shutil.rmtree(root)

    def pack(self, name: str, zone: str, mask: int) -> None:
        """Packs into this folder, with the time zone and the mask. Ends the process, whose status is 0 if all is packed."""
        os.environ.update(TZ=zone, LC_ALL="C", SOURCE_DATE_EPOCH=self.date)
        time.tzset()
        os.umask(mask)
        out = self.work / name
        out.mkdir()
        try:
            for part in (self.archive, self.package, self.python_package):
                os.umask(mask)
                part(out)
        except Failed as fault:
            print(f"dist: {fault}", file=sys.stderr)
            sys.exit(2)
        put((self.work / "KIT").read_text(), out / "KIT")
        sums = [
            f"{hashlib.sha256(path.read_bytes()).hexdigest()}  {path.name}\n"
            for path in sorted(out.iterdir())
        ]
        put("".join(sums), out / "SHA256SUMS")


def packed(program: str, work: pathlib.Path) -> int:
    """Packs twice, compares, and fills dist/. Returns the status."""
    packing = Packing(program, work)
    for user in USERS:
        process = multiprocessing.get_context("fork").Process(target=packing.pack, args=user)
        process.start()
        process.join()
        if process.exitcode:
            return 2
    if subprocess.run(
        ["diff", "-r", work / "first", work / "second"], stdout=sys.stderr
    ).returncode:
        print("dist: two packings differ", file=sys.stderr)
        return 1
    target = TOP / "dist"
    target.mkdir(exist_ok=True)
    for pattern in ("scanvolt*", "python3-scanvolt*", "KIT", "SHA256SUMS"):
        for old in target.glob(pattern):
            old.unlink()
    for path in (work / "first").iterdir():
        shutil.copy(path, target)
    print((target / "SHA256SUMS").read_text(), end="")
    return 0


def main(words: list[str]) -> int:
    for number in (signal.SIGTERM, signal.SIGHUP, signal.SIGINT):
        signal.signal(number, lambda *_: sys.exit(2))
    if len(words) != 1:
        print("dist: usage: dist PROGRAM", file=sys.stderr)
        return 2
    if not runs(words[0]):
        return 2
    try:
        for command in NEEDED:
            if shutil.which(command) is None:
                raise Failed(f"{command} is missing")
        program = os.path.abspath(words[0])
        if "X86-64" not in run("readelf", "-h", program):
            raise Failed(f"{words[0]} is no program for x86-64")
        with tempfile.TemporaryDirectory(prefix="dist.") as work:
            return packed(program, pathlib.Path(work))
    except Failed as fault:
        print(f"dist: {fault}", file=sys.stderr)
        return 2
