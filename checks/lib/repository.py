"""The repository as its checks see it: its folder, its program, and its crates as crates.txt lists them."""
import dataclasses
import functools
import hashlib
import os
import pathlib
import re
import sys

TOP = pathlib.Path(__file__).resolve().parents[2]
PROGRAM = TOP / "crates/dymelor/out/dymelor"
# What a build's target is called, and the crate that makes it.
TARGETS = {"program": "dymelor", "library": "dym_c", "simulator": "timewarp"}
ROW = re.compile(r"(?P<name>\w+)(?P<options>(?: +[\w=+]+)*) *:(?P<names>.*)")
TEST = re.compile(rb"#\s*\[[^]]*\btest\b")


def program(words):
    """The program that a check is to run: the first of its words, or the one that was built."""
    found = pathlib.Path(words[0]).resolve() if words else PROGRAM
    if not os.access(found, os.X_OK):
        print(f"there is no program {found}: ./dymelor --build builds it", file=sys.stderr)
        sys.exit(70)
    return found


@dataclasses.dataclass(frozen=True)
class Crate:
    """A crate: its line of crates.txt, and the names of those of the repository that it stands on at first hand."""

    line: str
    name: str
    is_archive: bool
    stands_on: tuple

    @property
    def folder(self):
        return TOP / "crates" / self.name

    @functools.cached_property
    def is_program(self):
        return (self.folder / "src/main.rt").is_file()

    @functools.cached_property
    def made(self):
        """What a build makes of the crate."""
        if self.is_program:
            return self.folder / "out" / self.name
        return self.folder / ("out/lib%s.a" % self.name if self.is_archive else "out/rlib/stamp")

    def sources(self):
        """The files and folders that a build reads of the crate itself."""
        for part in (self.folder / it for it in ("src", "specs", "proofs")):
            if part.is_dir():
                yield part
                yield from part.rglob("*")

    def lines(self):
        return sum(it.read_bytes().count(b"\n") for it in self.sources() if it.is_file())

    def has_tests(self):
        return any(TEST.search(it.read_bytes()) for it in (self.folder / "src").rglob("*.rt"))


@functools.lru_cache(maxsize=None)
def crates():
    """The crates by their names, in the order of crates.txt."""
    lines = [it.partition("#")[0].strip() for it in (TOP / "crates.txt").read_text().splitlines()]
    rows = [ROW.fullmatch(it) for it in lines if it]
    names = {it["name"] for it in rows}
    stands_on = {it["name"]: tuple(name for name in it["names"].split() if name in names) for it in rows}
    return {it["name"]: Crate(it[0], it["name"], "staticlib" in it["options"], stands_on[it["name"]]) for it in rows}


@functools.lru_cache(maxsize=None)
def below(name):
    """The names of the crates that a crate stands on, each behind those that it stands on itself."""
    found = {}
    for it in crates()[name].stands_on:
        found.update(dict.fromkeys([*below(it), it]))
    return tuple(found)


@functools.lru_cache(maxsize=None)
def newest_source(name):
    """When the crate or one that it stands on was last changed, in nanoseconds."""
    own = max((it.stat().st_mtime_ns for it in crates()[name].sources()), default=0)
    return max([own, *(newest_source(it) for it in crates()[name].stands_on)])


@functools.lru_cache(maxsize=None)
def contents(name):
    """A digest of what the crate is made of: its sources, its line of crates.txt, and those that it stands on."""
    crate = crates()[name]
    found = hashlib.sha256(crate.line.encode())
    for it in sorted(it for it in crate.sources() if it.is_file()):
        found.update(f"\n{it.relative_to(crate.folder)} {it.stat().st_size}\n".encode() + it.read_bytes())
    for it in crate.stands_on:
        found.update(contents(it).encode())
    return found.hexdigest()


def record(name):
    """What says of which contents the crate was built, beside what was made: the two digests. A copy of the repository keeps it."""
    made = crates()[name].made
    return f"{contents(name)} {hashlib.sha256(made.read_bytes()).hexdigest()}\n" if made.is_file() else None


def note_built(names):
    for it in names:
        (crates()[it].folder / "out/contents").write_text(record(it))


def is_built(name):
    """Whether what a build makes of the crate is there, and newer than all that it was made of, or made of the same contents."""
    made = crates()[name].made
    made_at = made.stat().st_mtime_ns if made.is_file() else 0
    if made_at > max(newest_source(name), (TOP / "crates.txt").stat().st_mtime_ns):
        return True
    noted = crates()[name].folder / "out/contents"
    return noted.is_file() and noted.read_text() == record(name)
