"""The build of one crate by the toolchain. The toolchain lets one command at a time work in a crate's folder and in those that it stands on,
and all stand on the same few: so each build has a folder of its own, with copies of the sources and links to the built libraries below."""
import os
import shutil
import subprocess
import time

import repository


def copy(one, other, *flags):
    subprocess.run(["cp", "-a", *flags, "--", one, other], check=True)


def take_sources(names, to):
    """Copies the crates' sources as they are now, for all builds to read the same."""
    os.makedirs(to)
    leaves_out = shutil.ignore_patterns("out", "must-fail")
    for it in names:
        shutil.copytree(repository.crates()[it].folder, to / it, ignore=leaves_out)


def move_all(one, other, besides=None):
    """Moves what stands in a folder into another, over what stands there."""
    os.makedirs(other, exist_ok=True)
    for it in list(one.iterdir()) if one.is_dir() else []:
        if it != besides:
            to = other / it.name
            if to.is_dir() and not to.is_symlink():
                shutil.rmtree(to)
            os.replace(it, to)


class Job:
    """A crate's build: its folder of its own, its log, and the command that runs."""

    def __init__(self, name, jobs, room):
        self.name, self.jobs, self.room = name, jobs, room
        self.crate, self.tree, self.log = repository.crates()[name], room / "trees" / name, room / f"{name}.log"
        self.out = self.tree / "crates" / name / "out"
        self.began = time.monotonic()
        self.ran = self.processor_seconds = self.status = None

    def start(self):
        names = [*repository.below(self.name), self.name]
        os.makedirs(self.tree / "crates")
        (self.tree / "crates.txt").write_text("".join(f"{repository.crates()[it].line}\n" for it in names))
        for it in names:
            copy(self.room / "sources" / it, self.tree / "crates", "-l")
        for it in repository.below(self.name):
            os.makedirs(self.tree / "crates" / it / "out")
            copy(repository.crates()[it].folder / "out/rlib", self.tree / "crates" / it / "out", "-l")
        # What earlier checks kept of the crate shortens this one.
        move_all(self.crate.folder / "out", self.out, self.room)
        words = ["rt", "lib", "--jobs", str(self.jobs)]
        if self.crate.is_program:
            # It runs the program too: this order answers with status 0.
            words = ["rt", "run", "--jobs", str(self.jobs), "--", "check"]
        with open(self.log, "wb") as log:
            how = {"cwd": self.out.parent, "stdin": subprocess.DEVNULL, "stdout": log, "stderr": log, "start_new_session": True}
            self.ran = subprocess.Popen(words, **how)

    def has_ended(self):
        pid, status, used = os.wait4(self.ran.pid, os.WNOHANG)
        if pid:
            self.status = self.ran.returncode = os.WEXITSTATUS(status) if os.WIFEXITED(status) else -os.WTERMSIG(status)
            self.processor_seconds = used.ru_utime + used.ru_stime
        return bool(pid)

    def seconds(self):
        return time.monotonic() - self.began

    def put_back(self):
        """Gives the crate's folder what the build made, and what is kept for the next one."""
        put_back(self.tree, self.name)

    def cut_off(self):
        """Ends the command: the toolchain ends what it started."""
        if self.ran:
            self.ran.terminate()
            self.ran.wait()


def put_back(tree, name):
    move_all(tree / "crates" / name / "out", repository.crates()[name].folder / "out")
    shutil.rmtree(tree, ignore_errors=True)
