"""Builds the measured program, runs it, and takes counts and times."""
import os
import re
import shlex
import shutil
import subprocess
import sys

HERE = os.path.dirname(os.path.abspath(__file__))
ROOT = os.path.dirname(HERE)
SCRIPT = os.path.join(HERE, "straightforward.py")
VALGRIND = ["valgrind", "--tool=callgrind", "--callgrind-out-file=/dev/null"]

# A counter takes each step of a repeated string instruction for an instruction of its own, so that a list set to 0 would
# count by its bytes. The C library is told to use ordinary stores.
PLAIN_STORES = "glibc.cpu.x86_rep_stosb_threshold=1000000000:glibc.cpu.x86_rep_movsb_threshold=1000000000"


class Stop(Exception):
    """Why the measuring cannot go on."""


def words_of(name, default=""):
    return shlex.split(os.environ.get(name, default))


def output(command, counted=False):
    env = dict(os.environ, GLIBC_TUNABLES=PLAIN_STORES) if counted else None
    try:
        done = subprocess.run(command, env=env, capture_output=True, text=True, check=False)
    except OSError as error:
        raise Stop(f"{command[0]}: {error.strerror}") from error
    if done.returncode != 0:
        raise Stop(f"{shlex.join(command)} failed:\n{done.stderr}")
    return done.stderr if counted else done.stdout


def instructions(command):
    found = re.search(r"(?:instructions|Collected *): *(\d+)", output(command, counted=True))
    if not found:
        raise Stop(f"{shlex.join(command)} wrote no count")
    return int(found.group(1))


class Measured:
    """The built program and the means to run and count it."""

    def __init__(self, folder):
        self.folder = folder
        self.rustc = words_of("RUSTC", "rustc")
        self.library = os.environ.get("LIBRARY", os.path.join(ROOT, "crates", "figures_c", "out"))
        self.python = words_of("PYTHON", shlex.quote(sys.executable))
        self.run = words_of("RUN")
        valgrind = VALGRIND if shutil.which("valgrind") and not self.run else []
        self.counter = words_of("COUNT") or valgrind
        self.python_counter = words_of("COUNT_PYTHON") or (valgrind and valgrind + self.python)
        self.program = os.path.join(folder, "measured")
        self.starts = {}

        if not self.native and not self.counter:
            raise Stop("nothing to measure with: no COUNT, and times say nothing in an emulator")

    @property
    def native(self):
        return not self.run

    def build(self):
        if not os.path.exists(os.path.join(self.library, "libfigures_c.a")):
            raise Stop("the library is not built: run tools/library, or name its folder in LIBRARY")
        root = os.path.join(HERE, "measured", "main.rs")
        flags = ["--edition", "2021", "-C", "opt-level=3", "-C", "codegen-units=1"]
        link = ["-L", self.library, "-l", "static=figures_c"]
        output([*self.rustc, *flags, *link, root, "-o", self.program])

    def says(self, *words):
        return output([*self.run, self.program, *words])

    def count(self, way, call, day, k=4):
        """Instructions a call: those of 2k calls less those of k, so that the start does not count."""
        if not self.counter:
            return None
        once, twice = (
            instructions([*self.counter, self.program, "times", way, call, day, str(times)]) for times in (k, 2 * k)
        )
        return (twice - once) // k

    def time(self, way, call, day):
        return float(self.says("time", way, call, day)) if self.native else None

    def day_file(self, day):
        file = os.path.join(self.folder, day.replace("/", "-"))
        if not os.path.exists(file):
            with open(file, "w", encoding="ascii") as out:
                out.write(self.says("write", day))
        return file

    def count_python(self, call, day):
        """Instructions of one call: those of a run with it less those of a run without."""
        if not self.python_counter:
            return None
        run = [*self.python_counter, "-B", SCRIPT, call, self.day_file(day)]
        if day not in self.starts:
            self.starts[day] = instructions([*run, "0"])
        return instructions([*run, "1"]) - self.starts[day]

    def time_python(self, call, day):
        if not self.native:
            return None
        return float(output([*self.python, "-B", SCRIPT, call, self.day_file(day), "3"]))

    def versions(self):
        """The kind of processor, the compiler and the Python."""
        rustc = " ".join(output([*self.rustc, "--version"]).split()[:2])
        python = output([*self.python, "--version"]).strip()
        return processor() if self.native else "x86-64, emulated", rustc, python


def processor():
    try:
        with open("/proc/cpuinfo", encoding="utf-8") as file:
            found = re.search(r"model name\s*: (.*)", file.read())
    except OSError:
        found = None
    return f"x86-64, {found.group(1)}" if found else "x86-64"
