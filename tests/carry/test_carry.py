"""The carried calls where something goes wrong with the host: what the caller's program says, and how it ends. ASKS names the
program of asks.c, HOST the command that starts the host."""

import contextlib
import functools
import os
import pathlib
import shutil
import signal
import subprocess
import sys
import tempfile
import time
import unittest
import uuid

ASKS = os.environ["ASKS"]
HOST = os.environ["HOST"]
PYTHON = pathlib.Path(__file__).resolve().parent.parent.parent / "bindings" / "python" / "example.py"
SECONDS = 60


class Caller:
    """A program that asks, and the hosts that it started: they have its mark among their settings."""

    def __init__(self, *words, host=HOST, **more):
        self.mark = f"ASKED_FOR={uuid.uuid4()}"
        name, value = self.mark.split("=")
        settings = {**os.environ, name: value, "FIGURES_HOST": host}
        pipe = subprocess.PIPE
        more.update(stdin=pipe, stdout=pipe, stderr=pipe, start_new_session=True)
        self.process = subprocess.Popen(words, env=settings, text=True, **more)

    def hosts(self):
        return [pid for pid in map(int, filter(str.isdigit, os.listdir("/proc"))) if self.started(pid)]

    def started(self, pid):
        try:
            settings = pathlib.Path(f"/proc/{pid}/environ").read_bytes()
        except OSError:
            return False
        return pid != self.process.pid and self.mark.encode() in settings.split(b"\0")

    def no_host_is_left(self):
        until = time.monotonic() + SECONDS
        while self.hosts() and time.monotonic() < until:
            time.sleep(0.01)
        return not self.hosts()

    def end(self):
        """Its status, and what it said on standard error."""
        try:
            _, said = self.process.communicate("\n", timeout=SECONDS)
        except subprocess.TimeoutExpired:
            self.kill()
            return None, f"it did not end within {SECONDS} seconds"
        return self.process.returncode, said

    def kill(self):
        """Whatever is left of it and of its hosts."""
        if self.process.returncode is None:
            os.killpg(self.process.pid, signal.SIGKILL)
        for pid in self.hosts():
            with contextlib.suppress(ProcessLookupError):
                os.kill(pid, signal.SIGKILL)
        self.process.communicate()


class Hosts(unittest.TestCase):
    def stand_in(self, text):
        folder = tempfile.mkdtemp()
        self.addCleanup(shutil.rmtree, folder)
        script = pathlib.Path(folder, "host")
        script.write_text(f"#!/usr/bin/env bash\n{text}\n", encoding="utf-8")
        script.chmod(0o755)
        return str(script)

    def caller(self, *words, **more):
        caller = Caller(*words, **more)
        self.addCleanup(caller.kill)
        return caller

    def ends_with(self, caller, text):
        self.assertEqual(caller.end(), (-signal.SIGABRT, f"figures: the host {text}\n"))
        self.assertTrue(caller.no_host_is_left())

    def test_one_host_answers_and_ends_with_its_caller(self):
        caller = self.caller(ASKS, "twice")
        self.assertEqual(caller.process.stdout.readline(), "asked\n")
        (host,) = caller.hosts()
        self.assertNotEqual(os.getsid(host), os.getsid(caller.process.pid))
        self.assertEqual(caller.end(), (0, ""))
        self.assertTrue(caller.no_host_is_left())

    def test_a_host_has_none_of_its_caller_s_files(self):
        with tempfile.NamedTemporaryFile() as file:
            caller = self.caller(ASKS, "twice", pass_fds=[file.fileno()])
            self.assertEqual(caller.process.stdout.readline(), "asked\n")
            (host,) = caller.hosts()
            files = pathlib.Path(f"/proc/{host}/fd").iterdir()
            self.assertNotIn(file.name, [os.readlink(link) for link in files])
            self.assertEqual(caller.end(), (0, ""))

    def test_a_caller_without_standard_files(self):
        caller = self.caller(ASKS, "twice", preexec_fn=functools.partial(os.closerange, 0, 3))
        self.assertEqual(caller.end(), (0, ""))

    def test_a_caller_that_is_interrupted(self):
        self.assertEqual(self.caller(ASKS, "interrupted").end(), (0, ""))

    def test_threads_and_children_ask_at_once(self):
        caller = self.caller(ASKS, "family")
        self.assertEqual(caller.end(), (0, ""))
        self.assertTrue(caller.no_host_is_left())

    def test_a_caller_that_ignores_its_children(self):
        ignore = functools.partial(signal.signal, signal.SIGCHLD, signal.SIG_IGN)
        self.assertEqual(self.caller(ASKS, "twice", preexec_fn=ignore).end(), (0, ""))

    def test_a_host_that_has_died(self):
        caller = self.caller(ASKS, "twice")
        self.assertEqual(caller.process.stdout.readline(), "asked\n")
        for pid in caller.hosts():
            os.kill(pid, signal.SIGKILL)
        self.assertTrue(caller.no_host_is_left())
        self.ends_with(caller, f"ended: {HOST}")

    def test_a_host_that_dies_in_an_ask(self):
        host = self.stand_in("head -c 56 <&0 >/dev/null &")
        self.ends_with(self.caller(ASKS, "twice", host=host), f"ended: {host}")

    def test_a_broken_pipe(self):
        host = self.stand_in("exit 0")
        self.ends_with(self.caller(ASKS, "twice", host=host), f"ended: {host}")

    def test_a_host_that_fails_at_once(self):
        host = self.stand_in("exit 3")
        self.ends_with(self.caller(ASKS, "twice", host=host), f"could not be started: {host}")

    def test_no_host(self):
        self.ends_with(self.caller(ASKS, "twice", host="/missing"), "could not be started: /missing")

    def test_the_python_wrapper_is_carried_too(self):
        caller = self.caller(sys.executable, "-B", str(PYTHON), host="/missing")
        self.ends_with(caller, "could not be started: /missing")


if __name__ == "__main__":
    unittest.main()
