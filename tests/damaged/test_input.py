"""The figures program on inputs that a shell cannot make: any byte between frames, reads that are shown to be small, a socket
that is reset."""

import fcntl
import os
import pathlib
import select
import socket
import struct
import subprocess
import termios
import time
import unittest

ROOT = pathlib.Path(__file__).resolve().parent.parent.parent
PROGRAM = [str(ROOT / "tools" / "start"), str(ROOT / "crates" / "figures_program" / "out" / "figures_program")]
SECONDS = 60

HEADER = b"value from to visits\n"
STOPS = b"010005"
ROW = b"0200000001000000640000001400"
PIVOT = b"03000200000096"
ASK = b"0400000000640000012c"
# day D with pivot (2,150), and asks with what each prints
DAY_D = (ROOT / "examples" / "day-d.frames").read_bytes().split(b"\n04")[0] + b"\n"
ASKS = (ASK, b"105 0 4 1\n"), (b"0409000000640000012C", b"105 2 4 1\n"), (b"04000000012c00000064", b"refused 5 0\n")


def printed(given):
    done = subprocess.run(PROGRAM, input=given, stdout=subprocess.PIPE, timeout=SECONDS, check=True)
    return done.stdout


def waiting(file):
    """How many bytes are written to it and not yet read."""
    return struct.unpack("i", fcntl.ioctl(file, termios.FIONREAD, b"\0" * 4))[0]


def wait_until_read(file, process):
    until = time.monotonic() + SECONDS
    while waiting(file) > 0 and process.poll() is None:
        if time.monotonic() > until:
            raise TimeoutError(f"the program did not read within {SECONDS} seconds")
        time.sleep(0)


class Bytes(unittest.TestCase):
    """Between two frames that are each right there may be one newline, and nothing else."""

    def test_any_byte_between_frames(self):
        for number in set(range(256)) - {ord("\n")}:
            given = STOPS + bytes([number]) + ASK + b"\n"
            self.assertEqual(printed(given), HEADER + b"frame 1\n", given)

    def test_blanks_and_zero_bytes_beside_a_newline(self):
        for byte in (b"\0", b"\t", b"\v", b"\f", b"\r", b" ", b"\x7f", b"\x80", b"\xa0", b"\xff"):
            for given in (
                STOPS + b"\n" + byte + ASK + b"\n",
                STOPS + b"\n" + ASK + byte + b"\n" + ASK,
                STOPS + b"\n" + byte + b"\n" + ASK,
                STOPS + b"\n" + byte,
            ):
                self.assertEqual(printed(given), HEADER + b"frame 2\n", given)


class Program:
    """The program with an input that is written piece by piece."""

    def __init__(self):
        end, self.input = os.pipe()
        self.process = subprocess.Popen(PROGRAM, stdin=end, stdout=subprocess.PIPE)
        os.close(end)
        self.reads = 0

    def read(self, piece):
        """The piece is read alone: it is written to an empty pipe, which is empty again before the next."""
        os.write(self.input, piece)
        wait_until_read(self.input, self.process)
        self.reads += 1

    def line(self):
        line = b""
        while not line.endswith(b"\n"):
            if not select.select([self.process.stdout], [], [], SECONDS)[0]:
                raise TimeoutError(f"the program printed nothing within {SECONDS} seconds")
            line += os.read(self.process.stdout.fileno(), 1)
        return line

    def end(self):
        os.close(self.input)
        rest, _ = self.process.communicate(timeout=SECONDS)
        return rest, self.process.returncode


class Reads(unittest.TestCase):
    def test_each_byte_is_read_alone(self):
        given = DAY_D + b"\n".join(ask for ask, _ in ASKS * 60)
        program = Program()
        for number in given:
            program.read(bytes([number]))
        self.assertGreater(program.reads, 1200)
        self.assertEqual(program.end(), (HEADER + b"".join(line for _, line in ASKS * 60), 0))

    def test_each_ask_is_answered_before_the_next(self):
        program = Program()
        program.read(DAY_D)
        self.assertEqual(program.line(), HEADER)
        for ask, line in ASKS * 500:
            program.read(ask + b"\n")
            self.assertEqual(program.line(), line)
        self.assertEqual(program.end(), (b"", 0))


class Resets(unittest.TestCase):
    """Where a read fails the run ends, and the line that it cut off is not taken."""

    def after_reset(self, command, given):
        """What a command prints, and its status, where its input is reset after it has read what is given."""
        with socket.create_server(("127.0.0.1", 0)) as server:
            peer = socket.create_connection(server.getsockname(), SECONDS)
            end, _ = server.accept()
        with end:
            peer.sendall(given)
            while waiting(end) < len(given):
                time.sleep(0)
            process = subprocess.Popen(command, stdin=end, stdout=subprocess.PIPE, stderr=subprocess.DEVNULL)
            wait_until_read(end, process)
            peer.setsockopt(socket.SOL_SOCKET, socket.SO_LINGER, struct.pack("ii", 1, 0))
            peer.close()
            text, _ = process.communicate(timeout=SECONDS)
        return text, process.returncode

    def test_a_reset_is_an_input_that_cannot_be_read(self):
        self.assertEqual(self.after_reset(["cat"], STOPS), (STOPS, 1))

    def test_half_a_line(self):
        begun = STOPS + b"\n" + ASK + b"\n"
        for half in b"", b"0", b"04", b"zz", ASK, PIVOT, ROW:
            self.assertEqual(self.after_reset(PROGRAM, begun + half), (HEADER + b"none 0\n", 0), half)

    def test_half_the_first_line(self):
        for half in b"0", b"0100", STOPS, ASK:
            self.assertEqual(self.after_reset(PROGRAM, half), (HEADER, 0), half)


if __name__ == "__main__":
    unittest.main()
