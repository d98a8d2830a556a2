"""Tests of tools/desks, in front of a command of these tests."""

import asyncio
import os
import signal
import socket
import subprocess
import sys
import tempfile
import time
import unittest

TOOLS = os.path.dirname(os.path.dirname(os.path.realpath(__file__)))
# Answers each line by its number and its text, and ends where it is told to.
COMMAND = """
import sys
for number, line in enumerate(sys.stdin.buffer, 1):
    if line.endswith(b"end\\n"):
        sys.exit(3)
    sys.stdout.buffer.write(b"%d,%s" % (number, line))
    sys.stdout.buffer.flush()
"""
SECONDS = 60
DESKS = 64


def begin(room, *words, command=COMMAND):
    doors = list(words) or ["--sockets", room]
    return subprocess.Popen([os.path.join(TOOLS, "desks"), *doors, sys.executable, "-c", command], stderr=subprocess.PIPE)


def wait_for(path):
    until = time.monotonic() + SECONDS
    while not os.path.exists(path):
        if time.monotonic() > until:
            raise TimeoutError(path)
        time.sleep(0.01)


def connect(room, desk):
    made = socket.socket(socket.AF_UNIX)
    made.settimeout(SECONDS)
    made.connect(os.path.join(room, str(desk)))
    return made


def read_lines(made, count):
    text = b""
    while text.count(b"\n") < count:
        text += made.recv(1 << 16)
    return text.splitlines(keepends=True)


async def call(room, desk, lines):
    """Sends lines at a desk's socket, all at once: the answers."""
    reader, writer = await asyncio.open_unix_connection(os.path.join(room, str(desk)))
    writer.write(b"".join(lines))
    answers = [await asyncio.wait_for(reader.readline(), SECONDS) for _ in lines]
    writer.close()
    return answers


async def call_all(room, count):
    lines = {desk: [b"%d of %d\n" % (place, desk) for place in range(count)] for desk in range(1, DESKS + 1)}
    return lines, await asyncio.gather(*(call(room, desk, of_desk) for desk, of_desk in lines.items()))


class Desks(unittest.TestCase):
    def setUp(self):
        place = tempfile.TemporaryDirectory()
        self.addCleanup(place.cleanup)
        self.room, self.front = place.name, None

    def begin(self, *words, **how):
        self.front = begin(self.room, *words, **how)
        self.addCleanup(self.front.stderr.close)
        self.addCleanup(self.front.wait)
        self.addCleanup(self.front.kill)
        return self.front

    def open(self):
        self.begin()
        wait_for(os.path.join(self.room, str(DESKS)))

    def test_each_of_64_connections_gets_its_answers_in_order(self):
        self.open()
        lines, answers = asyncio.run(call_all(self.room, 50))
        numbers = []
        for (desk, sent), found in zip(lines.items(), answers):
            cells = [answer.split(b",", 1) for answer in found]
            self.assertEqual([rest for _, rest in cells], [b"%d,%s" % (desk, line) for line in sent])
            self.assertEqual(found, sorted(found, key=lambda answer: int(answer.split(b",")[0])))
            numbers += [int(number) for number, _ in cells]
        self.assertEqual(sorted(numbers), list(range(1, 50 * DESKS + 1)))

    def test_a_line_comes_in_pieces_and_a_long_one_is_cut(self):
        self.open()
        with connect(self.room, 7) as made:
            for piece in (b"ask", b",BIKE", b"\n" + b"x" * 10_000, b"y" * 10_000 + b"\nend of it"):
                made.sendall(piece)
                time.sleep(0.02)
            self.assertEqual(read_lines(made, 2), [b"1,7,ask,BIKE\n", b"2,7," + b"x" * 4_096 + b"\n"])
            made.shutdown(socket.SHUT_WR)
            self.assertEqual(made.recv(1), b"")  # (what stood behind the last line feed was dropped)

    def test_a_connection_that_goes_leaves_the_others_their_answers(self):
        self.open()
        with connect(self.room, 1) as made:
            made.sendall(b"a\n" * 500)
        with connect(self.room, 2) as made:
            made.sendall(b"b\n")
            self.assertEqual(read_lines(made, 1)[0].split(b",", 1)[1], b"2,b\n")

    def test_a_connection_that_reads_nothing_does_not_hold_up_the_others(self):
        self.open()
        with connect(self.room, 1) as deaf, connect(self.room, 2) as made:
            deaf.setblocking(False)
            try:
                for _ in range(1_000):
                    deaf.send(b"a" * 1_000 + b"\n")
            except BlockingIOError:
                pass
            made.sendall(b"b\n")
            self.assertEqual(read_lines(made, 1)[0].split(b",", 1)[1], b"2,b\n")

    def test_it_ends_with_the_command_and_its_status(self):
        self.open()
        with connect(self.room, 1) as made:
            made.sendall(b"a\n")
            self.assertEqual(read_lines(made, 1), [b"1,1,a\n"])
            made.sendall(b"the end\n")
            self.assertEqual(made.recv(1), b"")
        self.assertEqual(self.front.wait(SECONDS), 3)

    def test_a_signal_ends_the_input_of_the_command(self):
        for number in (signal.SIGTERM, signal.SIGINT):
            self.open()
            with connect(self.room, 1) as made:
                made.sendall(b"a\n")
                self.assertEqual(read_lines(made, 1), [b"1,1,a\n"])
                self.front.send_signal(number)
                self.assertEqual(self.front.wait(SECONDS), 0)

    def test_sockets_in_use_are_left_and_old_ones_taken(self):
        self.open()
        second = begin(self.room)
        self.assertEqual((second.communicate(timeout=SECONDS)[1], second.returncode), (b"in use\n", 4))
        with connect(self.room, 1) as made:
            made.sendall(b"a\n")
            self.assertEqual(read_lines(made, 1), [b"1,1,a\n"])
        self.front.kill()
        self.front.wait()
        self.assertTrue(os.path.exists(os.path.join(self.room, "1")))
        os.remove(os.path.join(self.room, str(DESKS)))
        self.open()
        with connect(self.room, 1) as made:
            made.sendall(b"b\n")
            self.assertEqual(read_lines(made, 1), [b"1,1,b\n"])

    def test_loopback(self):
        with socket.socket() as free:
            free.bind(("127.0.0.1", 0))
            port = free.getsockname()[1]
        self.begin("--loopback", str(port - 1), "--desks", "1")
        until = time.monotonic() + SECONDS
        while True:
            try:
                made = socket.create_connection(("127.0.0.1", port), SECONDS)
                break
            except ConnectionRefusedError:
                self.assertLess(time.monotonic(), until)
                time.sleep(0.01)
        with made:
            made.sendall(b"a\n")
            self.assertEqual(read_lines(made, 1), [b"1,1,a\n"])

    def test_wrong_words(self):
        none = f"{self.room}/none"
        for words in ([], ["true"], ["--sockets", self.room], ["--sockets", none, "true"], ["--desks", "65", "--loopback", "9000", "true"]):
            with self.subTest(words=words):
                ended = subprocess.run([os.path.join(TOOLS, "desks"), *words], capture_output=True, check=False)
                self.assertEqual((ended.returncode, ended.stdout), (2, b""))


if __name__ == "__main__":
    unittest.main()
