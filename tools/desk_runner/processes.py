"""A command that reads lines and answers them, run and fed."""

import os
import resource
import select
import signal
import subprocess
import time

PIECE = 1 << 16
# What does not answer or end in this time is stuck.
SECONDS = 60


class Stuck(Exception):
    """A command does not answer, or does not end, in time."""


def limit_files(size):
    """What a process does before its program: no file gets larger than this, and a write past it is an error."""
    signal.signal(signal.SIGXFSZ, signal.SIG_IGN)
    resource.setrlimit(resource.RLIMIT_FSIZE, (size, size))


def prepare(limit, shut):
    """What a desk does before its program, where its files or streams are not as they mostly are."""
    if limit is not None:
        limit_files(limit)
    for stream in shut:
        os.close(stream)


class Desk:
    """A running command: `out` is what it has answered so far, in so many whole `lines`. With a `limit` no file of its gets larger than
    that, where it is `deaf` nobody reads what it answers, and streams that are `shut` it does not have, by their numbers."""

    def __init__(self, words, limit=None, deaf=False, env=None, seconds=SECONDS, shut=()):
        self.until, self.out, self.lines, self.deaf = time.monotonic() + seconds, bytearray(), 0, deaf
        reads, writes = os.pipe()
        how = {"preexec_fn": (lambda: prepare(limit, shut))} if limit is not None or shut else {}
        streams = {"stdin": subprocess.PIPE, "stdout": writes, "stderr": subprocess.PIPE}
        self.process = subprocess.Popen(words, bufsize=0, env=env, **streams, **how)
        os.close(writes)
        self.answers = reads
        if deaf:
            os.close(reads)

    def left(self):
        left = self.until - time.monotonic()
        if left <= 0:
            raise Stuck
        return left

    def read(self):
        """Takes what it has answered meanwhile: whether there can be more."""
        text = os.read(self.answers, PIECE)
        self.out += text
        self.lines += text.count(b"\n")
        return bool(text)

    def send(self, text):
        """Sends a text, and takes what is answered meanwhile: whether all could be sent."""
        text, to = memoryview(text), self.process.stdin.fileno()
        os.set_blocking(to, False)
        while text:
            ready, free, _ = select.select([] if self.deaf else [self.answers], [to], [], self.left())
            if ready and not self.read():
                return False
            try:
                text = text[os.write(to, text) :] if free else text
            except BlockingIOError:
                pass
            except BrokenPipeError:
                return False
        return True

    def take(self, lines):
        """Waits until so many lines are answered, or until it answers no more: whether there are so many."""
        while self.lines < lines:
            if not select.select([self.answers], [], [], self.left())[0]:
                raise Stuck
            if not self.read():
                return False
        return True

    def signal(self, number):
        self.process.send_signal(number)

    def end(self):
        """Ends its input, and waits for its end: the status, what it answered, and what it said."""
        self.process.stdin.close()
        try:
            while not self.deaf and (select.select([self.answers], [], [], self.left())[0] and self.read()):
                pass
            status = self.process.wait(max(0.1, self.left()))
        except subprocess.TimeoutExpired:
            raise Stuck from None
        return status, bytes(self.out), self.close()

    def close(self):
        """Closes the streams, once it has ended: what it said."""
        said = self.process.stderr.read()
        self.process.stderr.close()
        if not self.deaf:
            os.close(self.answers)
        return said

    def kill(self):
        """Ends it where it is stuck: what it said."""
        self.process.kill()
        self.process.stdin.close()
        self.process.wait()
        return self.close()
