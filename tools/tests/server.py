"""A PostgreSQL server for tests: in a temporary folder, with a Unix socket of its own there and no other door."""

import atexit
import functools
import glob
import os
import pwd
import shutil
import signal
import subprocess
import tempfile
import time
import unittest

from outside import is_installed, library

# Who the server runs as where the tests run as root, which it refuses.
USERS = ("postgres", "nobody")
SECONDS = 60
# The number at the end of the socket's name.
PORT = "5432"


def command(name):
    """A command of PostgreSQL; Debian has them outside the path."""
    found = sorted(glob.glob(f"/usr/lib/postgresql/*/bin/{name}"))
    return shutil.which(name) or (found[-1] if found else None)


def why_none():
    """Why no server can be started, if none can."""
    if not (command("initdb") and command("postgres")):
        return "there is no initdb and postgres"
    return None if is_installed("psycopg2") else "psycopg2 is not installed"


class Server:
    """A server that runs until it is stopped."""

    def __init__(self):
        self.room = tempfile.mkdtemp(prefix="pg-")
        self.how = {}
        if os.geteuid() == 0:
            user = next(pwd.getpwnam(name) for name in USERS if has_user(name))
            os.chown(self.room, user.pw_uid, user.pw_gid)
            self.how = {"user": user.pw_uid, "group": user.pw_gid, "extra_groups": []}
        data = os.path.join(self.room, "data")
        words = [command("initdb"), "-D", data, "-A", "trust", "-U", "erp", "-E", "UTF8", "--locale=C", "--no-sync"]
        quiet = {"stdin": subprocess.DEVNULL, "stdout": subprocess.DEVNULL, "cwd": self.room}
        subprocess.run(words, check=True, **quiet, **self.how)
        with open(os.path.join(self.room, "log"), "wb") as log:
            words = [command("postgres"), "-D", data, "-k", self.room, "-p", PORT, "-c", "listen_addresses=", "-c", "fsync=off"]
            self.process = subprocess.Popen(words, stderr=log, **quiet, **self.how)
        self.wait()

    def dsn(self, folder=None):
        return f"host={folder or self.room} port={PORT} dbname=postgres user=erp"

    def connect(self):
        return library("psycopg2").connect(self.dsn())

    def wait(self):
        until = time.time() + SECONDS
        while True:
            try:
                self.connect().close()
                return
            except library("psycopg2").OperationalError:
                if self.process.poll() is not None or time.time() > until:
                    raise
                time.sleep(0.05)

    def stop(self):
        self.process.send_signal(signal.SIGINT)
        self.process.wait(SECONDS)
        shutil.rmtree(self.room)

    def run(self, text, *values):
        """Runs a statement, and gives the rows that it answers."""
        connection = self.connect()
        try:
            with connection, connection.cursor() as cursor:
                cursor.execute(text, values or None)
                return cursor.fetchall() if cursor.description else []
        finally:
            connection.close()


def has_user(name):
    try:
        return bool(pwd.getpwnam(name))
    except KeyError:
        return False


@functools.cache
def server_of_all():
    """The server of all tests, which runs until they have ended."""
    server = Server()
    atexit.register(server.stop)
    return server


@unittest.skipIf(why_none(), why_none())
class WithServer(unittest.TestCase):
    """Tests with the one server."""

    @classmethod
    def setUpClass(cls):
        try:
            cls.server = server_of_all()
        except PermissionError as refused:
            raise unittest.SkipTest(f"no server can be started as another user: {refused}") from None
