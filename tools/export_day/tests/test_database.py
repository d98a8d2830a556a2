"""A day in tables of a PostgreSQL server."""

import datetime
import decimal
import os
import unittest

from tests.cut import CutDoor
from tests.server import WithServer

from .made_up import BICYCLE, DAY, InAFolder, all_days, read, sections_of
from .test_folders import NAMES

# A function that ends the session that calls it.
CUT = (
    "create function mrp.cut() returns trigger language plpgsql as "
    "$$ begin perform pg_terminate_backend(pg_backend_pid()); return new; end $$"
)


class Database(InAFolder, WithServer):
    def setUp(self):
        super().setUp()
        self.server.run("drop schema if exists mrp cascade; drop schema if exists plans cascade")
        self.to = self.lay("erp.toml", f"[database]\nconnection = '{self.server.dsn()}'\n")

    def counts(self):
        """How many rows each table has."""
        return {name: self.server.run(f"select count(*) from mrp.{name}")[0][0] for name in NAMES}

    def texts(self):
        """The rows of all tables without dates, as texts, in an order of their own."""
        found = {}
        for name, text in sections_of(read(DAY)):
            heads = text.decode().split("\n")[0].split(",")
            cells = ", ".join(f'"{head}"::text' for head in heads)
            rows = self.server.run(f"select {cells} from mrp.{name}")
            found[name] = sorted(",".join(cell or "" for cell in row) for row in rows)
        return found

    def test_a_table_a_section(self):
        said = self.exports(DAY, self.to)
        self.assertEqual(
            said,
            "the tables of the schema mrp are written: history 7, run 1, promises 6, plan 18, orders 8, pegs 20, messages 7, loads 6\n",
        )
        self.assertEqual(self.texts(), {name: sorted(text.decode().splitlines()[1:]) for name, text in sections_of(read(DAY))})
        self.assertEqual(
            self.server.run("select load, week_date from mrp.loads where week = 1"), [(decimal.Decimal("175.000"), None)]
        )

    def test_dates_of_weeks(self):
        self.exports(DAY, self.to, "--dir", BICYCLE)
        rows = self.server.run('select due_date, release_date from mrp.orders where item = %s and "order" = 1', "BIKE")
        self.assertEqual(rows, [(datetime.date(2025, 1, 13), datetime.date(2025, 1, 6))])
        self.assertEqual(
            self.server.run("select value_date from mrp.messages where message = 'IN'")[0], (datetime.date(2025, 1, 13),)
        )

    def test_a_schema_of_another_name(self):
        to = self.lay("other.toml", f"[database]\nconnection = '{self.server.dsn()}'\nschema = 'plans'\n")
        self.exports(DAY, to)
        self.assertEqual(self.server.run("select count(*) from plans.loads"), [(6,)])

    def test_a_run_replaces_the_run_before(self):
        for day in [*all_days()[::100], DAY]:
            self.exports(day, self.to)
        self.assertEqual(
            self.counts(), {"history": 7, "run": 1, "promises": 6, "plan": 18, "orders": 8, "pegs": 20, "messages": 7, "loads": 6}
        )

    def test_a_bad_day_leaves_the_old_run(self):
        self.exports(DAY, self.to)
        before = self.texts()
        bad = self.lay("bad.day", read(DAY).replace(b"175.000", b"x"))
        self.assertRegex(self.refuses(bad, self.to), r"\Aexport: line \d+: is no row of \[loads\]\n")
        great = self.lay("great.day", read(DAY).replace(b"\nBIKE,1,10,", b"\nBIKE,1,99999999999999999999,"))
        self.assertIn("export: the database refused it: value ", self.refuses(great, self.to))
        self.assertEqual(self.texts(), before)

    def test_a_bad_day_leaves_no_schema(self):
        self.refuses(self.lay("bad.day", read(DAY).replace(b"175.000", b"x")), self.to)
        self.assertEqual(self.server.run("select count(*) from pg_namespace where nspname = 'mrp'"), [(0,)])

    def test_a_connection_that_is_cut(self):
        """At whatever byte: the old run stands, or nothing."""
        self.exports(DAY, self.to)
        before = self.texts()
        other = self.lay("other.day", read(DAY).replace(b"WELD,", b"SAW,"))
        ends = []
        for most in range(0, 8000, 400):
            ends.append(self.export_cut(other, most))
            if ends[-1] != "nothing is written":
                break
            self.assertEqual(self.texts(), before)
        self.assertGreater(len(ends), 5)
        self.export_cut(other, 10**6)
        self.assertEqual(self.server.run("select count(*) from mrp.loads where centre = 'SAW'"), [(6,)])

    def export_cut(self, day, most):
        """Exports by a connection that is cut once so many bytes were sent: the end of what is said."""
        room = self.path(f"door-{most}")
        os.mkdir(room)
        to = self.lay("cut.toml", f"[database]\nconnection = '{self.server.dsn(room)}'\n")
        door = CutDoor(room, self.server.room, most)
        _, _, err = self.run_export(day, to)
        door.close()
        return err.strip().rpartition("export: ")[2]

    def test_a_connection_that_breaks_at_the_very_end(self):
        """Whether the run was taken can not be told then, and that is said; here it was not."""
        self.exports(DAY, self.to)
        before = self.texts()
        self.server.run(
            f"{CUT}; create constraint trigger cut after insert on mrp.run deferrable initially deferred for each row execute function mrp.cut()"
        )
        status, _, err = self.run_export(DAY, self.to)
        self.assertEqual((status, err), (1, "export: the connection broke at the very end: look whether the new run is there\n"))
        self.assertEqual(self.texts(), before)

    def test_a_session_that_is_ended(self):
        """By the server, while the last table is copied."""
        self.exports(DAY, self.to)
        before = self.texts()
        self.server.run(f"{CUT}; create trigger cut before insert on mrp.loads for each row execute function mrp.cut()")
        self.assertIn("export: the database refused it: ", self.refuses(DAY, self.to))
        self.assertEqual(self.texts(), before)

    def test_readers_see_one_run(self):
        """Who reads while a run is written sees the run before, and waits for nothing."""
        self.exports(DAY, self.to)
        connection = self.server.connect()
        self.addCleanup(connection.close)
        connection.set_session(isolation_level="REPEATABLE READ", readonly=True)
        with connection.cursor() as cursor:
            cursor.execute("select count(*) from mrp.loads")
            self.exports(self.lay("other.day", read(DAY).replace(b"WELD,", b"SAW,")), self.to)
            cursor.execute("select distinct centre from mrp.loads")
            self.assertEqual(cursor.fetchall(), [("WELD",)])
        self.assertEqual(self.server.run("select distinct centre from mrp.loads"), [("SAW",)])

    def test_what_is_refused(self):
        self.server.run("create schema mrp; create table mrp.plan (note text)")
        self.assertIn("export: the database refused it: column ", self.refuses(DAY, self.to))
        self.assertEqual(self.server.run("select count(*) from pg_class where relname = 'history'"), [(0,)])
        for text, line in (
            ("", "expected [database] with connection"),
            ("[database]\nconnection = 1", "expected [database] with connection"),
            ("[database]\nconnection = ''\nschema = ''", "expected [database] with connection"),
            ("[database", "Expected ']'"),
            (f"[database]\nconnection = 'host={self.top}'", "export: the database refused it: "),
        ):
            with self.subTest(text):
                self.assertIn(line, self.refuses(DAY, self.lay("erp.toml", text)))


if __name__ == "__main__":
    unittest.main()
