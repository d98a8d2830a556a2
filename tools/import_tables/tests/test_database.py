"""Tables from a PostgreSQL server."""

import os
import tomllib
import unittest

from tests.server import WithServer
from whole_files import Refused

from ..database import open_database, read_answers
from ..found import Unreadable
from .made_up import BICYCLE, TOP, InAFolder, read_tables

ERP = os.path.join(TOP, "tools", "tests", "erp")


def text_of(*names):
    with open(os.path.join(*names), encoding="utf-8") as held:
        return held.read()


class Database(InAFolder, WithServer):
    """An ERP of which nine queries make the tables of the bicycle shop."""

    def setUp(self):
        super().setUp()
        self.server.run("drop schema if exists public cascade; create schema public")
        self.server.run(text_of(ERP, "schema.sql"))

    def lay_queries(self, **changed):
        """The file of queries, for the server of the tests; some queries are others, or with None not there."""
        queries = {**tomllib.loads(text_of(ERP, "erp.toml"))["queries"], **changed}
        lines = [f"{table} = '''{query}'''" for table, query in queries.items() if query]
        return self.lay("erp.toml", "\n".join([f"[database]\nconnection = '{self.server.dsn()}'\n[queries]", *lines]))

    def test_nine_queries(self):
        out, tables = self.imports(self.lay_queries())
        self.assertEqual(tables, read_tables(BICYCLE))
        self.assertIn("cells written otherwise than they were found: 0\n", out)

    def test_other_order_and_extra_columns(self):
        out, tables = self.imports(self.lay_queries(stock="select 5.000 as onhand, 'A' as warehouse, 'BIKE ' as \"Item\""))
        self.assertEqual(tables["stock"], b"item,onhand\nBIKE,5\n")
        self.assertIn("stock: a column is left out: 'warehouse', 1 cell\n", out)
        self.assertIn("query stock, row 1: Item: 'BIKE ' is written BIKE\n", out)

    def test_a_time_of_day_is_told(self):
        receipts = "select material as item, purchase as order, due as date, open_quantity as quantity from purchase_line"
        out, tables = self.imports(self.lay_queries(receipts=receipts.replace("order,", '"order",')))
        self.assertIn(b"FRAME,R1,2025-01-22,15\n", tables["receipts"])
        self.assertIn("query receipts, row 1: date: 2025-01-22 16:30:00 is written 2025-01-22\n", out)

    def test_cells_that_are_refused(self):
        row = "select 'BIKE' as item, {} as onhand"
        for query, line in (
            (row.format("1.25"), "query stock, row 1: onhand: 1.25 has decimals; expected a whole number\n"),
            (row.format("-1"), "query stock, row 1: onhand: -1 is negative; expected a whole number of 0 or more\n"),
            (
                row.format("true"),
                "query stock, row 1: onhand: 'True', of the type bool: make it a text, a number or a date in the query",
            ),
            (row.format("'NaN'::numeric"), "query stock, row 1: onhand: NaN is no number; expected a whole number\n"),
            (row.format("1e300::float"), "query stock, row 1: onhand: 1e+300 may have been rounded; expected a whole number\n"),
            (
                "select 10.0 as item, 1 as onhand",
                "query stock, row 1: item: 10.0 is a number; expected a name: make it a text in the query\n",
            ),
        ):
            with self.subTest(query):
                self.assertIn(line, self.refuses(self.lay_queries(stock=query)))
                os.remove(self.path("erp.toml"))

    def test_ends_of_queries(self):
        for end in (";", " ; \n", "-- the stock", "\n-- the stock\n"):
            with self.subTest(end):
                stock = f"with own as (select 'BIKE' as item, 5 as onhand) select * from own{end}"
                _, tables = self.imports(self.lay_queries(stock=stock))
                self.assertEqual(tables["stock"], b"item,onhand\nBIKE,5\n")
            self.doCleanups()
            self.setUp()

    def test_queries_that_are_refused(self):
        self.server.run("create sequence places")
        for query, line in (
            ("select * from nothing", 'query stock: relation "nothing" does not exist\n'),
            ("selec", 'query stock: syntax error at or near "selec"\n'),
            (
                "select nextval('places')::text as item, 1 as onhand",
                "query stock: cannot execute nextval() in a read-only transaction\n",
            ),
            (
                "delete from stock returning material as item, 1 as onhand",
                'query stock: syntax error at or near "delete"\n',
            ),
            (
                "commit; delete from stock; select 'BIKE' as item, 1 as onhand",
                'query stock: syntax error at or near "commit"\n',
            ),
            (
                "select 'BIKE' as item, 1 as onhand; commit; delete from stock",
                'query stock: syntax error at or near ";"\n',
            ),
            ("set time zone 'UTC'", 'query stock: syntax error at or near "set"\n'),
            ("select '0044-03-15 BC'::date as item, 1 as onhand", "query stock: "),
            ("select 'BIKE' as item", "stock: no column is called 'onhand'; its heads are 'item'; "),
            (None, "; [queries] has one for each table; where there is none, --empty stock\n"),
        ):
            with self.subTest(query):
                self.assertIn(line, self.refuses(self.lay_queries(stock=query)))
                os.remove(self.path("erp.toml"))
        self.assertEqual(self.server.run("select count(*) from stock"), [(5,)])

    def test_one_snapshot(self):
        """What others commit between two queries is not seen."""
        connection = open_database(self.server.dsn())
        self.addCleanup(connection.close)
        queries = {"stock": "select count(*) from stock", "bills": "select count(*) from bill_line"}
        answers = read_answers(connection, queries)
        self.assertEqual(next(answers)[1].rows[1], (1, [5]))
        self.server.run("insert into bill_line values (3, 'BIKE', 'WHEEL', 1)")
        self.assertEqual(next(answers)[1].rows[1], (1, [2]))
        self.assertEqual(self.server.run("select count(*) from bill_line"), [(3,)])

    def test_a_moment_with_a_time_zone(self):
        connection = open_database(self.server.dsn())
        self.addCleanup(connection.close)
        answers = dict(read_answers(connection, {"stock": "select now() as item"}))
        self.assertIsInstance(answers["stock"].rows[1][1][0], Unreadable)

    def test_the_connection_is_cut(self):
        cut = "select 'BIKE' as item, 1 as onhand from (select pg_terminate_backend(pg_backend_pid())) as ended"
        self.assertIn("query stock: ", self.refuses(self.lay_queries(stock=cut)))

    def test_no_server(self):
        source = self.lay("erp.toml", f"[database]\nconnection = 'host={self.top} dbname=erp'\n[queries]\nstock = 'select 1'\n")
        self.assertIn("the database can not be reached: ", self.refuses(source))
        with self.assertRaises(Refused):
            open_database("no such word")

    def test_files_that_are_refused(self):
        for text, line in (
            ("", "erp.toml: expected [database] with connection"),
            ("database = 1", "erp.toml: expected [database] with connection"),
            ("[database]\nconnection = 1\n[queries]", "erp.toml: expected [database] with connection"),
            (
                "[database]\nconnection = ''\n[queries]\nstuff = 'select 1'",
                "erp.toml: stuff in [queries]: expected the name of a table",
            ),
            ("[database]\nconnection = ''\n[queries]\nstock = 1", "erp.toml: stock in [queries]: expected the name of a table"),
            ("[database", "erp.toml: Expected ']'"),
        ):
            with self.subTest(text):
                self.assertIn(line, self.refuses(self.lay("erp.toml", text)))
                os.remove(self.path("erp.toml"))


if __name__ == "__main__":
    unittest.main()
