"""Tables that nine queries of a PostgreSQL database answer, read in one snapshot."""

import datetime
import decimal

from outside import library
from whole_files import Refused

from .found import Answer, Unreadable


def open_database(text):
    """A connection that reads one snapshot and writes nothing. The text is as libpq takes it: 'host=/run/postgresql dbname=erp'."""
    psycopg2 = library("psycopg2")
    try:
        connection = psycopg2.connect(text)
    except psycopg2.Error as wrong:
        raise Refused(f"the database can not be reached: {first_line(wrong)}") from None
    connection.set_session(isolation_level="REPEATABLE READ", readonly=True)
    return connection


def first_line(wrong):
    return (str(wrong).strip() or type(wrong).__name__).splitlines()[0]


def read_answers(connection, queries):
    """What each query answers, one after the other, all of one moment."""
    psycopg2 = library("psycopg2")
    for table, query in queries.items():
        try:
            with connection.cursor() as cursor:
                cursor.execute(alone(query))
                heads = [column.name for column in cursor.description]
                rows = [(number, [value_of(cell) for cell in row]) for number, row in enumerate(cursor, start=1)]
        except (psycopg2.Error, ValueError) as wrong:  # (a text or a date that Python does not have is a ValueError)
            raise Refused(f"query {table}: {first_line(wrong)}") from None
        yield table, Answer(table, [(0, heads), *rows])


def alone(query):
    """A query in brackets, as the database takes one that reads, and no further statement, which could end the snapshot and write."""
    return f"(\n{query.strip().removesuffix(';')}\n)"


def read_database(text, queries):
    """The answers of all queries, or what is wrong."""
    connection = open_database(text)
    try:
        return dict(read_answers(connection, queries))
    finally:
        connection.close()


def value_of(cell):
    if isinstance(cell, str):
        return cell if cell.strip() else None
    if isinstance(cell, datetime.datetime) and cell.tzinfo:
        return Unreadable(f"'{cell}', a moment of which the day depends on the time zone: make it a date in the query")
    if isinstance(cell, bool) or not isinstance(cell, (int, float, decimal.Decimal, datetime.date, type(None))):
        return Unreadable(f"'{cell}', of the type {type(cell).__name__}: make it a text, a number or a date in the query")
    return cell
