"""Calls at random, and an order book that judges their answers."""

import csv
import datetime
import io
import random
import re
from dataclasses import dataclass

# Lines that are no calls, each with its first fault; what they name stands in no shop.
BAD = [
    (b"\n", b"6 columns"), (b"x\n", b"6 columns"), (b"0,run,,,,\n", b"11 range"), (b"1,sell,,,,\n", b"10 word"),
    (b"1,ask,,2025-01-06,,\n", b"7 name"), (b"1,cancel,,,,\n", b"8 number"), (b"1,run,,,,\r1,run,,,,\n", b"6 columns"),
    (b'2,cancel,,,,"7\n', b"8 number"), (b"3,when,no such item,,1,\n", b"13 unknown-item"),
]
DESKS = 64


class Wrong(Exception):
    """Something is not as it must be."""


@dataclass(frozen=True)
class Line:
    """A line of the input: the record that it becomes, or its first fault."""

    text: bytes
    record: bytes = b""
    fault: bytes = b""


class Shop:
    """What tables say of promising: master items, weeks and supply."""

    def __init__(self, tables):
        rows = {name: list(csv.reader(io.StringIO(text.decode())))[1:] for name, text in tables.items()}
        keys = dict(row[:2] for row in rows["calendar"] if row[0] != "holiday")
        self.start = datetime.date.fromisoformat(keys["start"])
        self.weeks = int(keys["weeks"])
        self.items = [row[0] for row in rows["items"] if row[1] == "master"]
        self.supply = {item: [0] * (self.weeks + 1) for item in self.items}
        for item, quantity in rows["stock"]:
            if item in self.supply:
                self.supply[item][1] += int(quantity)
        for item, kind, day, quantity in rows["master"]:
            if kind == "firm":
                self.supply[item][self.week_of(day)] += int(quantity)

    def week_of(self, day):
        return (datetime.date.fromisoformat(day) - self.start).days // 7 + 1


class Book:
    """Which bookings stand, from the rows of a history: none may exceed what was available."""

    def __init__(self, shop):
        self.weeks, self.count, self.standing, self.left = shop.weeks, 0, {}, {}
        for item, row in shop.supply.items():
            total = 0
            self.left[item] = [total := total + quantity for quantity in row]

    def add(self, item, week, quantity):
        for at in range(week, self.weeks + 1):
            self.left[item][at] += quantity

    def take(self, row):
        number, desk, _, item, week, quantity, named, reply, _ = row
        self.count += 1
        if int(number) != self.count:
            raise Wrong(f"entry {number} stands at place {self.count}")
        if reply == "booked":
            self.standing[self.count] = item, int(week), int(quantity), desk
            self.add(item, int(week), -int(quantity))
            if min(self.left[item]) < 0:
                raise Wrong(f"more is booked than is available: {row}")
        if reply == "cancelled":
            item, week, quantity, whose = self.standing.pop(int(named))
            self.add(item, week, quantity)
            if whose != desk:
                raise Wrong(f"a booking of another desk is cancelled: {row}")


def cell(text):
    return '"' + text.replace('"', '""') + '"' if re.search('[,"\r\n]', text) else text


class Caller:
    """Lines of some desks, at random: bookings and cancellations most, a few runs, and a few that are no calls."""

    def __init__(self, shop, desks, seed, runs):
        self.shop, self.desks, self.random, self.runs = shop, desks, random.Random(seed), runs

    def cancel(self, desk, numbers, booked):
        """Mostly of what was booked of late, by its desk where that is one of these."""
        number = self.random.randint(1, max(1, numbers))
        if booked and self.random.random() < 0.9:
            number, whose = self.random.choice(booked)
            desk = whose if whose in self.desks else desk
        return f"{desk},cancel,,,,{number}"

    def record(self, numbers, booked):
        desk, item = self.random.choice(self.desks), cell(self.random.choice(self.shop.items))
        day = self.shop.start + datetime.timedelta(self.random.randrange(7 * self.shop.weeks))
        quantity, kind = self.random.choice((1, 1, 1, 2, 3, 10)), self.random.random()
        if kind < 0.4:
            return f"{desk},book,{item},{day},{quantity},"
        if kind < 0.75:
            return self.cancel(desk, numbers, booked)
        if kind < 0.9:
            return f"{desk},ask,{item},{day},,"
        return f"{desk},when,{item},,{quantity}," if kind < 1 - self.runs else f"{desk},run,,,,"

    def line(self, numbers, booked):
        """The next line, where so many records stand and these were booked of late."""
        if self.random.random() < 0.05:
            text, fault = self.random.choice(BAD)
            return Line(text, fault=fault)
        record = self.record(numbers, booked)
        end = self.random.random()
        spelled = f"{record}\r" if end < 0.1 else f"{record}unused" if end < 0.2 and ",ask," in record else record
        return Line(spelled.encode() + b"\n", record.encode() + b"\n")
