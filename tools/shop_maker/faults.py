"""One fault in a shop that is accepted otherwise: for each fault the tables that can have it, and how it is made."""
import datetime
from dataclasses import replace

from .shop import COLUMNS, TABLES, Scale, shop_of
from .dice import Dice
from .spelling import bundle, sections

# Every table has records, so that there is one to spoil.
FULL = Scale(items=(6, 9), weeks=(3, 8), centres=(2, 3), desks=3, calls=(9, 12), great=4)
# Faults that version 3 alone has.
STEPPED = {"service-master"}
NUMBERS = {
    "calendar": [], "items": ["lead", "scrap", "size", "safety"], "centres": ["minutes"], "stock": ["onhand"],
    "receipts": ["quantity"], "bills": ["per"], "routings": ["op", "setup", "run", "offset"], "master": ["quantity"], "script": ["desk"],
}
MOST = {
    "lead": 104, "scrap": 900, "size": 10**9, "safety": 10**9, "minutes": 10**9, "onhand": 10**9, "quantity": 10**9,
    "per": 10**6, "op": 10**9, "setup": 10**6, "run": 10**9, "offset": 104, "desk": 64,
}
ITEMS = {"stock": "item", "receipts": "item", "bills": "component", "routings": "item", "master": "item"}
DATES = {"receipts": "date", "master": "date"}
NAMES = {"items": "item", "centres": "centre", "stock": "item", "receipts": "order", "bills": "parent", "routings": "centre", "master": "item"}
WORDS = {"items": "class", "master": "row", "script": "call"}


def place(table, column):
    return COLUMNS[table].split(",").index(column)


def spoil(shop, dice, table, column, cell):
    """Puts a cell into a record of a table, as if somebody had mistyped it."""
    dice.pick(shop.records[table])[place(table, column)] = str(cell)


def number(shop, dice, table):
    if table == "calendar":
        shop.records[table][1][1] = "three"
    else:
        spoil(shop, dice, table, dice.pick(NUMBERS[table]), dice.pick(("", "1.0", "-1", "1e3", "ten")))


def range_(shop, dice, table):
    if table == "calendar":
        shop.records[table][1][1] = dice.pick(("0", "105"))
    else:
        column = dice.pick(NUMBERS[table])
        spoil(shop, dice, table, column, MOST[column] + dice.pick((1, 10**30)))


def date(shop, dice, table):
    if table == "calendar":
        shop.records[table][0][1] = "2025-02-29"
    elif table == "script":
        dated_call(shop, dice)[place(table, "date")] = "2025-2-1"
    else:
        spoil(shop, dice, table, "date", dice.pick(("01.02.2025", "2025-13-01", "")))


def word(shop, dice, table):
    if table == "calendar":
        shop.records[table][2][1] = dice.pick(("111110", "11111x0"))
    else:
        spoil(shop, dice, table, WORDS[table], dice.pick(("Part", "order", "")))


def name(shop, dice, table):
    if table == "script":
        dated_call(shop, dice)[place(table, "item")] = ""
    else:
        spoil(shop, dice, table, NAMES[table], dice.pick(("", " A", "A" * 33, "caf\u00e9")))


def columns(shop, dice, table):
    row = dice.pick(shop.records[table])
    row.pop() if dice.chance(50) else row.append("")


def repeated(shop, dice, table):
    shop.records[table].append(list(dice.pick(shop.records[table])))


def unknown_item(shop, dice, table):
    if table == "script":
        dated_call(shop, dice)[place(table, "item")] = "NOBODY"
    else:
        spoil(shop, dice, table, ITEMS[table], "NOBODY")


def unknown_centre(shop, dice, table):
    spoil(shop, dice, table, "centre", "NOWHERE")


def date_outside(shop, dice, table):
    late = shop.start + datetime.timedelta(days=7 * shop.weeks)
    early = shop.start - datetime.timedelta(days=1)
    day = dice.pick((late, early))
    if table == "script":
        dated_call(shop, dice)[place(table, "date")] = str(day)
    else:
        spoil(shop, dice, table, "date", day)


def not_master(shop, dice, table):
    part = dice.pick(shop.parts)
    if table == "script":
        dated_call(shop, dice)[place(table, "item")] = part
    else:
        spoil(shop, dice, table, "item", part)


def master_safety(shop, dice, table):
    row = next(row for row in shop.records[table] if row[0] in shop.masters)
    row[place(table, "safety")] = str(dice.between(1, 9))


def master_receipt(shop, dice, table):
    spoil(shop, dice, table, "item", dice.pick(shop.masters))


def master_component(shop, dice, table):
    spoil(shop, dice, table, "component", dice.pick(shop.masters))


def service_master(shop, dice, table):
    row = dice.pick([row for row in shop.records[table] if row[1] == "service"])
    row[place(table, "item")] = dice.pick(shop.masters)


def loop(shop, dice, table):
    part = dice.pick(shop.parts)
    below = dice.pick([row[1] for row in shop.records["bills"] if row[0] == part] or [part])
    shop.add("bills", below, part, 1)


def dated_call(shop, dice):
    """A record of the script with an item and a date."""
    return dice.pick([row for row in shop.records["script"] if row[1] in ("book", "ask")])


def header(shop, dice, parts, at):
    name, text = parts[at]
    lines = text.split("\n")
    lines[0] = dice.pick((lines[0].replace(",", ";"), lines[0].upper(), lines[0] + ",note", ""))
    parts[at] = (name, "\n".join(lines))


def section_twice(shop, dice, parts, at):
    parts.insert(dice.between(at + 1, len(parts)), parts[at])


def missing_section(shop, dice, parts, at):
    del parts[at]


RECORD_FAULTS = {
    "number": (number, TABLES), "range": (range_, TABLES), "columns": (columns, TABLES),
    "date": (date, ("calendar", "receipts", "master", "script")),
    "word": (word, ("calendar", "items", "master", "script")),
    "name": (name, TABLES[1:]),
    "repeated": (repeated, ("items", "centres", "stock", "receipts", "routings")),
    "unknown-item": (unknown_item, ("stock", "receipts", "bills", "routings", "master", "script")),
    "unknown-centre": (unknown_centre, ("routings",)),
    "date-outside": (date_outside, ("receipts", "master", "script")),
    "not-master": (not_master, ("master", "script")),
    "master-safety": (master_safety, ("items",)),
    "master-receipt": (master_receipt, ("receipts",)),
    "master-component": (master_component, ("bills",)),
    "loop": (loop, ("items",)),
    "service-master": (service_master, ("master",)),
}
SECTION_FAULTS = {"header": header, "section-twice": section_twice, "missing-section": missing_section}


def kinds():
    """Each fault with a table that can have it."""
    of_records = [(table, fault) for fault, (_, tables) in RECORD_FAULTS.items() for table in tables]
    of_sections = [(table, fault) for fault in SECTION_FAULTS for table in TABLES]
    return of_records + of_sections + [("bundle", "text-before-section"), ("bundle", "unknown-section")]


def spoiled_bundle(table, fault):
    """A bundle with this one fault."""
    dice = Dice(sum(ord(letter) * 257**at for at, letter in enumerate(f"{table} {fault}")))
    shop = full_shop(dice, replace(FULL, version=3) if fault in STEPPED else FULL)
    if fault in RECORD_FAULTS:
        RECORD_FAULTS[fault][0](shop, dice, table)
        return bundle(sections(shop))
    parts = sections(shop)
    if fault == "text-before-section":
        return b"bundle of monday\n" + bundle(parts)
    if fault == "unknown-section":
        parts.insert(dice.between(0, len(parts)), ("orders", ""))
    else:
        SECTION_FAULTS[fault](shop, dice, parts, TABLES.index(table))
    return bundle(parts)


def full_shop(dice, scale):
    """A shop of which every table has a record, the script one with an item and a date, and in version 3 the master schedule one of service."""
    while True:
        shop = shop_of(dice, scale)
        if all(shop.records[table] for table in TABLES) and shop.parts and has_what_is_spoiled(shop):
            return shop


def has_what_is_spoiled(shop):
    dated = any(row[1] in ("book", "ask") for row in shop.records["script"])
    service = any(row[1] == "service" for row in shop.records["master"])
    return dated and (service or shop.version < 3)
