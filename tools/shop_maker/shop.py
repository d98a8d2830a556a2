"""A shop at random: the records of its nine tables, as lists of cells."""
import datetime
from dataclasses import dataclass, field

# The tables in the order of faults, with their columns.
COLUMNS = {
    "calendar": "key,value",
    "items": "item,class,lead,scrap,lot,size,safety",
    "centres": "centre,minutes",
    "stock": "item,onhand",
    "receipts": "item,order,date,quantity",
    "bills": "parent,component,per",
    "routings": "item,op,centre,setup,run,offset",
    "master": "item,row,date,quantity",
    "script": "desk,call,item,date,quantity,number",
}
TABLES = tuple(COLUMNS)
# In version 3 the items have a minimum order quantity and an order multiple too.
STEPPED_ITEMS = COLUMNS["items"] + ",least,step"
NAMES = ("BIKE", "FRAME", "WHEEL", "TUBE", "SEAT", "FORK", "RIM", "HUB", "BOLT", "CHAIN", "PEDAL", "CRANK")
ODD_NAMES = ('A,B', '"', "two words", "#1", ",,", "run", "'", "item")


@dataclass(frozen=True)
class Scale:
    """How much a shop of a family has: ranges, and chances in per cent."""
    items: tuple
    weeks: tuple
    centres: tuple
    desks: int
    calls: tuple
    great: int
    version: int = 1


SMALL = Scale(items=(1, 6), weeks=(1, 6), centres=(0, 0), desks=2, calls=(0, 8), great=10)
FACTORY = Scale(items=(3, 12), weeks=(3, 10), centres=(0, 3), desks=3, calls=(2, 16), great=4)
SERVICE = Scale(items=(3, 9), weeks=(3, 10), centres=(0, 2), desks=2, calls=(0, 10), great=4, version=3)
# Lead times in weeks, and in shop days.
WEEKS = (0, 0, 1, 1, 2, 3, 104)
SHOP_DAYS = (0, 1, 2, 5, 8, 13, 728)


@dataclass
class Shop:
    version: int = 1
    records: dict = field(default_factory=lambda: {table: [] for table in TABLES})
    start: datetime.date = None
    weeks: int = 1
    masters: list = field(default_factory=list)
    parts: list = field(default_factory=list)

    def add(self, table, *cells):
        self.records[table].append([str(cell) for cell in cells])

    def columns(self, table):
        stepped = table == "items" and self.version == 3
        return (STEPPED_ITEMS if stepped else COLUMNS[table]).split(",")


def shop_of(dice, scale):
    """A shop whose tables are accepted; a plan of it may still be too large."""
    shop = Shop(scale.version)
    add_calendar(shop, dice, scale)
    add_items(shop, dice, scale)
    add_bills(shop, dice)
    add_centres(shop, dice, scale)
    add_stock(shop, dice, scale)
    add_receipts(shop, dice, scale)
    add_master(shop, dice, scale)
    add_script(shop, dice, scale)
    return shop


def add_calendar(shop, dice, scale):
    monday = datetime.date(1900, 1, 1)
    shop.start = monday + datetime.timedelta(weeks=dice.between(0, 57300))
    shop.weeks = dice.between(*scale.weeks)
    workdays = dice.pick(("1111100", "1111100", "1111110", "1111111", "1010100", "0000011"))
    if shop.version > 1:
        shop.add("calendar", "version", shop.version)
    shop.add("calendar", "start", shop.start)
    shop.add("calendar", "weeks", shop.weeks)
    shop.add("calendar", "workdays", workdays)
    holidays = [day_about(shop, dice) for _ in range(dice.between(0, 3))]
    for day in holidays + holidays[: dice.between(0, 1)]:
        shop.add("calendar", "holiday", day)


def day_about(shop, dice):
    """A day of the horizon, or one a little outside it."""
    return shop.start + datetime.timedelta(days=dice.between(-10, 7 * shop.weeks + 10))


def day_within(shop, dice):
    return shop.start + datetime.timedelta(days=dice.between(0, 7 * shop.weeks - 1))


def quantity(dice, scale, most=60):
    """Mostly some dozens of pieces; now and then none, or the greatest number that a cell takes."""
    if dice.chance(scale.great):
        return dice.pick((0, 1, 10**9))
    return dice.between(1, most)


def names(dice, count, odd):
    plain = [f"{dice.pick(NAMES)}{number}" for number in dice.shuffled(range(1, count + 1))]
    for place in range(count):
        if dice.chance(odd):
            plain[place] = dice.pick(ODD_NAMES)
    return list(dict.fromkeys(plain))


def add_items(shop, dice, scale):
    """Master items and parts stand in any order, so that table order is not the order of levels."""
    every = [] if dice.chance(6) else names(dice, dice.between(*scale.items), 8)
    shop.masters = [name for name in every if dice.chance(35)] or every[:1]
    shop.parts = [name for name in every if name not in shop.masters]
    for name in every:
        lot = dice.pick(("lfl", "lfl", "fixed", "period"))
        size = {"lfl": dice.pick((0, 0, 10**9)), "fixed": dice.between(1, 40), "period": dice.between(1, 4)}[lot]
        lead = dice.pick(WEEKS if shop.version == 1 else SHOP_DAYS)
        scrap = dice.pick((0, 0, 0, 100, 333, dice.between(1, 900)))
        master = name in shop.masters
        safety = 0 if master or dice.chance(60) else dice.between(1, 30)
        stepped = least_and_step(dice) if shop.version == 3 else ()
        shop.add("items", name, "master" if master else "part", lead, scrap, lot, size, safety, *stepped)


def least_and_step(dice):
    """A minimum order quantity and an order multiple, each often without effect."""
    return dice.pick((0, 0, 1, dice.between(2, 60))), dice.pick((1, 1, dice.between(2, 12), 24))


def add_bills(shop, dice):
    """A part is taken by items of a lower place in a shuffled order, so no item needs itself."""
    above = list(shop.masters)
    for part in dice.shuffled(shop.parts):
        for parent in dice.shuffled(above)[: dice.between(0, 3)]:
            for _ in range(2 if dice.chance(12) else 1):
                shop.add("bills", parent, part, dice.between(1, 4))
        above.append(part)
    shop.records["bills"] = dice.shuffled(shop.records["bills"])


def add_centres(shop, dice, scale):
    centres = names(dice, dice.between(*scale.centres), 5)
    for centre in centres:
        shop.add("centres", centre, dice.pick((0, 20, 100, 480, 10**9)))
    if not centres or dice.chance(15):
        return
    for item in dice.shuffled(shop.masters + shop.parts):
        operations = dice.shuffled(range(1, 10))[: dice.between(0, 3)]
        for operation in operations:
            run = dice.pick((0, 1, 999, 2500, 60000))
            shop.add("routings", item, 10 * operation, dice.pick(centres), dice.between(0, 60), run, dice.pick((0, 0, 1, 2, 104)))


def add_stock(shop, dice, scale):
    for item in dice.shuffled(shop.masters + shop.parts):
        if dice.chance(60):
            shop.add("stock", item, quantity(dice, scale))


def add_receipts(shop, dice, scale):
    for part in dice.shuffled(shop.parts):
        for number in range(dice.pick((0, 0, 1, 2))):
            shop.add("receipts", part, f"R{number + 1}", day_within(shop, dice), quantity(dice, scale))
    shop.records["receipts"] = dice.shuffled(shop.records["receipts"])


def add_master(shop, dice, scale):
    for item in shop.masters:
        for _ in range(dice.between(0, 5)):
            shop.add("master", item, dice.pick(("firm", "forecast")), day_within(shop, dice), quantity(dice, scale))
    if shop.version == 3:
        add_service(shop, dice, scale)
    shop.records["master"] = dice.shuffled(shop.records["master"])


def add_service(shop, dice, scale):
    for part in shop.parts:
        for _ in range(dice.pick((0, 1, 1, 3))):
            shop.add("master", part, "service", day_within(shop, dice), quantity(dice, scale))


def add_script(shop, dice, scale):
    if not shop.masters:
        return
    booked, desks = [], 1 if dice.chance(45) else scale.desks
    for entry in range(1, dice.between(*scale.calls) + 1):
        desk, item, day = dice.between(1, desks), dice.pick(shop.masters), day_within(shop, dice)
        call = dice.pick(("book", "book", "book", "cancel", "ask", "when", "run"))
        if call == "cancel":
            maker, number = dice.pick(booked or [(desk, entry)])
            shop.add("script", maker if dice.chance(60) else desk, call, "", "", "", number)
        elif call == "run":
            shop.add("script", desk, call, "", "", "", "")
        elif call == "ask":
            shop.add("script", desk, call, item, day, "", "")
        else:
            pieces = max(1, quantity(dice, scale, 25))
            booked += [(desk, entry)] if call == "book" else []
            shop.add("script", desk, call, item, day if call == "book" else "", pieces, "")
