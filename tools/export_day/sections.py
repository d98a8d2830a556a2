"""The sections of a day: their columns, and what stands in the cells."""

from enum import Enum


class Kind(Enum):
    """What a cell holds; each may be empty too."""

    TEXT = "text"
    NUMBER = "number"
    WEEK = "week"
    MINUTES = "minutes"
    DATE = "date"


HISTORY = "history"
SECTIONS = {
    HISTORY: "entry,desk,call,item,week,quantity,number,reply,value",
    "run": "front,standing",
    "promises": "item,week,firm,booked,bucket,available",
    "plan": "item,week,gross,open,firm,planned,start,balance",
    "orders": "item,order,kind,due,quantity,start,release,late",
    "pegs": "item,week,need,number,parent,line,supply,source,quantity",
    "messages": "item,supply,source,message,value",
    "loads": "centre,week,load,capacity,over",
}
RUN_SECTIONS = tuple(SECTIONS)[1:]
TEXTS = {"call", "item", "reply", "kind", "need", "parent", "supply", "source", "message", "centre"}
WEEKS = {"week", "due", "release"}
MINUTES = {"load", "capacity", "over"}
# How cells are spelled, and how where a row has no quotes.
FORMS = {Kind.TEXT: r"[ -~]*", Kind.NUMBER: r"\d*", Kind.WEEK: r"\d{0,3}", Kind.MINUTES: r"(?:\d+\.\d{3})?"}
PLAIN = {**FORMS, Kind.TEXT: r"[ !#-+\--~]*"}
# Where a value is a week, and when: the column that says it, and its words.
WEEK_VALUES = {HISTORY: ("reply", ("week",)), "messages": ("message", ("IN", "OUT"))}


def columns(section):
    return SECTIONS[section].split(",")


def kind_of(column):
    if column in TEXTS:
        return Kind.TEXT
    if column in WEEKS:
        return Kind.WEEK
    return Kind.MINUTES if column in MINUTES else Kind.NUMBER


def dated_columns(section):
    """The columns of a section with its dates: of each the name, its kind, and whether it is the date of the one before."""
    for column in columns(section):
        yield column, kind_of(column), False
        if kind_of(column) is Kind.WEEK or (column == "value" and section in WEEK_VALUES):
            yield f"{column}_date", Kind.DATE, True
