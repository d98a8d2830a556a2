"""How a shop's tables are spelled as a bundle: plainly, or in one of the other forms that mean the same."""
from .shop import TABLES

MARK = "\ufeff"


def plain(shop):
    return bundle(sections(shop))


def sections(shop):
    """For each table its name and its text."""
    return [(table, table_text(shop, table)) for table in TABLES]


def table_text(shop, table):
    rows = [shop.columns(table)] + shop.records[table]
    return "".join(",".join(cell_text(cell) for cell in row) + "\n" for row in rows)


def cell_text(cell):
    return quoted(cell) if any(c in cell for c in ',"\r\n') else cell


def quoted(cell):
    return '"' + cell.replace('"', '""') + '"'


def bundle(parts):
    return "".join(f"[{name}]\n{text}" for name, text in parts).encode()


def varied(shop, dice):
    """The same tables in another form: sections in another order, other line ends, marks, quotes, blank lines, zeros in front."""
    end = dice.pick(("\n", "\r\n", "\r\n", "\r"))
    quotes, zeros = dice.pick((0, 30)), dice.pick((0, 10))
    text = MARK if dice.chance(25) else ""
    for table in dice.shuffled(TABLES):
        text += f"[{table}]{end}"
        text += MARK if dice.chance(10) else ""
        for row in [shop.columns(table)] + shop.records[table]:
            text += end if dice.chance(6) else ""
            text += ",".join(varied_cell(cell, dice, quotes, zeros) for cell in row) + end
    return text.encode()


def varied_cell(cell, dice, quotes, zeros):
    if cell.isdigit() and len(cell) < 7 and dice.chance(zeros):
        cell = "0" * dice.between(1, 40) + cell
    return quoted(cell) if cell and dice.chance(quotes) else cell_text(cell)
