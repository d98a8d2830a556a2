"""What a shop and its day show, in the words of which the names of cases are made; and what a refusal says."""
import csv
import io


def sections_of(text):
    """The records of each section of a day, header left out; for a section that comes twice those of all."""
    records, name = {}, None
    for line in text.split("\n"):
        if line.startswith("["):
            name = line.strip("[]")
            records.setdefault(name, []).append("")
        elif name and line:
            records[name][-1] += line + "\n"
    return {name: [row for text in texts for row in list(csv.reader(io.StringIO(text)))[1:]] for name, texts in records.items()}


def runs_words(runs):
    return ({1: "one-run", 2: "two-runs", 3: "three-runs"}.get(runs, "many-runs"),)


def least_and_steps(shop):
    """The minimum order quantity and the order multiple of each item for which they have effect."""
    return [(int(row[7]), int(row[8])) for row in shop.records["items"] if shop.version == 3 and row[4] != "fixed"]


def of_tables(shop, spelled):
    """What the tables and their spelling have."""
    records = shop.records
    pairs = [(row[0], row[1]) for row in records["bills"]]
    facts = {
        "no-items": not records["items"],
        "scrap": any(row[3] != "0" for row in records["items"]),
        "fixed-lots": any(row[4] == "fixed" for row in records["items"]),
        "periods": any(row[4] == "period" for row in records["items"]),
        "safety-stock": any(row[6] != "0" for row in records["items"]),
        "minimum-order-quantities": any(least > 1 for least, _ in least_and_steps(shop)),
        "order-multiples": any(step > 1 for _, step in least_and_steps(shop)),
        "open-receipts": any(row[3] != "0" for row in records["receipts"]),
        "two-lines-of-one-pair": len(set(pairs)) < len(pairs),
        "rows-of-no-pieces": any(row[3] == "0" for row in records["receipts"] + records["master"]),
        "odd-names": any(not name.isalnum() for name in shop.masters + shop.parts),
        "no-centres": not records["centres"],
        "a-mark": "\ufeff".encode() in spelled,
        "line-ends-of-two-bytes": b"\r\n" in spelled,
        "carriage-returns": b"\r" in spelled and b"\n" not in spelled,
    }
    return {word for word, holds in facts.items() if holds}


def of_day(text):
    """What the day has."""
    day = sections_of(text)
    replies = [row[7] for row in day["history"]]
    orders = day["orders"]
    facts = {
        "bookings": replies.count("booked") > 1,
        "a-booking": replies.count("booked") == 1,
        "short-answers": "short" in replies,
        "no-week": "no-week" in replies,
        "cancelled-bookings": "cancelled" in replies,
        "others-bookings": "not-yours" in replies,
        "what-does-not-stand": "not-standing" in replies,
        "no-orders": not orders,
        "late-orders": any(row[7] != "0" for row in orders),
        "firm-orders": any(row[2] == "firm" for row in orders),
        "reschedules": any(row[3] in ("IN", "OUT", "CANCEL") for row in day["messages"]),
        "surplus": any(row[2] == "surplus" for row in day["pegs"]),
        "service-parts": any(row[2] == "service" for row in day["pegs"]),
        "loads": any(row[2] != "0.000" for row in day["loads"]),
        "overloads": any(row[4] != "0.000" for row in day["loads"]),
    }
    return {word for word, holds in facts.items() if holds} | set(runs_words(len(day["run"])))


def of_refusal(words):
    """The fault and the table of the line on standard error, as 'refused: 8 number script 1', or the words too-large."""
    if words.startswith("too large: "):
        return {"too-large"}
    _, _, fault, table, _ = words.split(" ")
    return {fault, table}
