"""The cases of limits: a small shop with as many records of a table as the table takes, and with one more."""

import os
import subprocess
from dataclasses import dataclass

from carry_cases import SECONDS

TOP = os.path.dirname(os.path.dirname(os.path.realpath(__file__)))
SHOP = os.path.join(TOP, "shops", "bicycle.bundle")

# A table, a record with its number as #, how many it takes beside those of the shop, and a line of the day that they then make; with one
# more, the record that is refused.
LIMITS = [
    ("items", "P#,part,1,0,lfl,0,0", 19_997, "P19997,6,0,0,0,0,0,0", 20_001),
    ("centres", "C#,0", 999, "C999,6,0.000,0.000,0.000", 1_001),
    ("receipts", "FRAME,X#,2025-01-22,15", 99_999, "FRAME,,surplus,,,,open,X99999,15", 100_001),
    ("bills", "BIKE,WHEEL,1", 99_998, "WHEEL,4,parent,4,BIKE,100000,planned,2,3", 100_001),
    ("routings", "FRAME,1#,WELD,0,0,0", 49_999, "WELD,1,175.000,100.000,75.000", 50_001),
    ("master", "BIKE,forecast,2025-01-27,1", 99_996, "BIKE,4,100002,0,0,99994,25,0", 100_001),
    ("script", "1,ask,BIKE,2025-01-06,,", 99_993, "100000,1,ask,BIKE,1,,,available,0", 100_001),
]


def with_records(table, record, count):
    """The shop with so many records more in a table."""
    with open(SHOP, encoding="utf-8") as held:
        front, line, back = held.read().partition(f"[{table}]\n")
    kept, mark, others = back.partition("\n[")
    records = "".join(f"{record.replace('#', str(number))}\n" for number in range(1, count + 1))
    return f"{front}{line}{kept.rstrip()}\n{records}{mark[1:]}{others}"


@dataclass
class Limit:
    """A shop with so many more records of a table, and how its plan ends: with this line in its day, or refused with this line."""

    table: str
    record: str
    count: int
    line: str
    is_taken: bool

    @property
    def name(self):
        return f"{self.table} {'at their limit' if self.is_taken else 'past their limit'}"

    def fault(self, program):
        """What is not as it must be, if anything is."""
        given = with_records(self.table, self.record, self.count).encode()
        ended = subprocess.run([program, "plan"], input=given, capture_output=True, timeout=SECONDS, check=False)
        said = ended.stderr.decode()
        if not self.is_taken:
            is_well = (ended.returncode, ended.stdout, said) == (1, b"", f"{self.line}\n")
            return None if is_well else f"status {ended.returncode}, '{said}', and not '{self.line}'"
        if ended.returncode or said:
            return f"status {ended.returncode}, '{said}'"
        return None if f"\n{self.line}\n".encode() in ended.stdout else f"'{self.line}' is missing"


def limit_cases():
    for table, record, count, line, refused in LIMITS:
        yield Limit(table, record, count, line, True)
        yield Limit(table, record, count + 1, f"refused: 20 too-many {table} {refused}", False)
