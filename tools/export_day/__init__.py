"""Writes the sections of a day, its history and one run, to

  a folder              TO: history.csv, run.csv, promises.csv, plan.csv, orders.csv, pegs.csv, messages.csv, loads.csv
  a workbook            TO.xlsx, a sheet a section
  a PostgreSQL database TO.toml, which names it: a table a section, in place of the run that was there before

  tools/export DAY TO [--run K] [--dir D] [--replace]

DAY is a file with a day, as `mrp plan` writes it, or - for standard input.

  --run K    run K, counted from 1; by default the last
  --dir D    the tables that were planned: behind each week stands the Monday on which it begins; a day that contradicts them is
             refused
  --replace  TO may be there already, and is replaced; a database needs no such word

All of it is written, or nothing. docs/TABLES.md has examples. The status is 0 where it is written; 1 where something is refused
and nothing is written; 2 with wrong words.
"""
