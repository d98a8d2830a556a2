"""Makes a folder TO of nine tables, as `mrp plan --dir TO` reads them, from

  a workbook            FROM.xlsx, in which each table has a sheet of its name
  a folder of files     items.csv and so on: commas, semicolons or tabs; UTF-8 or UTF-16
  a PostgreSQL database FROM.toml, with a query for each table

  tools/import FROM TO [--names FILE] [--dates dmy|mdy] [--decimal point|comma] [--empty TABLES] [--replace] [--brief]

Columns may stand in any order, with capitals in their heads and others between them; dates may be written 20/01/2025 or
20.01.2025, numbers 12.0 or 1,000. Whatever is written otherwise than it was found is listed on standard output. What can not be
told for sure is refused with its cell, on standard error, and then nothing is written. At the end `mrp` tells the faults of TO: all
by `mrp inspect`, or the first by `mrp plan` where there is no such command.

  --names FILE    which file or sheet is which table, which head is which column; of a folder also its names.toml
  --dates ORDER   of dates that could be both: dmy, the day first, or mdy, the month first
  --decimal MARK  of numbers as 1,000 that could be both: the decimal mark is a point or a comma
  --empty TABLES  these tables, with commas between them, are not in FROM and get no records
  --replace       TO may have tables already, which are replaced; a script with records not by one without, but for --empty script
  --brief         of many changes in a column, lists the first three and how many more there are

docs/TABLES.md has examples. The status is 0 where the tables are written; 1 where something is refused and nothing is
written; 2 with wrong words; 3 where the tables are written and mrp refuses them.
"""
