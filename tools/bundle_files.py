"""Bundles as files, as `mrp plan --dir` and `mrp check --dir` read them."""

import os


def lay_tables(lines, folder):
    """Writes the sections of a bundle, which has these lines, to a folder, a file for each table."""
    os.makedirs(folder, exist_ok=True)
    table = None
    for line in lines:
        if line.startswith("["):
            if table:
                table.close()
            table = open(os.path.join(folder, line.strip()[1:-1] + ".csv"), "w", encoding="utf-8", newline="")
        elif table:
            table.write(line)
    if table:
        table.close()


def lay_bundle(path, folder):
    """The same of a bundle in a file."""
    with open(path, encoding="utf-8-sig") as lines:
        lay_tables(lines, folder)
