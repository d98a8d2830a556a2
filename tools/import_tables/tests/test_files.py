"""Files as spreadsheets save them."""

import errno
import os
import shutil
import unittest
from unittest.mock import patch

from import_tables.tables import TABLES

from .made_up import BICYCLE, InAFolder, read_tables, rows_of

ITEMS = "item,class,lead,scrap,lot,size,safety\nBIKE,master,1,0,lfl,0,0\nFRAME,part,1,100,fixed,20,5\nWHEEL,part,2,0,period,2,0\n"
STOCK = "item,onhand\nBIKE,10\nFRAME,12\nWHEEL,30\n"


class Forms(InAFolder):
    """Each form gives the tables of the bicycle shop."""

    def imports_bicycle(self, *words, **changed):
        out, tables = self.imports(self.lay_shop(**changed), *words)
        self.assertEqual(tables, read_tables(BICYCLE))
        return out

    def test_clean_tables_stay_as_they_are(self):
        self.assertIn("cells written otherwise than they were found: 0\n", self.imports_bicycle())

    def test_semicolons(self):
        out = self.imports_bicycle(stock=STOCK.replace(",", ";"))
        self.assertIn("stock.csv: cells are separated by semicolons\n", out)

    def test_tabs(self):
        out = self.imports_bicycle(stock=STOCK.replace(",", "\t"))
        self.assertIn("stock.csv: cells are separated by tabs\n", out)

    def test_commas_in_numbers_of_files_without_commas(self):
        """Beside numbers without a mark too, such a comma may stand before decimals."""
        great = STOCK.replace(",10", ',"1,000"')
        self.assertIn(b"BIKE,1000\n", self.imports(self.lay_shop(stock=great))[1]["stock"])
        for separator in ";\t|":
            self.doCleanups()
            self.setUp()
            with self.subTest(separator):
                told = self.refuses(self.lay_shop(stock=STOCK.replace(",", separator).replace("10", "1,000")))
                self.assertIn("stock.csv:2: onhand: '1,000' could be 1000 or 1; expected a number that can be only one", told)

    def test_a_line_that_names_the_separator(self):
        for end in ("\n", "\r\n", "\r"):
            self.imports_bicycle(stock=f"SEP=;{end}" + STOCK.replace(",", ";").replace("\n", end))
            self.doCleanups()
            self.setUp()

    def test_utf_16(self):
        for coding in ("utf-16", "utf-16-le", "utf-16-be"):
            with self.subTest(coding):
                out = self.imports_bicycle(stock=STOCK.replace(",", "\t").replace("\n", "\r\n").encode(coding))
                self.assertIn("stock.csv: read as UTF-16\n", out)
            self.doCleanups()
            self.setUp()

    def test_byte_order_mark(self):
        self.imports_bicycle(stock="\ufeff" + STOCK)

    def test_other_line_ends(self):
        self.imports_bicycle(stock=STOCK.replace("\n", "\r"), items=ITEMS.replace("\n", "\r\n"))

    def test_other_order_of_columns(self):
        out = self.imports_bicycle(stock="onhand,item\n10,BIKE\n12,FRAME\n30,WHEEL\n")
        self.assertIn("stock.csv: the columns are put in order: item,onhand\n", out)

    def test_capitals_and_spaces_in_heads(self):
        out = self.imports_bicycle(stock="ITEM, On Hand \nBIKE,10\nFRAME,12\nWHEEL,30\n")
        self.assertIn("stock.csv: heads: 'ITEM' is item, 'On Hand' is onhand\n", out)

    def test_extra_columns(self):
        out = self.imports_bicycle(stock="item,Lager,onhand,\nBIKE,Köln,10,\nFRAME,,12,x\nWHEEL,,30,\n")
        self.assertIn("stock.csv: a column is left out: 'Lager', 1 cell\n", out)
        self.assertIn("stock.csv: a column is left out: one without a head, 1 cell\n", out)

    def test_an_extra_column_may_have_any_bytes(self):
        self.imports_bicycle(stock="item,Lager,onhand\nBIKE,Köln,10\nFRAME,,12\nWHEEL,,30\n".encode("latin-1"))

    def test_titles_above_the_heads(self):
        out = self.imports_bicycle(stock="Stock of, Jan 2025\n;\nPlant;1\nItem;On hand\nBIKE;10\nFRAME;12\nWHEEL;30\n")
        self.assertIn("stock.csv: rows above the heads are left out: rows 1, 3\n", out)

    def test_rows_of_nothing(self):
        out = self.imports_bicycle(stock="\n,\nitem,onhand\nBIKE,10\n\n , \nFRAME,12\n,\nWHEEL,30\n,\n,\n")
        self.assertIn("stock.csv: rows of nothing are left out: rows 2, 6, 8, 10 to 11\n", out)

    def test_short_rows(self):
        script = "desk,call,item,date,quantity,number\n1,book,BIKE,2025-01-20,12\n1,run\n"
        out, tables = self.imports(self.lay_shop(script=script))
        self.assertEqual(tables["script"], b"desk,call,item,date,quantity,number\n1,book,BIKE,2025-01-20,12,\n1,run,,,,\n")
        self.assertIn("script.csv: rows of fewer cells are filled up with empty ones: rows 2 to 3\n", out)

    def test_spaces_at_ends(self):
        out = self.imports_bicycle(stock="item,onhand\nBIKE ,10\nFRAME\u00a0, 12\nWHEEL,30\n")
        self.assertIn("stock.csv:2: item: 'BIKE ' is written BIKE\n", out)
        self.assertIn("cells written otherwise than they were found: 3\n", out)

    def test_words_in_capitals(self):
        out = self.imports_bicycle(items=ITEMS.replace("lfl", "LFL").replace("part", "Part"))
        self.assertIn("items.csv:2: lot: 'LFL' is written lfl\n", out)

    def test_a_calendar_in_another_order(self):
        out = self.imports_bicycle(calendar="key,value\nHoliday,2025-01-20\nWeeks,6\nStart,2025-01-06\nWorkdays,1111100\n")
        self.assertIn("calendar.csv: the rows are put in order: version, start, weeks, workdays, holiday\n", out)

    def test_names_of_files(self):
        source = self.lay_shop()
        for name, other in (("items.csv", "ITEMS.CSV"), ("stock.csv", "Stock.txt"), ("bills.csv", "bills.csv.txt")):
            os.rename(os.path.join(source, name), os.path.join(source, other))
        self.lay("from/notes.txt", "call the joiner")
        out, tables = self.imports(source)
        self.assertEqual(tables, read_tables(BICYCLE))
        self.assertIn("notes.txt: is no table, and not read\n", out)

    def test_files_of_all_sheets_of_a_workbook(self):
        source = self.lay_shop()
        for name in os.listdir(source):
            os.rename(os.path.join(source, name), os.path.join(source, f"Shop 5-{name.capitalize()}"))
        self.assertEqual(self.imports(source)[1], read_tables(BICYCLE))
        os.rename(os.path.join(source, "Shop 5-Stock.csv"), os.path.join(source, "old-Stock.csv"))
        shutil.rmtree(self.path("to"))
        self.assertIn("\nstock: no file of that name; ", self.refuses(source))

    def test_empty_cells_stay_empty(self):
        _, tables = self.imports(self.lay_shop(stock="item,onhand\nBIKE,\n,12\n"))
        self.assertEqual(tables["stock"], b"item,onhand\nBIKE,\n,12\n")

    def test_tables_that_are_not_there(self):
        _, tables = self.imports(self.lay_shop(routings=None, stock=";;\n"), "--empty", "routings,stock")
        self.assertEqual((tables["routings"], tables["stock"]), (b"item,op,centre,setup,run,offset\n", b"item,onhand\n"))

    def test_quotes(self):
        source = self.lay_shop("tables-and-chairs")
        _, tables = self.imports(source)
        for table, text in read_tables(source).items():
            self.assertEqual(rows_of(tables[table]), rows_of(text))

    def test_brief(self):
        stock = "item,onhand\n" + "".join(f"PART-{number} ,1\n" for number in range(9))
        out, _ = self.imports(self.lay_shop(stock=stock), "--brief")
        self.assertEqual(out.count("stock.csv:"), 4)
        self.assertIn("stock.csv: item: 6 more like these\n", out)
        self.assertIn("cells written otherwise than they were found: 9\n", out)


class Versions(InAFolder):
    """Tables of versions 2 and 3."""

    def test_as_they_are(self):
        for shop in ("bicycle-shop-days", "bicycle-service"):
            with self.subTest(shop):
                source = self.lay_shop(shop)
                self.assertEqual(self.imports(source)[1], read_tables(source))
            self.doCleanups()
            self.setUp()

    def test_version_3_with_a_zero_in_front(self):
        calendar = "key,value\nversion,03\nstart,2025-01-06\nweeks,6\nworkdays,1111100\n"
        source = self.lay_shop("bicycle-service", calendar=calendar)
        self.assertEqual(self.imports(source)[1], read_tables(source))

    def test_columns_of_version_3_anywhere(self):
        items = "Step,Item,Class,Lead,Scrap,Lot,Size,Safety,Least\n1,BIKE,Master,3,0,lfl,0,0,0\n12,WHEEL,part,8,0,period,2,0,50\n"
        _, tables = self.imports(self.lay_shop("bicycle-service", items=items))
        expected = (
            "item,class,lead,scrap,lot,size,safety,least,step\nBIKE,master,3,0,lfl,0,0,0,1\nWHEEL,part,8,0,period,2,0,50,12\n"
        )
        self.assertEqual(tables["items"], expected.encode())

    def test_they_are_lost(self):
        err = self.refuses(self.lay_shop("bicycle-service", items=ITEMS))
        self.assertIn("items.csv: no column is called least, step; expected it in version 3\n", err)

    def test_a_version_that_can_not_be_told(self):
        err = self.refuses(self.lay_shop("bicycle-service", calendar="key,value\nversion,three\nstart,2025-01-06\n"))
        self.assertEqual(len(err.splitlines()), 2)
        self.assertIn("calendar.csv:2: value: 'three' is no number of", err)

    def test_they_are_there_in_another_version(self):
        rows = ITEMS.splitlines()
        items = "\n".join([f"{rows[0]},least,step", *(f"{row},0,1" for row in rows[1:])])
        self.assertIn(
            "items.csv: there are columns least, step, which only tables of version 3 have",
            self.refuses(self.lay_shop(items=items)),
        )


class Refusals(InAFolder):
    """What can not be told is refused with its cell."""

    def test_cells(self):
        for stock, line in (
            ("item,onhand\nBIKE,10.5\n", "stock.csv:2: onhand: '10.5' has decimals; expected a whole number\n"),
            (
                "item,onhand\nBIKE,-1\n",
                "stock.csv:2: onhand: '-1' is no number of pieces, weeks or minutes; expected a whole number\n",
            ),
            ("item,onhand\nBIKE,1E+05\n", "stock.csv:2: onhand: '1E+05' is no number of"),
            ("item,onhand\n\n,\nBIKE,ten\n", "stock.csv:4: onhand: 'ten' is no number of"),
            (
                "ITEM;ONHAND\nM\u00fcller;1\n",
                "stock.csv:2: ITEM: 'M\u00fcller' has a sign that is not printable ASCII; expected a name",
            ),
            (
                "item,onhand\nBIKE,1,000\n",
                "stock.csv:2: the row has more cells than there are heads, 2; expected a cell with a comma in quotes\n",
            ),
        ):
            with self.subTest(stock):
                self.assertIn(line, self.refuses(self.lay_shop(stock=stock)))
            self.doCleanups()
            self.setUp()

    def test_words(self):
        err = self.refuses(self.lay_shop(items=ITEMS.replace("fixed", "FOQ")))
        self.assertIn("items.csv:3: lot: 'FOQ' is none of the words; expected lfl or fixed or period\n", err)

    def test_a_byte_that_is_no_text(self):
        self.assertIn("stock.csv:2: item: ", self.refuses(self.lay_shop(stock=b"item,onhand\nM\xfcller,1\n")))

    def test_cells_are_told_beside_tables_that_are_not_there(self):
        err = self.refuses(self.lay_shop(calendar=None, bills="parent,per\n", stock="item,onhand\nBIKE,x\n"))
        places = [line.split(":")[0] for line in err.splitlines()[:-1]]
        self.assertEqual(places, ["calendar", "bills.csv", "stock.csv"])

    def test_all_are_told(self):
        err = self.refuses(self.lay_shop(stock="item,onhand\nBIKE,x\nFRAME,y\n", centres="centre,minutes\nWELD,z\n"))
        self.assertEqual(
            [line.split(" ")[0] for line in err.splitlines()[:-1]], ["centres.csv:2:", "stock.csv:2:", "stock.csv:3:"]
        )

    def test_many_alike_are_counted(self):
        err = self.refuses(self.lay_shop(stock="item,onhand\n" + "".join(f"P{number},x\n" for number in range(100))))
        self.assertEqual(len(err.splitlines()), 22)
        self.assertIn("stock.csv: onhand: 80 more like these\n", err)

    def test_heads(self):
        for titles in ("", "Stock of a Monday\n\n"):
            err = self.refuses(self.lay_shop(stock=f"{titles}item,pieces\nBIKE,10\n"))
            self.assertIn(
                "stock.csv: no column is called 'onhand'; its heads are 'item', 'pieces'; names.toml may say which it is\n", err
            )
            self.doCleanups()
            self.setUp()
        err = self.refuses(self.lay_shop(stock="item,onhand,On Hand\nBIKE,10,12\n"))
        self.assertIn("stock.csv: several columns are called 'onhand'; expected one\n", err)

    def test_tables(self):
        source = self.lay_shop(bills=None, centres="", stock="item,onhand\n")
        self.lay("from/stock.txt", STOCK)
        err = self.refuses(source, "--empty", "items")
        self.assertRegex(err, r"(?m)^bills: no file of that name among .*; names.toml \(\[tables\]\) says which it is$")
        self.assertIn("centres.csv: is empty; expected the heads centre,minutes\n", err)
        self.assertIn("stock: stock.csv and stock.txt are both there; expected one\n", err)
        self.assertIn("items.csv: is there, and --empty has items; expected one of them\n", err)

    def test_tables_that_a_shop_may_not_have(self):
        """The others are never to be empty."""
        os.mkdir(self.path("from"))
        lines = self.refuses(self.path("from")).splitlines()
        told = {line.partition(":")[0]: line for line in lines[:-1]}
        self.assertEqual(list(told), list(TABLES))
        for table, line in told.items():
            may_be = table not in ("calendar", "items", "bills")
            empty = f"; where there is none, --empty {table}" if may_be else ""
            self.assertEqual(line, f"{table}: no file of that name; names.toml ([tables]) says which it is{empty}")

    def test_many_files(self):
        source = self.lay_shop(items=None)
        for number in range(30):
            self.lay(f"from/{number:02}.csv", "a,b\n")
        others = ", ".join(f"{number:02}.csv" for number in range(20))
        self.assertIn(f"items: no file of that name among {others}, ..; names.toml ", self.refuses(source))

    def test_files(self):
        for stock, line in (
            (b"PK\x03\x04rest", "stock.csv: is a workbook under another name"),
            (b"\xff\xfei\0t\0", "stock.csv: no column is called 'item'"),
            (b"\xff\xfei\0t\0e", "stock.csv: is no text in UTF-16, though it begins like one\n"),
            (b'item,onhand\nBIKE,1\n"WHEEL,2\n', "stock.csv:3: the row can not be read: unexpected end of data\n"),
            (b'item,onhand\n"BI"KE,1\n', "stock.csv:2: the row can not be read: ',' expected after '\"'\n"),
        ):
            with self.subTest(stock):
                self.assertIn(line, self.refuses(self.lay_shop(stock=stock)))
            self.doCleanups()
            self.setUp()

    def test_sources(self):
        stock = self.lay("stock.csv", STOCK)
        self.assertIn("stock.csv: expected a folder, a workbook .xlsx or a file of queries .toml\n", self.refuses(stock))
        self.assertIn("none: No such file or directory\n", self.refuses(self.path("none")))
        self.assertIn("shop.ods: is a workbook of another form; save it as .xlsx\n", self.refuses(self.path("shop.ods")))
        self.assertIn("No such file", self.refuses(self.path("none.xlsx")) + self.refuses(self.path("none.toml")))


class Folders(InAFolder):
    """The folder that is written."""

    def test_one_that_is_empty(self):
        os.mkdir(self.path("to"))
        self.imports(BICYCLE)

    def test_one_that_has_something(self):
        self.lay("to/stock.csv", "old")
        status, _, err = self.run_import(BICYCLE, self.path("to"))
        self.assertEqual(status, 1)
        self.assertIn("is not empty; --replace replaces what is there\n", err)
        self.assertEqual(os.listdir(self.path("to")), ["stock.csv"])

    def test_one_of_tables_is_replaced(self):
        self.lay("to/stock.csv", "old")
        self.assertEqual(self.imports(BICYCLE, "--replace")[1], read_tables(BICYCLE))
        self.assertEqual(os.listdir(self.top), ["to"])

    def test_one_of_other_files_is_not_replaced(self):
        self.lay("to/stock.csv", "old")
        self.lay("to/thesis.txt", "dear")
        status, _, err = self.run_import(BICYCLE, self.path("to"), "--replace")
        self.assertEqual(status, 1)
        self.assertIn("has thesis.txt, which --replace would delete", err)
        self.assertEqual(sorted(os.listdir(self.path("to"))), ["stock.csv", "thesis.txt"])

    def test_a_refusal_leaves_the_old_tables(self):
        self.lay("to/stock.csv", "old")
        status, _, _ = self.run_import(self.lay_shop(stock="item,onhand\nBIKE,x\n"), self.path("to"), "--replace")
        self.assertEqual((status, os.listdir(self.path("to"))), (1, ["stock.csv"]))

    def test_the_folder_itself_is_cleaned(self):
        source = self.lay_shop(stock=STOCK.replace(",", ";"))
        self.assertEqual(self.run_import(source, source, "--replace")[0], 0)
        self.assertEqual(read_tables(source), read_tables(BICYCLE))

    def test_an_order_book_that_would_go(self):
        """Calls of the old tables are not replaced by none, unless that is asked for, and told."""
        script = "desk,call,item,date,quantity,number\n"
        self.imports(BICYCLE)
        before = read_tables(self.path("to"))
        carried = f"script: has no records, and {self.path('to')}/script.csv, which it would replace, has 7; expected them to be carried over, or --empty script\n"
        for changed in (script, None):
            self.lay_shop(script=changed)
            status, _, err = self.run_import(self.path("from"), self.path("to"), "--replace")
            self.assertEqual((status, read_tables(self.path("to"))), (1, before))
            self.assertIn(carried, err)
            shutil.rmtree(self.path("from"))
        for changed in (script, None):
            self.lay_shop(script=changed)
            out, tables = self.imports(self.path("from"), "--replace", "--brief", "--empty", "script")
            self.assertIn("script: records of the old script.csv that went: 7\n", out)
            self.assertEqual(tables, {**before, "script": script.encode()})
            shutil.rmtree(self.path("from"))
            self.imports(BICYCLE, "--replace")

    def test_an_order_book_that_can_not_be_laid_out(self):
        self.imports(BICYCLE)
        source = self.lay_shop(script="desk,call\n1,run\n")
        _, _, err = self.run_import(source, self.path("to"), "--replace")
        self.assertIn("script.csv: no column is called ", err)
        self.assertNotIn("has no records", err)

    def test_an_order_book_without_records(self):
        source = self.lay_shop(script="desk,call,item,date,quantity,number\n")
        self.imports(source)
        self.assertNotIn("went", self.imports(source, "--replace")[0])

    def test_a_disk_that_is_full(self):
        self.lay("to/stock.csv", "old")
        cells = iter(range(40))

        def write(cell):
            if next(cells, None) is None:
                raise OSError(errno.ENOSPC, os.strerror(errno.ENOSPC))
            return cell

        with patch("import_tables.folder.cell_text", write):
            status, _, err = self.run_import(BICYCLE, self.path("to"), "--replace")
        self.assertEqual((status, err), (1, f"{self.path('to')}: No space left on device\nimport: nothing is written\n"))
        self.assertEqual((os.listdir(self.top), os.listdir(self.path("to"))), (["to"], ["stock.csv"]))

    def test_no_folder_above(self):
        self.assertEqual(self.run_import(BICYCLE, self.path("a", "b"))[0], 1)


if __name__ == "__main__":
    unittest.main()
