"""What is made of mangled tables is the bytes of the tables that they were made of, or nothing."""

import os
import unittest

from outside import is_installed

from .made_up import InAFolder, read_tables
from .mangled import Mangler, lay_files, lay_workbook

SHOPS = ("bicycle", "pumps", "bicycle-service", "bicycle-shop-days")
SEEDS = 12
SEEDS_OF_WORKBOOKS = 3


class Mangled(InAFolder):
    def each(self, seeds, theirs, lay):
        """Mangles each shop with so many seeds: how the imports without options end."""
        ends = set()
        for shop in SHOPS:
            for seed in range(seeds):
                with self.subTest(shop=shop, seed=seed):
                    folder, mangler = self.lay_shop(shop), Mangler(f"{shop} {seed}")
                    lay(mangler, folder, self.path(theirs))
                    ends.add(self.look(self.path(theirs), folder, mangler))
                self.doCleanups()
                self.setUp()
        return ends

    def look(self, source, folder, mangler):
        """With the options the tables are the old ones; without them too, where they are not refused. Answers that status."""
        expected = read_tables(folder)
        self.assertEqual(self.imports(source, *mangler.options)[1], expected)
        status, _, err = self.run_import(source, self.path("without"))
        if status == 0:
            self.assertEqual(read_tables(self.path("without")), expected)
        else:
            self.assertIn("could be", err)
            self.assertFalse(os.path.exists(self.path("without")))
        return status

    def test_files(self):
        self.assertEqual(self.each(SEEDS, "theirs", lay_files), {0, 1})

    @unittest.skipUnless(is_installed("openpyxl"), "openpyxl is not installed")
    def test_workbooks(self):
        self.assertEqual(self.each(SEEDS_OF_WORKBOOKS, "theirs.xlsx", lay_workbook), {0, 1})


if __name__ == "__main__":
    unittest.main()
