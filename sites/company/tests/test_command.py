"""The command line of sites/night, as far as it goes without Snakemake."""

import contextlib
import io
import json
import os
import signal
import time
from unittest.mock import patch

from ..batches import plan_batch
from ..command import main, own_files, sum_of
from ..states import read_state
from .made_up import InAFolder


class Command(InAFolder):
    def run_night(self, *words):
        out, err = io.StringIO(), io.StringIO()
        with contextlib.redirect_stdout(out), contextlib.redirect_stderr(err):
            status = main([self.top, "--program", self.program, *words])
        return status, out.getvalue(), err.getvalue()

    def test_check(self):
        self.lay_company("A,X,B,M,0,add\nB,X,C,M,0,add\n")
        self.assertEqual(self.run_night("--check"), (0, "right: 4 sites, in tiers of 2, 1, 1\n", ""))
        self.assertFalse(os.path.exists(self.path("night")))
        self.lay("links.csv", "site\n")
        self.assertEqual(self.run_night("--check")[0], 1)
        self.assertFalse(os.path.exists(self.path("out")))

    def ignore(self, number):
        """Ignores a signal during a test, as a shell does of what it runs in the background, or nohup."""
        self.addCleanup(signal.signal, number, signal.signal(number, signal.SIG_IGN))

    def test_a_signal_that_is_ignored_stays_so(self):
        self.lay_company("")
        self.ignore(signal.SIGHUP)
        self.assertEqual(self.run_night("--check")[0], 0)
        self.assertEqual(signal.getsignal(signal.SIGHUP), signal.SIG_IGN)

    def test_an_interrupt_ends_the_workflow_first(self):
        self.lay_company("")
        trap = f"trap 'echo ended > {self.top}/ended; exit 1' INT"
        loop = "for turn in $(seq 100); do sleep 0.05; done"
        os.chmod(self.lay("bin/snakemake", f"#!/bin/sh\n{trap}\necho > {self.top}/begun\n{loop}\n"), 0o755)

        def interrupt(running):
            while running.poll() is None and not os.path.exists(self.path("begun")):
                time.sleep(0.01)
            raise KeyboardInterrupt

        self.ignore(signal.SIGINT)
        paths = {"PATH": f"{self.path('bin')}:{os.environ['PATH']}"}
        with patch.dict(os.environ, paths), patch("company.command.is_over", interrupt):
            self.assertEqual(self.run_night(), (130, "", "night: interrupted; the same command takes it up\n"))
        self.assertEqual(self.read("ended"), "ended\n")

    def test_plans_are_made_from_this_package_too(self):
        self.lay_company("")
        with patch("company.command.shutil.which", lambda name: name), patch("company.command.run_snakemake"):
            self.run_night()
        self.assertEqual(json.loads(self.read("night/night.json"))["sum"], sum_of([self.program, *own_files()]))
        self.assertIn("drp.py", [os.path.basename(path) for path in own_files()])

    def test_refused_links(self):
        self.lay_company("A,X,B,M,0,add\nA,X,C,M,0,ad\n")
        status, out, err = self.run_night()
        self.assertEqual((status, out), (1, ""))
        self.assertEqual(err, "refused: links.csv:3: mode: 'ad'; expected add or replace\nnight: nothing is planned\n")
        self.assertIn("the links are refused", self.read("out/index.html"))

    def test_what_is_not_there(self):
        self.assertEqual(self.run_night()[0], 2)
        self.lay_company("")
        with patch("company.command.shutil.which", lambda name: None):
            self.assertEqual(self.run_night()[2], "night: there is no program snakemake: apt-get install snakemake\n")
        self.assertIn("there is no such profile", self.run_night("--profile", "none")[2])
        with patch("company.command.shutil.which", lambda name: name):
            self.assertIn("there is no such program", self.run_night("--program", "/no/mrp")[2])

    def test_two_nights_at_a_time(self):
        self.lay_company("")

        def second(given, profile, batches):
            self.assertEqual(self.run_night(), (2, "", f"night: {self.top}: another night of this company is at work\n"))

        with patch("company.command.shutil.which", lambda name: name), patch("company.command.run_snakemake", second):
            status, out, err = self.run_night()
        self.assertEqual((status, out), (1, "4 sites: 0 planned, 0 refused, 4 stopped, 0 waits; 0 anew\n"))
        self.assertIn("A: stopped: its job did not run, or was ended before it\n", err)
        self.assertIsNone(read_state(self.path("out"), "A"))

    def test_a_workflow_that_plans(self):
        company = self.lay_company("A,X,B,M,0,add\n")

        def jobs(given, profile, batches):
            for batch in batches:
                with contextlib.redirect_stdout(io.StringIO()):
                    plan_batch(self.top, batch)

        with patch("company.command.shutil.which", lambda name: name), patch("company.command.run_snakemake", jobs):
            self.assertEqual(self.run_night("--batch", "1"), (0, "4 sites: 4 planned, 0 refused, 0 stopped, 0 waits; 4 anew\n", ""))
            self.assertEqual(self.run_night("--batch", "1"), (0, "4 sites: 4 planned, 0 refused, 0 stopped, 0 waits; 0 anew\n", ""))
        self.assertEqual(len(company.names), 4)
        self.assertIn("<b>4</b>planned", self.read("out/index.html"))
