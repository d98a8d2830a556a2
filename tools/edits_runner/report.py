"""What is printed of a run, and what was counted."""

import resource
import threading
import time


class Report:
    """What is printed, and what was counted."""

    def __init__(self):
        self.printing, self.began = threading.Lock(), time.time()
        self.passed, self.failures, self.failed, self.controls, self.left = 0, [], 0, 0, 0

    def say(self, line):
        with self.printing:
            print(line, flush=True)

    def end(self, crate, edit, is_well, text):
        """Takes how an edit ended, by the name of its file."""
        line = f"{crate.name}/{edit}: {text}"
        self.say(line)
        with self.printing:
            self.passed += is_well
            self.failed += not is_well
            self.failures.extend([line] * (not is_well))

    def leave(self, count):
        """Takes so many edits as waiting for other turns."""
        with self.printing:
            self.left += count

    def fail_all(self, crate, count, why):
        """Takes so many edits of a crate as failed, since they cannot be tried."""
        line = f"{crate.name}: {why}, so {count} edits were not tried"
        if count:
            self.say(line)
            with self.printing:
                self.failed += count
                self.failures.append(line)

    def close(self, files):
        """Says what failed, and how many did; where there are files, each has to be among what was tried or waits, and some
        controls among the former."""
        tried = self.passed + self.failed
        if self.left:
            print(f"{self.left} edits wait for another turn")
        if files and (tried + self.left != len(files) or not self.controls):
            self.failed += 1
            print(f"{len(files)} edits stand in the crates' folders, {tried} were tried, {self.controls} of them controls")
        if not tried + self.left:
            self.failed += 1
            print("no edit was tried")
        used = resource.getrusage(resource.RUSAGE_CHILDREN)
        minutes = (used.ru_utime + used.ru_stime) / 60
        for line in self.failures:
            print(f"once more: {line}")
        print(f"edits took {(time.time() - self.began) / 60:.1f} minutes, {minutes:.1f} of processors")
        print(f"{self.passed} edits passed, {self.failed} failed")
        return 1 if self.failed else 0
