"""Where the runs of kept.py keep a site: in a file, or in the parts of a folder."""
import os

import kept_parts
from kept_devices import chance


class OneFile:
    """An archive in one file."""

    def __init__(self, name):
        self.name = self.judged = name

    def keep(self, *words):
        return ["keep", self.name, *words]

    def gathered(self):
        """One file that has all of it: `judged`."""
        return self.judged

    def is_begun(self):
        """Whether a run has made its tables."""
        return kept_parts.is_begun(self.name)

    def judge(self, judge, name, devices, all_of_it=False):
        judge.judge(name, self.gathered(), devices, all_of_it)

    def goes_on(self):
        """Between two runs."""

    def is_over(self, judge):
        """Behind all runs."""


class Parts(OneFile):
    """An archive in the parts of a folder; the next run begins one with this share."""

    def __init__(self, name, share=0.1):
        super().__init__(name)
        self.share = share
        self.judged = f"{name}.together"
        os.mkdir(name)

    def keep(self, *words):
        return [*super().keep(*words), *kept_parts.FULL]

    def gathered(self):
        return kept_parts.together(self.name, self.judged)

    def is_begun(self):
        return any(kept_parts.is_begun(f"{self.name}/{part}") for part in kept_parts.names(self.name)[:1])

    def goes_on(self):
        if chance.random() < self.share and self.is_begun():
            newest = f"{self.name}/{kept_parts.names(self.name)[-1]}"
            if kept_parts.is_begun(newest):
                kept_parts.fill(newest)

    def is_over(self, judge):
        numbers = [int(name[:6]) for name in kept_parts.names(self.name)]
        judge.is_right("parts are begun", numbers == list(range(1, len(numbers) + 1)) and len(numbers) > 1, numbers)
