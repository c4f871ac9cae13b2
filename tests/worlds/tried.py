"""A program that isn't proved, run by `rt try` from within a copy of the repository."""
import pathlib
import re
import subprocess
import tempfile

from program import Program


class NotBuilt(Exception):
    """There is no program to run."""


class Tried(Program):
    """The program of the crate in this folder, built anew for each list of schedules."""

    def __init__(self, folder, arguments):
        super().__init__(arguments)
        self.folder, self.builds = pathlib.Path(folder), 0

    def said_of_each(self, schedules):
        """Each schedule, and what the program says of each slot of it: all in one build."""
        schedules = list(schedules)
        if not schedules:
            return
        with tempfile.TemporaryDirectory(prefix="tried-") as cases:
            for number, schedule in enumerate(schedules):
                text = "".join(f"{it}\n" for it in schedule.lines)
                (pathlib.Path(cases) / f"{number:04}").write_text(text)
            words = ["rt", "try", "--cases", cases, "--", *self.command]
            how = {"stdin": subprocess.DEVNULL, "capture_output": True, "text": True}
            ran = subprocess.run(words, cwd=self.folder, **how)
        self.builds += 1
        parts = re.split(r"^== (\d{4})\n", ran.stdout, flags=re.M)
        printed = {int(number): text for number, text in zip(parts[1::2], parts[2::2])}
        for number, schedule in enumerate(schedules):
            if number not in printed:
                raise NotBuilt(f"rt try says nothing of it: {ran.stderr[-600:]}")
            yield schedule, self.read(schedule.lines, printed[number], len(schedule.worlds))
