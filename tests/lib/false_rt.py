#!/usr/bin/env -S python3 -I
"""In place of `rt`, for tests/wrapper: it proves nothing, and notes what it is asked for.

A crate is its file src/main.rt, a text. What is built of it has that text, and so the program says
what it was made from. Words in the text have it fail, hang, or wait for another crate's proof.
"""
import os
import pathlib
import sys
import time

NOTES = pathlib.Path(os.environ["NOTES"])
HERE = pathlib.Path.cwd()
NAME = HERE.name
# Seconds after which a proof gives up that waits for something.
PATIENCE = 60


def note(text):
    with open(NOTES / "said", "a") as said:
        said.write(text + "\n")


def stop(why):
    print(why)
    sys.exit(1)


def wait_for(name):
    """Says that this crate's proof is here, how far it is, and waits for a file."""
    print("so far: 0 of 2 functions checked\nso far: 1 of 2 functions checked", flush=True)
    new = NOTES / f"{NAME}.new"
    new.write_text(str(os.getpid()))
    new.replace(NOTES / f"{NAME}.here")
    end = time.monotonic() + PATIENCE
    while not (NOTES / name).exists():
        if time.monotonic() > end:
            stop(f"{name} didn't come")
        time.sleep(0.01)


def built_below():
    """What was built of each crate below, all of which have to be here, and no others."""
    lines = (HERE.parent.parent / "crates.txt").read_text().splitlines()
    below = {it.split(":")[0] for it in lines} - {NAME}
    here = {it.name: it / "out/rlib/stamp" for it in HERE.parent.iterdir() if it != HERE}
    if {*here} != below or not all(it.is_file() for it in here.values()):
        stop("the crates below aren't those of crates.txt, or aren't built")
    return [here[it].read_text() for it in sorted(here)]


def replace(file, text):
    """Writes a file anew, without writing into one that may have a second name."""
    file.parent.mkdir(parents=True, exist_ok=True)
    file.unlink(missing_ok=True)
    file.write_text(text)


def prove(verb):
    note(f"begin {NAME} {verb}")
    text, below = (HERE / "src/main.rt").read_text(), built_below()
    if "kept" in text and not (HERE / "out/incremental").is_dir():
        stop("what was kept of the last proof isn't here")
    (HERE / "out/incremental").mkdir(parents=True, exist_ok=True)
    if "hang" in text:
        wait_for("go")
    if "meet" in text:
        wait_for("left.here" if NAME == "right" else "right.here")
    if "fails" in text:
        stop(f"{HERE}/src/main.rt:1: it fails")
    if verb == "lib":
        replace(HERE / "out/rlib/stamp", text)
    else:
        program = HERE / "out" / NAME
        replace(program, os.environ["PROGRAM"].replace("MADE\n", text + "".join(below)))
        program.chmod(0o755)
    note(f"end {NAME}")


if sys.argv[1] == "version":
    print((NOTES / "version").read_text())
elif sys.argv[1] == "ci":
    note("begin ci")
    print("5 passed, 0 failed")
else:
    prove(sys.argv[1])
