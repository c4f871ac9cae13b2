"""The file beside a cell, by the rules of docs/FORMATS.md: how many bytes of the cell its site has
synced. No test of itself."""
import contextlib
import fcntl
import hashlib
import pathlib


def beside(cell):
    """The path of the file."""
    return pathlib.Path(f"{cell}.synced")


def text(length):
    """Its bytes, where it says this length."""
    number = length.to_bytes(8, "big")
    return number + hashlib.sha256(number).digest()[:8]


def length_in(bytes):
    """The length that these bytes say; none where they say none."""
    length = int.from_bytes(bytes[:8], "big")
    return length if bytes == text(length) else None


def said(cell):
    """The length that the file beside a cell says; none where there is none."""
    file = beside(cell)
    return length_in(file.read_bytes()) if file.is_file() else None


@contextlib.contextmanager
def saying(cell, bytes, how=fcntl.LOCK_EX):
    """These bytes are beside a cell, and the file is locked so; in the end it is gone."""
    file = beside(cell)
    file.write_bytes(bytes)
    with open(file, "rb") as lock:
        fcntl.flock(lock, how)
        try:
            yield file
        finally:
            file.unlink()
