"""Writes to the standard output."""
import os


def write_out(text):
    """Writes all of it at once; OSError where it can't be, as on a full disk or a pipe that nobody reads."""
    left = memoryview(text)
    while left:
        left = left[os.write(1, left) :]
