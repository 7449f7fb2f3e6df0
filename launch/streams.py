"""The standard streams of a script, by their numbers."""

import contextlib
import os

INPUT, OUTPUT, ERRORS = 0, 1, 2
NAMES = {OUTPUT: "standard output", ERRORS: "standard error"}


def keep_numbers():
    """Sees to it that no file gets the number of a stream that is closed.

    Reads from such a stream fail then as before, and so do writes to it, also in the program that
    takes the place of the script.
    """
    for number in (INPUT, OUTPUT, ERRORS):
        try:
            os.fstat(number)
        except OSError:
            # It gets the lowest number that is free, which is this one.
            file = os.open(os.devnull, os.O_WRONLY if number == INPUT else os.O_RDONLY)
            os.set_inheritable(file, True)


def write(number, data):
    """Writes all bytes. Nothing is left to be written when Python ends."""
    left = memoryview(data)
    while left:
        left = left[os.write(number, left) :]


def tell(text):
    """Writes a text to standard error, if that can be done: no status changes by what it says."""
    with contextlib.suppress(OSError):
        write(ERRORS, text.encode(errors="backslashreplace"))
