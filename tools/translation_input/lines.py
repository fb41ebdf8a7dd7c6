"""What is wrong with a file or a message, and how it is told."""
import os

# The version of the scripts, that of include/plurals.h.
VERSION = "0.1.0"


class Fault(Exception):
    """What is wrong with a file or a message: where, why, and what to do; the line, if it is another one than the message's."""

    def __init__(self, text, line=None):
        super().__init__(text)
        self.line = line


def shown(text):
    """Returns a text in quotes, cut if it is long."""
    return repr(text if len(text) <= 60 else text[:57] + "..")


def write(handle, data):
    """Writes all bytes, without a buffer: what is wrong is known when it returns."""
    left = memoryview(data)
    while left:
        left = left[os.write(handle, left) :]


def say(text):
    """Writes a line on standard error, as a terminal can show it."""
    line = text if text.isprintable() else "".join(it if it.isprintable() else ascii(it)[1:-1] for it in text)
    try:
        write(2, f"{line}\n".encode())
    except OSError:
        pass  # the status says it
