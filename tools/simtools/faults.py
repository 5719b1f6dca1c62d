"""How a tool ends: with its result, or with one line that says what is wrong and status 2."""

import argparse
import signal
import sys


class ToolFault(Exception):
    """What the user can mend: a file that is not there, a word out of place, a program that refused its input."""


class Words(argparse.ArgumentParser):
    """The words of a command line; wrong ones are a fault, told in one line."""

    def error(self, message):
        raise ToolFault(f"{message} ({self.prog} --help says how it is used)")


def run_tool(name, main):
    """Runs a tool's main over the command line; a fault becomes one line on standard error. A signal leaves no files behind."""
    for number in (signal.SIGINT, signal.SIGTERM, signal.SIGHUP):
        signal.signal(number, lambda number, _: sys.exit(128 + number))
    try:
        sys.exit(main(sys.argv[1:]) or 0)
    except ToolFault as fault:
        print(f"{name}: {' '.join(str(fault).split())}", file=sys.stderr)
        sys.exit(2)
    except BrokenPipeError:
        sys.exit(1)


def read_bytes(path):
    """The bytes of a file that the user named."""
    try:
        with open(path, "rb") as file:
            return file.read()
    except OSError as error:
        raise ToolFault(f"{path} can't be read: {error.strerror or error}") from None
    except ValueError as error:
        raise ToolFault(f"{path!r} is no file name: {error}") from None


def write_text(path, text):
    """Writes a text to a file that the user named, or to standard output for `-`."""
    if path == "-":
        sys.stdout.write(text)
        return
    try:
        with open(path, "w", encoding="utf-8") as file:
            file.write(text)
    except OSError as error:
        raise ToolFault(f"{path} can't be written: {error.strerror or error}") from None
