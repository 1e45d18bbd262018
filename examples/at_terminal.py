#!/usr/bin/env python3
"""Runs a command at a pseudo-terminal, for examples/run:

  at_terminal.py both|silent|input|errors OUTPUT ERRORS INPUT COMMAND..

Its standard input and its standard error are the terminal, or the one that is named alone; the other one is a file, as standard output is.
What is in the file INPUT is typed there once the command has written a line, with all but 'both' after a second at most, and then Ctrl-D.
What the command writes to the terminal goes to the file ERRORS. The status is the command's."""
import os
import pty
import select
import subprocess
import sys
import termios
import time


def open_terminal():
    """Both ends of a terminal that shows nothing of what is typed, and changes nothing of what is written."""
    ours, theirs = pty.openpty()
    modes = termios.tcgetattr(theirs)
    modes[1] &= ~termios.OPOST
    modes[3] &= ~termios.ECHO
    termios.tcsetattr(theirs, termios.TCSANOW, modes)
    return ours, theirs


def read_some(ours, seconds):
    """What comes within this time; none at the end."""
    if not select.select([ours], [], [], seconds)[0]:
        return b""
    try:
        return os.read(ours, 65536)
    except OSError:
        return b""


def main():
    which, output, errors, source = sys.argv[1:5]
    ours, theirs = open_terminal()
    with open(output, "wb") as out, open(errors, "wb") as err, open(source, "rb") as given:
        typed = given.read()
        given.seek(0)
        child = subprocess.Popen(
            sys.argv[5:],
            stdin=given if which == "errors" else theirs,
            stdout=out,
            stderr=err if which == "input" else theirs,
        )
        os.close(theirs)
        shown = b""
        until = time.monotonic() + (10 if which == "both" else 1)
        while b"waiting: " not in shown and time.monotonic() < until and child.poll() is None:
            shown += read_some(ours, 0.1)
        if which != "errors":
            os.write(ours, typed + b"\x04")
        status = child.wait(60)
        while more := read_some(ours, 0.2):
            shown += more
        err.write(shown)
    return status


sys.exit(main())
