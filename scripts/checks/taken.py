"""Waits until a program has taken what is in its pipe, so that what is written next comes in another read."""
from __future__ import annotations

import fcntl
import subprocess
import sys
import termios
import time
import typing

# A program that has not read by then does not: a bound for failures, and no measure of speed.
SECONDS = 120


def until_taken(process: subprocess.Popen[bytes], pipe: typing.BinaryIO) -> None:
    """Waits until nothing is left in a pipe to a process, or that has ended."""
    limit = time.monotonic() + SECONDS
    while int.from_bytes(fcntl.ioctl(pipe, termios.FIONREAD, bytes(4)), sys.byteorder) and process.poll() is None:
        if time.monotonic() > limit:
            raise subprocess.TimeoutExpired(process.args, SECONDS)
        time.sleep(0.0002)
