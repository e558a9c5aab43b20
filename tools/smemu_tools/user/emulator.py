"""Finds the emulator and calls it, for the scripts beside it that call it many times.

SMEMU in the environment names it; else it is the program that ./smemu runs here, without the
wrapper's own tenth of a second.
"""
from __future__ import annotations

import os
import signal
import subprocess
import sys
import tempfile
from typing import Any, Callable

from smemu_tools import TOP
from smemu_tools.user import reports

# the status of a script that found nothing wrong, and did not look at all that it was to look at
NOT_ALL = 3


class Refused(Exception):
    """What the emulator says in the place of an answer, and its status."""

    def __init__(self, text: str, status: int) -> None:
        super().__init__(text)
        self.status = status


class Interrupted(Exception):
    """The call was given up, since nobody waits for it any longer."""


def find() -> str:
    """The emulator's path."""
    if os.environ.get("SMEMU"):
        return os.environ["SMEMU"]
    # the wrapper unpacks or builds it where that is still to be done, and says so
    asked = subprocess.run([TOP / "smemu", "--which"], stdin=subprocess.DEVNULL,
                           stdout=subprocess.PIPE, text=True)
    if asked.returncode:
        sys.exit(asked.returncode)
    return asked.stdout.rstrip("\n")


def call(words: list[Any], given: bytes = b"", is_over: Callable[..., Any] | None = None) -> bytes:
    """What the emulator writes for these words, of which /dev/stdin is a file with `given`, or
    Refused. Where `is_over` comes to say so, Interrupted."""
    with tempfile.NamedTemporaryFile(prefix="smemu-") as source:
        # a name of its own, since /dev/stdin leads through /proc, which a root may lack
        source.write(given)
        source.flush()
        names = [source.name if word == "/dev/stdin" else str(word) for word in words]
        process = subprocess.Popen(names, stdin=subprocess.DEVNULL, stdout=subprocess.PIPE)
        written = output_of(process, is_over)
    if process.returncode:
        text = (written.decode(errors="replace").strip() if process.returncode != 8
                else "there is no memory left")
        raise Refused(text or f"the emulator ended with status {process.returncode}",
                      process.returncode)
    return written


def output_of(process: subprocess.Popen[Any], is_over: Callable[..., Any] | None) -> bytes:
    """What a process writes until it ends."""
    while True:
        try:
            return process.communicate(timeout=0.1 if is_over else None)[0]
        except subprocess.TimeoutExpired:
            if is_over():
                process.kill()
                process.communicate()
                raise Interrupted() from None
        except BaseException:
            process.kill()
            raise


def end_with(main: Callable[..., Any]) -> None:
    """Ends the script with the status of its main function; a refusal is told by its own line, with
    its status, and a closed pipe is no fault."""
    try:
        status = main()
        sys.stdout.flush()
    except Refused as fault:
        print(fault, file=sys.stderr)
        status = fault.status
    except reports.NoReport as fault:
        print(fault, file=sys.stderr)
        status = 1
    except BrokenPipeError:
        # nobody reads on; the status is that of a program that this ends by its signal
        os.dup2(os.open(os.devnull, os.O_WRONLY), sys.stdout.fileno())
        status = 128 + signal.SIGPIPE
    except KeyboardInterrupt:
        # what other threads of the script still wait for is of no use
        os._exit(130)
    sys.exit(status)
