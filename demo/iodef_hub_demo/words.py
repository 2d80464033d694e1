"""The words of the command, and its statuses."""
from __future__ import annotations

import argparse
import os
import sys

from . import places

FAULTY = 3


def _port(text: str) -> int:
    if not (text.isascii() and text.isdigit() and len(text) < 6 and 1 <= int(text) <= 65535):
        raise argparse.ArgumentTypeError(f"{text} is no port, which is a number from 1 to 65535")
    return int(text)


def reader(head: str) -> argparse.ArgumentParser:
    usage, _, text = head.partition(": ")
    words = argparse.ArgumentParser(
        prog="iodef-hub-demo", usage=usage, description=text, formatter_class=argparse.RawDescriptionHelpFormatter, allow_abbrev=False, add_help=False
    )
    hidden = argparse.SUPPRESS  # the text above says what each is for
    words.add_argument("-h", "--help", action="help", help=hidden)
    words.add_argument("--port", type=_port, default=0, help=hidden)
    words.add_argument("--keep", action="store_true", help=hidden)
    words.add_argument("--no-browser", action="store_true", help=hidden)
    words.add_argument("--program", help=hidden)
    words.add_argument("--unproved", action="store_true", help=hidden)
    return words


def main(head: str | None) -> int:
    asked = reader(head or "").parse_args()
    try:
        sys.path.insert(1, str(places.client()))
        from .run import run  # it imports the client's module

        run(asked.program, asked.unproved, asked.port, asked.keep, not asked.no_browser)
    except places.Fault as fault:
        print(f"iodef-hub-demo: {fault}", file=sys.stderr)
        return FAULTY
    except BrokenPipeError:
        # Nobody reads what is printed, nor shall what is left of it be printed at the end.
        os.dup2(os.open(os.devnull, os.O_WRONLY), sys.stdout.fileno())
        return FAULTY
    except OSError as fault:
        print(f"iodef-hub-demo: Failed: {fault}", file=sys.stderr)
        return FAULTY
    return 0
