"""Starts `nfq` for the tools beside it, and has how a tool ends.

The program is the launcher at the top of the checkout, or what the environment variable NFQ names.
"""
import argparse
import os
import subprocess
import sys
from pathlib import Path

from formats import Refused

FILES = "out", "ledger", "journal"


def program():
    """The words that start nfq."""
    return [os.environ.get("NFQ") or str(Path(__file__).resolve().parent.parent / "nfq")]


def play(rules, script, capture, folder):
    """Makes a run of `play`; its outputs are FILES of the folder."""
    words = ["play", rules, script, capture, *(f"{folder}/{file}" for file in FILES)]
    try:
        ended = subprocess.run(program() + words, stdin=subprocess.DEVNULL, capture_output=True,
                               text=True, errors="replace")
    except OSError as error:
        raise Refused(f"{program()[0]}: {error.strerror}") from None
    if ended.returncode:
        said = (ended.stdout + ended.stderr).strip()
        raise Refused(f"nfq play ended with status {ended.returncode}" + (said and f":\n{said}"))


def read_text(name):
    """A text file, by its bytes."""
    try:
        return Path(name).read_bytes().decode("latin-1")
    except OSError as error:
        raise Refused(f"{name}: {error.strerror}") from None


def write_text(name, text):
    try:
        with open(name, "w", encoding="latin-1", newline="") as file:
            file.write(text)
    except OSError as error:
        raise Refused(f"{name}: {error.strerror}") from None


def parser(text):
    """A reader of a tool's arguments, whose help is its text."""
    before, _, rest = text.partition("usage: ")
    usage, _, after = rest.partition("\n\n")
    return argparse.ArgumentParser(
        prog=usage.split()[0].rpartition("/")[2], usage=usage, description=before + after,
        formatter_class=argparse.RawDescriptionHelpFormatter)


def run_tool(main):
    """Runs a tool, which ends with the status that it answers. An input that is refused is a line
    on standard error, and status 2."""
    try:
        status = main()
        sys.stdout.flush()
    except Refused as why:
        print(f"{sys.argv[0].rpartition('/')[2]}: {why}", file=sys.stderr)
        status = 2
    except BrokenPipeError:
        sys.stderr.close()
        status = 2
    except KeyboardInterrupt:
        status = 130
    sys.exit(status)
