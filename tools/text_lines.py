"""Lines of rules files and scripts (docs/FORMATS.md) for the tools beside it: their words, and what
is wrong with a number in them.
"""
import re

MOST = (1 << 32) - 1


def words_of(line):
    return [word for word in re.split("[ \t]+", line) if word]


def lines_of(data):
    """The lines of a text, without their ends. One CR before a LF is dropped."""
    lines = data.split("\n")
    last = [] if lines[-1] == "" else [lines[-1]]
    return [line[:-1] if line.endswith("\r") else line for line in lines[:-1]] + last


def unprintable(line):
    """What a line has that isn't printable ASCII or a tab, or nothing."""
    found = re.search("[^ -~\t]", line)
    if found is None:
        return []
    what = "a CR" if found[0] == "\r" else f"byte {ord(found[0]) & 255}"
    return [f"lines have printable ASCII only, also in comments, and this has {what} at column "
            f"{found.start() + 1}: was it pasted from a web page?"]


def number_fault(word, most, what):
    """Why a word is no decimal number up to `most`, or nothing."""
    if re.fullmatch("0[xX][0-9a-fA-F]+", word):
        return f"numbers are decimal ({word} is {int(word, 16)})"
    if not re.fullmatch("[0-9]+", word):
        return f"`{word}` is no number: {what} is 0 to {most}"
    if len(word) > 1 and word[0] == "0":
        return f"numbers have no leading zero: write {word.lstrip('0') or 0}"
    if len(word) > 20 or int(word) > most:
        return f"{word} is too large: {what} is 0 to {most}"
    return None
