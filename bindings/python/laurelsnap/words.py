"""Words for people: numbers of things, times, near names, and text that a terminal can show."""

import difflib
import re
import unicodedata

UNIT = 10  # seconds
MINUTE = 60 // UNIT  # units


def count(number, thing):
    """'1 step', '2,000 steps', '3 entries'."""
    many = thing[:-1] + "ies" if thing.endswith("y") else thing + "s"
    return f"{number:,} {thing if number == 1 else many}"


def clock(units):
    """Units of ten seconds as minutes and seconds, from an hour on with hours: 14 is 2:20."""
    minutes, left = divmod(units, MINUTE)
    hours, minutes = divmod(minutes, 60)
    return f"{hours}:{minutes:02}:{UNIT * left:02}" if hours else f"{minutes}:{UNIT * left:02}"


def units(text):
    """The units that a text tells: a number of them, a time as 2:20 or 1:02:20, or seconds as 30s. ValueError says what is wrong."""
    if re.fullmatch(r"[0-9]{1,9}", text):
        return int(text)
    if re.fullmatch(r"[0-9]{1,9}s", text):
        seconds = int(text[:-1])
    elif re.fullmatch(r"[0-9]{1,4}(:[0-5][0-9]){1,2}", text):
        seconds = 0
        for part in text.split(":"):
            seconds = 60 * seconds + int(part)
    else:
        raise ValueError(f"'{text}' is neither a number of units nor a time as 2:20 or 30s")
    if seconds % UNIT:
        raise ValueError(f"'{text}' is not a whole number of units of {UNIT} seconds")
    return seconds // UNIT


def near(name, names):
    """'; is it A or B?' for the names that look like this one."""
    close = difflib.get_close_matches(name, list(names), 3, 0.6)
    return f"; is it {' or '.join(close)}?" if close else ""


def printable(text):
    """A text in which nothing can steer a terminal."""
    return "".join(c if c.isprintable() else f"\\x{ord(c):02x}" for c in text)


def columns(text):
    """The columns that a text takes in a terminal."""
    def width(c):
        if unicodedata.category(c) in ("Mn", "Me"):
            return 0
        return 2 if unicodedata.east_asian_width(c) in "WF" else 1
    return sum(map(width, text))


def padded(text, width):
    """The text with blanks behind it up to so many columns."""
    return text + " " * (width - columns(text))
