"""Task files and texts, read from a name or from standard input ('-')."""

import sys
from pathlib import Path

from . import bpt
from .text import TextErrors, parse

BYTES_MOST = 1 << 20  # of a text or a file; more are not read


def read_bytes(name):
    """A file's bytes, and one more than may be read if it is longer."""
    if name == "-":
        return sys.stdin.buffer.read(BYTES_MOST + 1)
    with open(name, "rb") as file:
        return file.read(BYTES_MOST + 1)


def text_of(data):
    """The text in some bytes; raises TextErrors."""
    if len(data) > BYTES_MOST:
        raise TextErrors([(0, f"this has over {BYTES_MOST:,} bytes, too many for a text")])
    try:
        return data.decode("utf-8-sig")
    except UnicodeDecodeError as error:
        line = data[:error.start].count(b"\n") + 1
        raise TextErrors([(line, "this is neither a text in UTF-8 nor a BPT1 file")]) from None


def is_file(name, data):
    """Whether this is meant as a task file and not as a text."""
    return data[:3] == bpt.LETTERS[:3] or str(name).endswith(".bpt")


def task_and_file(name):
    """The task of a text or of a BPT1 file, and its file; raises OSError, TextErrors or Refused."""
    data = read_bytes(name)
    if is_file(name, data):
        return bpt.decode(data), data
    task = parse(text_of(data))
    return task, bpt.encode(task)


def read(name):
    """The task of a text or of a BPT1 file; raises OSError, TextErrors or Refused."""
    return task_and_file(name)[0]


def same_file(name, other):
    return "-" not in (name, other) and Path(name).exists() and Path(other).exists() and Path(name).samefile(other)


def write(name, data):
    """Writes bytes to a file, or to standard output if the name is '-'."""
    if name == "-":
        sys.stdout.flush()
        sys.stdout.buffer.write(data)
        sys.stdout.buffer.flush()
    else:
        Path(name).write_bytes(data)
