"""What the commands laurelsnap and bpt share: their ends, reading and writing with messages, and the options' parser."""

import argparse
import contextlib
import os
import sys

from . import files
from .library import NoLibrary
from .refusal import Refused
from .task import bits
from .text import TextErrors, parse
from .words import clock, count, printable

DONE, NOT_ACCEPTED, BAD_USAGE, NO_ROOM, INTERRUPTED = 0, 1, 2, 3, 130
FAULTS_TOLD = 20


class Stop(Exception):
    """Ends the command with a message and an exit status."""

    def __init__(self, message, status=BAD_USAGE):
        super().__init__(message)
        self.status = status


@contextlib.contextmanager
def reading(name):
    """Tells what is wrong with a text or a file."""
    shown = "standard input" if name == "-" else name
    try:
        yield
    except OSError as error:
        raise Stop(f"{shown}: {error.strerror}") from None
    except Refused as refused:
        raise Stop(f"{shown}: {refused}", NOT_ACCEPTED) from None
    except TextErrors as errors:
        lines = [f"{shown}:{line}: {cause}" if line else f"{shown}: {cause}" for line, cause in errors.faults]
        if len(lines) > FAULTS_TOLD:
            lines[FAULTS_TOLD:] = [f"{shown}: and {len(lines) - FAULTS_TOLD} more"]
        raise Stop("\n".join(lines), NOT_ACCEPTED) from None


def task_and_file(name):
    """The task of a text or of a BPT1 file, and its file."""
    with reading(name):
        return files.task_and_file(name)


def text(name):
    with reading(name):
        return files.text_of(files.read_bytes(name))


def named_task(name):
    """The task of a text, which a BPT1 file is not."""
    with reading(name):
        data = files.read_bytes(name)
        if files.is_file("", data):
            raise TextErrors([(0, "this is a BPT1 file, not a text; `bpt decode` makes a text of it")])
        return parse(files.text_of(data))


def accepted(task):
    """What an accepted task has, in words."""
    counted = [(task.variables, "variable"), (task.operators, "operator"), (task.terms, "term")]
    parts = [count(len(things), thing) for things, thing in counted]
    return f"accepted, {', '.join(parts)}, {count(bits(task), 'bit')}, bound {task.bound} ({clock(task.bound)})"


def write(name, data, *sources):
    """Writes a file, which must not be one that was read."""
    if any(files.same_file(name, source) for source in sources):
        raise Stop(f"{name}: what was read would be written over; give another name")
    try:
        files.write(name, data)
    except OSError as error:
        raise Stop(f"{'standard output' if name == '-' else name}: {error.strerror}") from None


class Parser(argparse.ArgumentParser):
    """A parser whose help keeps its lines and whose errors end the command."""

    def __init__(self, **words):
        super().__init__(formatter_class=argparse.RawDescriptionHelpFormatter, **words)

    def error(self, message):
        raise Stop(f"{self.prog}: {message}\n{self.format_usage().rstrip()}; --help tells more")


def run(name, main, words):
    """Runs a command and gives its exit status."""
    try:
        try:
            status = main(words)
        except Stop as stop:
            status = tell(str(stop), stop.status)
        except NoLibrary as error:
            status = tell(f"{name}: {error}", BAD_USAGE)
        sys.stdout.flush()
        return status
    except KeyboardInterrupt:
        leave("interrupted", INTERRUPTED)
    except BrokenPipeError:
        leave("", BAD_USAGE)
    except OSError as error:
        leave(f"standard output: {error.strerror}", BAD_USAGE)


def tell(message, status):
    print("\n".join(map(printable, message.split("\n"))), file=sys.stderr)
    return status


def leave(message, status):
    """Ends at once: an engine's thread may still run, and what standard output holds back cannot be written."""
    if message:
        print(message, file=sys.stderr, flush=True)
    os._exit(status)
