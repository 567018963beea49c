"""How far an engine is, told on a terminal from the second second on: what can be read off the lists that it is filling."""

import ctypes
import sys
import threading
import time

UNUSED = 0xFFFFFFFF  # no cost and no bit is this number, so its first place is where the engine stands
COSTS = 4096  # one more than a cost may be; the engine that lists states adds it as a mark


class Progress:
    def __init__(self, bound, wanted):
        self.bound, self.on = bound, wanted and sys.stderr.isatty()
        self.engine = self.lists = None
        self.begun = time.monotonic()

    def watch(self, engine, lists):
        """Looks at an engine's lists from now on."""
        if self.on:
            for name in ("costs", "bit") if engine == "diagrams" else ("costs",):
                column = getattr(lists, name)
                ctypes.memset(column, 0xFF, ctypes.sizeof(column))
            self.engine, self.lists = engine, lists

    def filled(self, name):
        """How many entries of a list are written."""
        column = getattr(self.lists, name)
        low, high = 0, len(column)
        while low < high:
            middle = (low + high) // 2
            low, high = (middle + 1, high) if column[middle] != UNUSED else (low, middle)
        return low

    def line(self):
        made = self.filled("costs")
        cost = self.lists.costs[made - 1] % COSTS if made else 0
        size, room, what = (self.filled("bit"), len(self.lists.bit), "nodes") if self.engine == "diagrams" else (
            made, len(self.lists.costs), "states")
        return f"{time.monotonic() - self.begun:4.0f} s  {self.engine}: {size:,} of {room:,} {what}, at cost {cost} of {self.bound}"

    def run(self, work):
        """Runs work on a thread, so that it can be interrupted, and tells until it ends."""
        box, shown = [], False

        def target():
            try:
                box.append((work(), None))
            except BaseException as error:  # handed on below
                box.append((None, error))
        thread = threading.Thread(target=target, daemon=True)
        thread.start()
        thread.join(1.0)
        while thread.is_alive():
            if self.on and self.lists is not None:
                sys.stderr.write(f"\r\033[K{self.line()}")
                sys.stderr.flush()
                shown = True
            thread.join(0.5)
        if shown:
            sys.stderr.write("\r\033[K")
        value, error = box[0]
        if error:
            raise error
        return value
