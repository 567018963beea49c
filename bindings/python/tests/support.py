"""What the tests share: the examples, a folder of their own, and the command run in this process."""

import contextlib
import io
import os
import subprocess
import sys
import tempfile
import unittest
from pathlib import Path

ROOT = Path(__file__).resolve().parents[3]
sys.path.insert(0, str(ROOT / "bindings" / "python"))
from laurelsnap.command import main  # noqa: E402

EXAMPLES = ROOT / "examples"
CALIBRATION = str(EXAMPLES / "calibration.task")
WARD = str(EXAMPLES / "repeats" / "ward.task")
CALIBRATION_FILE = (EXAMPLES / "calibration.bpt").read_bytes()
P2 = (EXAMPLES / "p-2.bpt").read_bytes()
REFERENCE = os.environ.get("REFERENCE")  # the reference planner's program


def run(*words):
    """Exit status, standard output and standard error of the command."""
    out, err = io.StringIO(), io.StringIO()
    with contextlib.redirect_stdout(out), contextlib.redirect_stderr(err):
        try:
            status = main([str(word) for word in words])
        except SystemExit as end:  # --help
            status = end.code
    return status, out.getvalue(), err.getvalue()


def reference(*words):
    """What the reference planner writes."""
    return subprocess.run([REFERENCE, *map(str, words)], capture_output=True, check=True).stdout


class Folder(unittest.TestCase):
    def setUp(self):
        folder = tempfile.TemporaryDirectory()
        self.addCleanup(folder.cleanup)
        self.folder = Path(folder.name)

    def file(self, content, name="x.task"):
        path = self.folder / name
        path.write_bytes(content if isinstance(content, bytes) else content.encode())
        return path
