"""The example texts and the files beside them say the same, run by: python3 -m unittest discover -s tools/tests"""

import sys
import unittest
from pathlib import Path

TOOLS = Path(__file__).resolve().parent.parent
EXAMPLES = TOOLS.parent / "examples"
sys.path.insert(0, str(TOOLS))
import bpt_format as bpt  # noqa: E402


class Examples(unittest.TestCase):
    def test_files_are_encoded_texts(self):
        texts = sorted(EXAMPLES.glob("*.task"))
        self.assertGreaterEqual(len(texts), 7)
        for text in texts:
            with self.subTest(text.name):
                file = text.with_suffix(".bpt").read_bytes()
                self.assertEqual(bpt.encode(bpt.parse(text.read_text())), file)
                self.assertEqual(bpt.canonical(file), file)

    def test_the_stored_listing_is_whole(self):
        task = bpt.parse((EXAMPLES / "calibration.task").read_text())
        named = bpt.explain(task, (EXAMPLES / "calibration.listing").read_text())
        self.assertIn("time 2 2 0\n", named)
        self.assertIn("10 5 0 12  close-shutter\n", named)
        self.assertIn("12 18 1 14  reconcile\n", named)


if __name__ == "__main__":
    unittest.main()
