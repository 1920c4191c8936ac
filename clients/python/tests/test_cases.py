"""Both forms of the client pass clients/cases.json."""

import pathlib
import subprocess
import sys
import unittest

HERE = pathlib.Path(__file__).resolve().parent
HARNESS = HERE.parents[1] / "harness/cases.py"


class Cases(unittest.TestCase):
    def hold(self, *words):
        driver = [sys.executable, str(HERE / "driver.py"), *words]
        done = subprocess.run([sys.executable, str(HARNESS), "--", *driver], text=True,
                              capture_output=True, timeout=600)
        self.assertEqual(done.returncode, 0, done.stdout + done.stderr)

    def test_with_threads(self):
        self.hold()

    def test_with_asyncio(self):
        self.hold("async")


if __name__ == "__main__":
    unittest.main()
