"""Each snippet of the README is run, in one process, over a service that its shell lines start."""

import os
import pathlib
import re
import subprocess
import tempfile
import unittest
from unittest import mock

from .fake import free_port
from .program import end_of, program, run, wait_for

README = pathlib.Path(__file__).resolve().parents[1] / "README.md"


def snippets(kind):
    return re.findall(rf"^```{kind}\n(.*?)^```$", README.read_text(), re.M | re.S)


class Readme(unittest.TestCase):
    def start(self, folder):
        """Runs the shell lines, with the program on the path and a free port. Answers the key."""
        os.symlink(program(), os.path.join(folder, "ledgerd"))
        self.port = free_port()
        (lines,) = snippets("sh")
        lines = lines.replace("8080", str(self.port)) + 'echo "$LEDGER_KEY $LEDGER_URL $!"\n'
        lines = f"trap 'test $? = 0 || kill $!' EXIT\n{lines}"
        path = folder + os.pathsep + os.environ["PATH"]
        os.symlink(README.parents[1], os.path.join(folder, "clients"))
        with open(os.path.join(folder, "told"), "w+") as told:
            subprocess.run(["sh", "-euc", lines], cwd=folder, env={**os.environ, "PATH": path},
                           stdout=told, check=True, timeout=60)
            told.seek(0)
            added, wallet, words = told.read().splitlines()
        self.assertEqual(added, "added shop")
        self.assertEqual(wallet, "again: existed, balance: 3500")
        key, url, process = words.split()
        self.addCleanup(end_of, int(process))
        wait_for(self.port, None)
        return {"LEDGER_KEY": key, "LEDGER_URL": url}

    def test_each_snippet(self):
        with tempfile.TemporaryDirectory() as folder:
            names = {}
            listed = snippets("python")
            self.assertGreaterEqual(len(listed), 6)
            with mock.patch.dict(os.environ, self.start(folder)):
                for each in listed:
                    exec(compile(each, "README.md", "exec"), names)
            self.doCleanups()
            status, told, _ = run("check", "--db", os.path.join(folder, "shop.db"))
            self.assertEqual((status, told), (0, "ok\n"))
            self.assertEqual(names["wallet"].debits_pending, 0)


if __name__ == "__main__":
    unittest.main()
