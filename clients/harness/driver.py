"""A client as a process: it reads one call per line, and writes its result.

A line in is `{"open":{"url":..,"key":..,"deadline":..}}`, which makes a client for the calls that
follow, or `{"call":NAME, ..}` with the arguments of a case. A line out has what `clients/cases.json`
calls `answer`, or `{"error":{..}}`."""

import json
import subprocess


class Driver:
    def __init__(self, words):
        self.words = words
        self.process = subprocess.Popen(words, stdin=subprocess.PIPE, stdout=subprocess.PIPE,
                                        text=True, bufsize=1)

    def ask(self, **asked):
        """The client's answer to one line."""
        self.process.stdin.write(json.dumps(asked) + "\n")
        self.process.stdin.flush()
        line = self.process.stdout.readline()
        if not line:
            raise RuntimeError(f"{self.words}: the driver has ended with {self.process.wait()}")
        return json.loads(line)

    def close(self):
        self.process.stdin.close()
        self.process.stdout.close()
        self.process.wait(30)

    def __enter__(self):
        return self

    def __exit__(self, *_):
        self.close()
