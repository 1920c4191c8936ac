"""The toolchain's command `rt` and its library `rtlib.py`, as modules; and where to leave sources that
are made."""

import importlib.machinery
import importlib.util
import os
import pathlib
import shutil
import subprocess
import sys
import tempfile

TOP = pathlib.Path(__file__).resolve().parent.parent


def rt():
    """The program `rt` as a module; `rt.rtlib` is the library."""
    sys.dont_write_bytecode = True
    path = os.path.realpath(shutil.which("rt") or sys.exit("rt is not on the PATH"))
    loader = importlib.machinery.SourceFileLoader("rt", path)
    made = importlib.util.module_from_spec(importlib.util.spec_from_loader("rt", loader))
    loader.exec_module(made)
    # Its first call sets a signal's handler, which only the main thread may.
    made.rtlib.guarded()
    return made


def room(name):
    """A folder for sources of Rattle that are made: below `.git`, since `rt ci` refuses a source elsewhere
    that is in no crate. Where there is no `.git` it is a new one."""
    asked = ["git", "-C", str(TOP), "rev-parse", "--absolute-git-dir"]
    found = subprocess.run(asked, capture_output=True, text=True)
    made = pathlib.Path(found.stdout.strip() if not found.returncode else tempfile.mkdtemp(), name)
    made.mkdir(exist_ok=True)
    return made
