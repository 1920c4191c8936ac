"""Builds the wheel of this package with the standard library alone (PEP 517, PEP 427), so that
`pip install ./clients/python` needs no index.

    python3 clients/python/build_wheel.py FOLDER
"""

import base64
import hashlib
import pathlib
import re
import sys
import zipfile

HERE = pathlib.Path(__file__).resolve().parent
PACKAGE, SUMMARY = "cegarront", "A client for ledgerd, a proved double-entry ledger"
# The same sources give the same bytes.
BEGINNING_OF_ZIP = (1980, 1, 1, 0, 0, 0)


def version():
    """The version that pyproject.toml states. Python 3.9 has no reader of TOML."""
    stated = re.search(r'^version = "(.+)"$', (HERE / "pyproject.toml").read_text(), re.M)
    return stated.group(1)


def metadata():
    return (f"Metadata-Version: 2.1\nName: {PACKAGE}\nVersion: {version()}\nSummary: {SUMMARY}\n"
            "Requires-Python: >=3.9\nClassifier: Typing :: Typed\n"
            "Description-Content-Type: text/markdown\n\n" + (HERE / "README.md").read_text())


def contents():
    """The files of the wheel by name, except RECORD."""
    sources = sorted((HERE / PACKAGE).glob("*"))
    files = {f"{PACKAGE}/{each.name}": each.read_bytes() for each in sources if each.is_file()}
    info = f"{PACKAGE}-{version()}.dist-info"
    files[f"{info}/METADATA"] = metadata().encode()
    files[f"{info}/WHEEL"] = (b"Wheel-Version: 1.0\nGenerator: build_wheel\n"
                              b"Root-Is-Purelib: true\nTag: py3-none-any\n")
    return info, files


def digest(content):
    return base64.urlsafe_b64encode(hashlib.sha256(content).digest()).rstrip(b"=").decode()


def build_wheel(wheel_directory, config_settings=None, metadata_directory=None):
    """Writes the wheel, and returns its name. PEP 517 fixes the parameters."""
    info, files = contents()
    record = "".join(f"{name},sha256={digest(each)},{len(each)}\n" for name, each in files.items())
    files[f"{info}/RECORD"] = (record + f"{info}/RECORD,,\n").encode()
    name = f"{PACKAGE}-{version()}-py3-none-any.whl"
    with zipfile.ZipFile(pathlib.Path(wheel_directory, name), "w", zipfile.ZIP_DEFLATED) as wheel:
        for path, content in files.items():
            entry = zipfile.ZipInfo(path, BEGINNING_OF_ZIP)
            entry.external_attr = 0o644 << 16
            wheel.writestr(entry, content, zipfile.ZIP_DEFLATED)
    return name


if __name__ == "__main__":
    if len(sys.argv) != 2:
        sys.exit(__doc__)
    print(build_wheel(sys.argv[1]))
