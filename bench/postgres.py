"""A PostgreSQL 15 of one's own: a cluster in a new folder, on no port but a socket there, with the
tables and the function of `peer/ledger.sql`. Commits wait for the disk, as is its default."""

import os
import pathlib
import subprocess

HERE = pathlib.Path(__file__).resolve().parent
BIN = "/usr/lib/postgresql/15/bin"
OPTIONS = "-c shared_buffers=128MB -c max_wal_size=4GB -c max_connections=200 " \
          "-c enable_seqscan=off -c listen_addresses="
TICK = os.sysconf("SC_CLK_TCK")


def is_there():
    return os.path.exists(f"{BIN}/initdb")


def run(*words, **how):
    """A program of PostgreSQL's, which does not run as root."""
    user = ["runuser", "-u", "postgres", "--"] if os.getuid() == 0 else []
    return subprocess.run([*user, *words], check=True, text=True, stdout=subprocess.PIPE,
                          cwd="/", **how).stdout


def stat(pid):
    """User and system time of a process, and of those that it has waited for, in seconds."""
    with open(f"/proc/{pid}/stat", encoding="ascii") as file:
        fields = file.read().rpartition(")")[2].split()
    return [int(field) / TICK for field in fields[11:15]]


class Server:
    """A running server. `folder` is where it listens."""

    def __init__(self, within):
        self.folder = os.path.join(within, "postgres")
        os.mkdir(self.folder)
        for path in (within, self.folder):
            os.chmod(path, 0o755)
        if os.getuid() == 0:
            subprocess.run(["chown", "postgres", self.folder], check=True)
        self.base = os.path.join(self.folder, "base")
        run(f"{BIN}/initdb", "-D", self.base, "-A", "trust", "-U", "postgres")
        run(f"{BIN}/pg_ctl", "-s", "-w", "-D", self.base, "-l", os.path.join(self.folder, "log"),
            "-o", f"{OPTIONS} -k {self.folder}", "start")
        with open(os.path.join(self.base, "postmaster.pid"), encoding="ascii") as file:
            self.pid = int(file.readline())

    def ask(self, text):
        return run("psql", "-X", "-q", "-At", "-v", "ON_ERROR_STOP=1", "-h", self.folder, "-U",
                   "postgres", "-d", "postgres", input=text)

    def fill(self, tenants, accounts):
        """Empty tables, tenants and their accounts."""
        self.ask("SET client_min_messages = warning; DROP SCHEMA public CASCADE; "
                 "CREATE SCHEMA public;")
        self.ask((HERE / "peer/ledger.sql").read_text())
        self.ask(f"""
            INSERT INTO clock SELECT tenant, 0 FROM generate_series(1, {tenants}) AS tenant;
            INSERT INTO account SELECT tenant, id, 7, 10, 0, id
                FROM generate_series(1, {tenants}) AS tenant, generate_series(1, {accounts}) AS id;
            INSERT INTO balance SELECT tenant, id, 0, 0, 0, 0 FROM account;
            ANALYZE; CHECKPOINT;""")

    def settle(self):
        """Plans are made anew by what the tables hold."""
        self.ask("ANALYZE;")

    def stored(self):
        return int(self.ask("SELECT count(*) FROM transfer;"))

    def processor(self):
        """Seconds of processor time of all its processes, those that have ended too."""
        own = [self.pid]
        with open(f"/proc/{self.pid}/task/{self.pid}/children", encoding="ascii") as file:
            own += map(int, file.read().split())
        used = sum(stat(self.pid)[2:])
        for pid in own:
            try:
                used += sum(stat(pid)[:2])
            except (FileNotFoundError, ProcessLookupError):
                pass
        return used

    def end(self):
        run(f"{BIN}/pg_ctl", "-s", "-D", self.base, "-m", "immediate", "stop")
