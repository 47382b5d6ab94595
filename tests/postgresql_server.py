"""A server of PostgreSQL of its own, in which the extension is.

The extension is built by PGXS below a folder; beside it go the server's programs and links to all else that it needs, since
a server looks for its files from where its program lies. So nothing of the system's is touched. The server runs as nobody
where root calls, and is reached by a socket in its folder alone.
"""
from __future__ import annotations

import contextlib
import os
import pathlib
import pwd
import shutil
import signal
import subprocess
import time
from typing import Any, Dict, Iterator, List

import build_postgresql
import sql_rows
from sql_rows import Statement
from support import run, succeed

SECONDS = 600
USER = "tester"


class Server:
    """A server of its own below a folder, in which the extension was put by PGXS."""

    def __init__(self, folder: pathlib.Path, stage: pathlib.Path) -> None:
        programs = build_postgresql.folder_of("bindir")
        self.programs = programs
        self.folder = folder
        self.own = below(stage, programs)
        self.own.mkdir(parents=True, exist_ok=True)
        # Another server, which may run, has copied them before.
        for name in ("postgres", "initdb"):
            if not (self.own / name).exists():
                shutil.copy(programs / name, self.own)
        for kind in ("pkglibdir", "sharedir"):
            add_links(build_postgresql.folder_of(kind), below(stage, build_postgresql.folder_of(kind)))
        self.user: Dict[str, Any] = {}
        if os.geteuid() == 0:
            nobody = pwd.getpwnam("nobody")
            self.user = {"user": nobody.pw_uid, "group": nobody.pw_gid, "extra_groups": []}
            os.chown(folder, nobody.pw_uid, nobody.pw_gid)
        words = [self.own / "initdb", "-D", folder / "data", *f"-U {USER} -A trust -E UTF8 --no-locale -N".split()]
        succeed(words, cwd=folder, env={**os.environ, "LC_ALL": "C"}, **self.user)
        self.environment = {
            **{key: value for key, value in os.environ.items() if not key.startswith("PG")},
            "PATH": f"{programs}{os.pathsep}{os.environ['PATH']}",
            "PGHOST": str(folder),
            "PGUSER": USER,
            "PGDATABASE": "postgres",
            "PGCLIENTENCODING": "UTF8",
            "PGOPTIONS": "--client-min-messages=warning",
        }

    @contextlib.contextmanager
    def running(self, **more: str) -> Iterator[None]:
        """The server, from when it answers; it is ended afterwards."""
        settings = {
            "listen_addresses": "",
            "unix_socket_directories": str(self.folder),
            "fsync": "off",
            "autovacuum": "off",
            "dynamic_shared_memory_type": "mmap",
            "max_wal_size": "4GB",
        }
        words = [self.own / "postgres", "-D", self.folder / "data"]
        words += [word for name, value in settings.items() for word in ("-c", f"{name}={value}")]
        with open(self.folder / "log", "ab") as log:
            server = subprocess.Popen(
                [str(word) for word in words],
                cwd=self.folder,
                env={**os.environ, **more, "LC_ALL": "C"},
                stdin=subprocess.DEVNULL,
                stdout=log,
                stderr=log,
                **self.user,
            )
            try:
                end = time.monotonic() + SECONDS
                while run(["pg_isready", "-q"], env=self.environment).returncode:
                    if server.poll() is not None or time.monotonic() > end:
                        raise RuntimeError((self.folder / "log").read_text(encoding="utf-8")[-1000:])
                    time.sleep(0.1)
                yield
            finally:
                # The fast shutdown: connections are ended.
                server.send_signal(signal.SIGINT)
                server.wait(SECONDS)

    def printed(self, statements: List[Statement], database: str = "postgres", first: str = "") -> List[str]:
        """What the program psql prints for each statement, and after all of them; an error as 'Error: '."""
        script = [f"{first}\n"]
        for index, (_, statement, _) in enumerate(statements):
            script.append(f"{statement}\n\\echo -- {index}\n")
        done = subprocess.run(
            ["psql", "-X", "-q", "-A", "-t", "-v", "VERBOSITY=terse", "-d", database],
            input="".join(script).encode(),
            stdout=subprocess.PIPE,
            stderr=subprocess.STDOUT,
            env=self.environment,
            timeout=SECONDS,
            check=False,
        )
        return sql_rows.answers_of(statements, done.stdout.replace(b"ERROR:  ", b"Error: "))

    def hold(self, statements: List[Statement], database: str = "postgres", first: str = "") -> None:
        *answers, rest = self.printed(statements, database, first)
        sql_rows.hold(statements, answers)
        assert rest == "", rest

    def make(self, database: str, encoding: str = "UTF8") -> None:
        """An empty database of an encoding."""
        succeed(["createdb", "-T", "template0", "-E", encoding, database], env=self.environment)


def below(stage: pathlib.Path, folder: pathlib.Path) -> pathlib.Path:
    return stage / folder.relative_to("/")


def add_links(source: pathlib.Path, target: pathlib.Path) -> None:
    """Links from a folder to all that another has, but for what is there, and but for an installed crsdesk."""
    target.mkdir(parents=True, exist_ok=True)
    for path in source.iterdir():
        if path.name == "extension":
            add_links(path, target / path.name)
        elif not path.name.startswith("crsdesk") and not (target / path.name).exists():
            (target / path.name).symlink_to(path)
