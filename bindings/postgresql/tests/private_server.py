"""A PostgreSQL server of one's own, with the extension, for tests and measurements.

The installation is a private one: the programs that look for their files beside themselves are
copied, and the rest is linked. So the extension is installed without a change to the system's
folders. The server listens on a socket in its own folder alone, runs as an unprivileged user where
root starts it, and leaves nothing behind.
"""

import os
import pwd
import shutil
import signal
import subprocess
import sys
import tempfile
from collections.abc import Sequence
from pathlib import Path
from types import FrameType, TracebackType
from typing import Optional, TypedDict, Union

Word = Union[str, Path]  # of a command
EXTENSION = Path(__file__).resolve().parent.parent
COPIED = ('postgres', 'initdb', 'pg_ctl', 'pg_config')
UNPRIVILEGED = ('postgres', 'nobody')  # users, of whom the first that exists runs the server
SETTINGS = {'listen_addresses': '', 'fsync': 'off', 'shared_buffers': '256MB',
            'max_worker_processes': '16', 'max_parallel_workers': '8', 'max_wal_size': '4GB',
            'autovacuum': 'off', 'log_min_messages': 'fatal'}


class Failure(Exception):
    """A command failed, with what it has said."""


class RunAs(TypedDict, total=False):
    """As whom a command runs."""

    user: int
    group: int
    extra_groups: list[int]


def run(command: Sequence[Word], given: str = '', as_whom: Optional[RunAs] = None) -> str:
    """What a command prints, which has to end with 0."""
    options = as_whom if as_whom is not None else RunAs()
    done = subprocess.run(command, input=given, check=False, stdout=subprocess.PIPE,
                          stderr=subprocess.STDOUT, encoding='utf-8', cwd='/', **options)
    if done.returncode != 0:
        raise Failure(f'{command[0]}: status {done.returncode}\n{done.stdout[-4000:]}')
    return done.stdout


def programs() -> Optional[Path]:
    """The folder of the newest server that has the files to build extensions; None without one."""
    named = sorted(Path('/usr/lib/postgresql').glob('*/bin'), reverse=True,
                   key=lambda path: [int(part) for part in path.parent.name.split('.')])
    on_path = shutil.which('pg_config')
    if on_path is not None:
        named.append(Path(run([on_path, '--bindir']).strip()))
    for folder in named:
        if all((folder / name).is_file() for name in (*COPIED, 'psql')):
            if Path(run([folder / 'pg_config', '--pgxs']).strip()).is_file():
                return folder
    return None


def link(source: Path, target: Path, but: str = '') -> None:
    """Links what is in a folder, with the exception of this name, into another."""
    target.mkdir(parents=True, exist_ok=True)
    for path in source.iterdir():
        if path.name != but:
            (target / path.name).symlink_to(path)


def lay_out(folder: Path, root: Path) -> Path:
    """Makes a private installation of the server whose programs are in the folder, and returns the
    folder of its own programs."""
    def place(option: str) -> tuple[Path, Path]:
        source = Path(run([folder / 'pg_config', option]).strip())
        return source, root / source.relative_to('/')

    (_, own), (library, own_library) = place('--bindir'), place('--pkglibdir')
    (share, own_share), (include, own_include) = place('--sharedir'), place('--pkgincludedir')
    own.mkdir(parents=True)
    for name in COPIED:
        shutil.copy2(folder / name, own / name)
    link(library, own_library)
    link(share, own_share, but='extension')
    link(share / 'extension', own_share / 'extension')
    own_include.parent.mkdir(parents=True, exist_ok=True)
    own_include.symlink_to(include)
    return own


def unprivileged() -> tuple[Optional[pwd.struct_passwd], RunAs]:
    """Who is to run the server where root starts it, which it refuses to be run by."""
    if os.geteuid() != 0:
        return None, RunAs()
    users = {user.pw_name: user for user in pwd.getpwall()}
    user = next(users[name] for name in UNPRIVILEGED if name in users)
    return user, RunAs(user=user.pw_uid, group=user.pw_gid, extra_groups=[])


def end(number: int, frame: Optional[FrameType]) -> None:
    """Ends the program so that its `with` blocks are left, where a signal asks for its end."""
    sys.exit(128 + number)


class Server:
    """A running server, for the time of a `with`."""

    def __init__(self, folder: Path, library: Path) -> None:
        """The server has its programs in the folder, and the extension is built over the library's
        folder."""
        self.folder = folder
        self.library = library
        self.root = Path(tempfile.mkdtemp(prefix='rxl-pg-'))
        self.user, self.as_whom = unprivileged()
        self.own = Path()
        self.is_started = False

    @property
    def data(self) -> Path:
        """Where the server keeps its data."""
        return self.root / 'data'

    def __enter__(self) -> 'Server':
        signal.signal(signal.SIGTERM, end)
        try:
            self.root.chmod(0o755)
            self.own = lay_out(self.folder, self.root)
            self.install()
            self.start()
        except BaseException:
            self.stop()
            raise
        return self

    def __exit__(self, kind: Optional[type[BaseException]], value: Optional[BaseException],
                 trace: Optional[TracebackType]) -> None:
        signal.signal(signal.SIGTERM, signal.SIG_DFL)
        self.stop()

    def install(self) -> None:
        """Builds the extension in a copy, and installs it in the private installation."""
        copy = self.root / 'source'
        shutil.copytree(EXTENSION, copy, ignore=shutil.ignore_patterns('*.o', '*.so', 'tests'))
        for goal in ('all', 'install'):
            run(['make', '-s', '-C', copy, goal, f'PG_CONFIG={self.own / "pg_config"}',
                 f'FOLDER={self.library}', 'COPT=-Werror'])

    def start(self) -> None:
        """Starts the server, and makes the extension in its first database."""
        for folder in (self.data, self.root / 'socket'):
            folder.mkdir(mode=0o700)
            if self.user is not None:
                os.chown(folder, self.user.pw_uid, self.user.pw_gid)
        run([self.own / 'initdb', '-D', self.data, '-U', 'postgres', '-A', 'trust', '-E', 'UTF8',
             '--locale=C', '--no-sync'], as_whom=self.as_whom)
        settings = {**SETTINGS, 'unix_socket_directories': str(self.root / 'socket')}
        options = ' '.join(f"-c {name}='{value}'" for name, value in settings.items())
        run([self.own / 'pg_ctl', '-D', self.data, '-w', '-l', self.data / 'log', '-o', options,
             'start'], as_whom=self.as_whom)
        self.is_started = True

    def stop(self) -> None:
        """Stops the server, if it runs, and removes all that is its own."""
        if self.is_started:
            run([self.own / 'pg_ctl', '-D', self.data, '-w', '-m', 'immediate', 'stop'],
                as_whom=self.as_whom)
        # A program that was interrupted may still be writing there.
        shutil.rmtree(self.root, ignore_errors=True)

    def command(self, database: str = 'postgres') -> list[Word]:
        """A psql that prints nothing but values, and ends at the first error."""
        return [self.folder / 'psql', '-XqAt', '-v', 'ON_ERROR_STOP=1', '-h', self.root / 'socket',
                '-U', 'postgres', '-d', database]

    def query(self, script: str, database: str = 'postgres') -> str:
        """What psql prints for a script, which has to pass."""
        return run(self.command(database), script)
