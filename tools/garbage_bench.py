"""Runs of fab in a folder of their own: for tools/check_garbage."""
import collections
import errno
import os
import resource
import shutil
import socket
import subprocess
import tempfile
import time

from garbage_words import LIMIT, parse

# Beside other work a run may wait long for a processor.
WAIT = 600

# What may stand in the place of a file beside bytes: a number is a length of zeros, None is nothing.
Folder = collections.namedtuple("Folder", "")
Link = collections.namedtuple("Link", "target")
Socket = collections.namedtuple("Socket", "")
# A file that its owner may neither read nor write.
Closed = collections.namedtuple("Closed", "content")

# What is known of a case before it is run: its status and report (None: any), and what it has to store, by the paths of files.
Expected = collections.namedtuple("Expected", "status report stored")
# What a case is expected to do where nothing is known of it, and nothing is to be compared.
UNKNOWN = Expected(None, None, {})
# Status and report; how long it took; the paths that changed; what stands there afterwards, and in the outputs of the words.
Run = collections.namedtuple("Run", "status report seconds changed after outputs")


class Case:
    """Words, and what stands in the folder, by paths from there; where standard output goes.

    expected: what is known of it, or a function of the bench that tells it behind the run, or None. twin: another case that has the
    same status, and the same in its outputs, or None. again: a function of a run of this case that ended with 0: the next case to run."""

    def __init__(self, words, files, expected=None, twin=None, again=None, stdout=None):
        self.words, self.files = list(words), dict(files)
        self.expected, self.twin, self.again, self.stdout = expected, twin, again, stdout

    def copy(self, **files):
        """The case with other files, of which nothing is known."""
        return Case(self.words, dict(self.files, **files), stdout=self.stdout)


class Bench:
    """A folder in which cases are run, each for so many seconds of processor time at most."""

    def __init__(self, program, seconds):
        self.program, self.seconds = os.path.abspath(program), seconds
        self.folder = tempfile.mkdtemp(prefix="garbage.")
        self.runs = 0

    def limit_seconds(self):
        resource.setrlimit(resource.RLIMIT_CPU, (self.seconds, self.seconds))

    @property
    def here(self):
        return os.fsencode(self.folder)

    def path(self, name):
        return os.path.join(self.here, name)

    def put(self, name, content):
        """Makes what stands at a path, where the system can."""
        path = self.path(name)
        try:
            if isinstance(content, Folder):
                os.makedirs(path, exist_ok=True)
            elif isinstance(content, Link):
                os.symlink(content.target, path)
            elif isinstance(content, Socket):
                self._put_socket(path)
            else:
                self._put_file(path, content)
        except (OSError, ValueError):
            pass

    @staticmethod
    def _put_socket(path):
        with socket.socket(socket.AF_UNIX) as end:
            end.bind(path)

    @staticmethod
    def _put_file(path, content):
        is_closed = isinstance(content, Closed)
        content = content.content if is_closed else content
        with open(path, "wb") as file:
            if isinstance(content, int):
                file.truncate(content)
            else:
                file.write(content)
        if is_closed:
            os.chmod(path, 0)

    def fill(self, case):
        """Makes the folder what it is before the case runs."""
        shutil.rmtree(self.folder)
        os.mkdir(self.folder)
        names = [os.fsencode(name) for name, content in case.files.items() if content is not None]
        for name in names:
            if b"/" in name and b"\0" not in name:
                os.makedirs(os.path.dirname(self.path(name)), exist_ok=True)
        for name in names:
            self.put(name, case.files[os.fsdecode(name)])
        meant = parse(case.words)
        for name in meant[2] if meant else []:
            if b"\0" not in name and not os.path.lexists(self.path(name)) and not name.startswith(b"/"):
                self.put(name, b"old\n")

    def look(self):
        """What the folder holds, giants by their lengths alone, and links by their targets."""
        found = {}
        for folder, _, names in os.walk(self.here):
            for name in names:
                path = os.path.join(folder, name)
                found[os.path.relpath(path, self.here)] = self._look_at(path)
        return found

    @staticmethod
    def _look_at(path):
        if os.path.islink(path):
            return Link(os.readlink(path))
        if not os.path.isfile(path) or not os.access(path, os.R_OK):
            return None
        size = os.path.getsize(path)
        if size > LIMIT // 16:
            return size
        with open(path, "rb") as file:
            return file.read()

    def look_up(self, path):
        """The status with which a path of the last run cannot be read, or 0."""
        return self.fetch(path)[0]

    def fetch(self, path):
        """The status with which a path of the last run cannot be read, or 0, and its bytes."""
        if b"\0" in path:
            return 11, b""
        try:
            with open(self.path(path), "rb") as file:
                content = file.read(LIMIT + 1)
                return (3, b"") if len(content) > LIMIT else (0, content)
        except (FileNotFoundError, NotADirectoryError):
            return 2, b""
        except OSError as error:
            return (2 if error.errno == errno.ENAMETOOLONG else 11), b""

    def real(self, path):
        """Where in the folder a path leads; None where it leads out of it."""
        if b"\0" in path:
            return None
        found = os.path.relpath(os.path.realpath(self.path(path)), os.path.realpath(self.here))
        return None if found.startswith(b"..") else found

    def outputs(self, case):
        """What the outputs of the last run hold, in their order."""
        meant = parse(case.words)
        return [self.fetch(path)[1] for path in (meant[2] if meant else ()) if self.real(path) is not None]

    def run(self, case):
        self.fill(case)
        before = self.look()
        self.runs += 1
        began = time.monotonic()
        out = subprocess.PIPE if case.stdout is None else os.open(case.stdout, os.O_WRONLY)
        try:
            ended = subprocess.run([self.program] + case.words, cwd=self.folder, stdin=subprocess.DEVNULL, stdout=out,
                                   stderr=subprocess.PIPE, timeout=WAIT, preexec_fn=self.limit_seconds)
            status, report = ended.returncode, ended.stdout or b""
            if ended.stderr:
                report += b"\nstandard error: " + ended.stderr
        except subprocess.TimeoutExpired:
            status, report = "hang", b""
        finally:
            if case.stdout is not None:
                os.close(out)
        after = self.look()
        changed = [name for name in sorted(set(before) | set(after)) if before.get(name) != after.get(name)]
        return Run(status, report, time.monotonic() - began, changed, after, self.outputs(case))
