"""What every mode that Python answers uses: the programs that it starts, the list that it reads, what it writes, and how it ends.

Nothing else in these tools starts a program, opens a list, writes to standard output or error, takes a signal or ends the process."""
import contextlib
import dataclasses
import errno
import fcntl
import io
import os
import re
import select
import signal
import stat
import subprocess
import time
from typing import TYPE_CHECKING, Any, Callable, Iterator, List, NamedTuple, Optional, Sequence, Tuple, Union

import notes

if TYPE_CHECKING:
    from sheet import Sheet

FINE, MISSED, REFUSED, TROUBLE, STRICT, USAGE = 0, 1, 2, 3, 4, 64
ANSWERED = 100  # is added to a status, so that the end of a Python that could not start is never taken for one
SIGNALS = signal.SIGHUP, signal.SIGINT, signal.SIGTERM
QUIET = 2.0  # seconds before the first word on a terminal
EVERY = 0.5  # seconds between two words
PROGRAMS = {"rows": "sivorandra", "verdict": "verdict", "replay": "replay", "check": "plan_checker"}  # of another question it is `query`, which reads the question before the table


class Trouble(Exception):
    """What went wrong, and the status."""

    def __init__(self, words: str, status: int = TROUBLE, more: Sequence[str] = ()):
        super().__init__(words)
        self.status, self.lines = status, [words, *more]


class Declined(Trouble):
    """What was asked for cannot be done."""


class Gone(Exception):
    """The reader of standard output has gone away."""


class Stopped(BaseException):
    """A signal came."""


@dataclasses.dataclass(frozen=True)
class Call:
    """What was asked for: the folder of the programs, the table and its file, the list and the ticks; the mode, the sheet that the table was written as, and whether names go behind lines.
    Of several files: their names, whether all of them are sheets, whether a record on no chain is no success, and how many are asked at once."""
    programs: str = ""
    table: bytes = b""
    file: str = ""
    list: str = ""
    since: Optional[int] = None
    until: Optional[int] = None
    mode: str = ""
    sheet: "Optional[Sheet]" = None
    names: bool = False
    files: Sequence[str] = ()
    sheets: bool = False
    strict: bool = False
    jobs: int = 1

    def program(self, question: str) -> List[str]:
        return asked(self.programs, question)[0]

    def asking(self, question: str) -> "Tuple[List[str], bytes]":
        return asked(self.programs, question, self.table)


def asked(folder: str, question: str, table: bytes = b"") -> "Tuple[List[str], bytes]":
    """The program of a folder that a question is for, and all that it reads."""
    return [os.path.join(folder, PROGRAMS.get(question, "query"))], (b"" if question in PROGRAMS else f"{question}\n".encode()) + table


Mode = Callable[[Call], Tuple[int, str]]  # it writes the answer, and gives the status and the first line, which notes go by


class Made(NamedTuple):
    """What is to be written, the status, and the program's first line, which the notes go by."""
    text: str
    status: int
    first: str


# ---- What is written

def shown(words: str) -> str:
    """Words as they may be shown: what cannot be printed, and what turns the direction of writing, is escaped; so is a byte that is no UTF-8."""
    escaped = lambda one: f"\\x{ord(one) - 0xDC00:02x}" if 0xDC80 <= ord(one) <= 0xDCFF else one.encode("unicode_escape").decode()
    return "".join(one if one.isprintable() else escaped(one) for one in words)


def say(words: object) -> None:
    """A note, where standard error can be written."""
    with contextlib.suppress(OSError):
        os.write(2, f"sivorandra: {shown(str(words))}\n".encode("utf-8", "backslashreplace"))


def ready(descriptor: int, events: int, seconds: Optional[float] = None) -> bool:
    """Waits until a descriptor can be read or written."""
    poll = select.poll()
    poll.register(descriptor, events)
    return bool(poll.poll(None if seconds is None else 1000 * seconds))


def write(data: Union[bytes, memoryview]) -> None:
    """Writes all of it to standard output, also where that does not wait."""
    left = memoryview(data)
    while left:
        try:
            left = left[os.write(1, left):]
        except BlockingIOError:
            ready(1, select.POLLOUT)
        except BrokenPipeError:
            raise Gone
        except OSError:
            raise Trouble("standard output could not be written")


class Line:
    """The line that a terminal at standard error shows and rewrites."""

    def __init__(self):
        self.begun = self.last = time.monotonic()
        self.seen, self.shown = os.isatty(2), False

    def say(self, words: str) -> None:
        now = time.monotonic()
        if self.seen and now - self.begun >= QUIET and now - self.last >= EVERY:
            self.put(f"\r\033[Ksivorandra: {words}, {now - self.begun:.0f} s")
            self.last, self.shown = now, True

    def clear(self) -> None:
        if self.shown:
            self.put("\r\033[K")
        self.shown = False

    def put(self, words: str) -> None:
        with contextlib.suppress(OSError):
            os.write(2, words.encode())


LINE = Line()

# ---- What is read

class Bytes(io.RawIOBase):
    """A descriptor that is read from where it is; one that does not wait is waited for."""

    def __init__(self, descriptor: int):
        super().__init__()
        self.descriptor = descriptor
        for fails, number in (stat.S_ISDIR(os.fstat(descriptor).st_mode), errno.EISDIR), (fcntl.fcntl(descriptor, fcntl.F_GETFL) & os.O_ACCMODE == os.O_WRONLY, errno.EBADF):
            if fails:
                raise OSError(number, os.strerror(number))

    def readable(self) -> bool:
        return True

    def fileno(self) -> int:
        return self.descriptor

    def readinto(self, buffer: Any) -> int:
        while True:
            try:
                return os.readv(self.descriptor, [buffer])
            except BlockingIOError:
                ready(self.descriptor, select.POLLIN)


class Source:
    """A list or a plan that is being read: a file, '-' for standard input, or a descriptor of ours by one of its names."""

    def __init__(self, path: str, called: str):
        handed = re.fullmatch(r"-|/dev/stdin|(?:/dev/fd|/proc/self/fd)/([0-9]{1,9})", path)
        self.name = called if handed else path
        self.bytes = self.tried(lambda: io.BufferedReader(Bytes(int(handed[1] or 0) if handed else os.open(path, os.O_RDONLY))))

    def tried(self, action: Callable[[], Any]) -> Any:
        try:
            return action()
        except OSError as error:
            raise Declined(f"{self.name} could not be read: {error.strerror}")

    def fileno(self) -> int:
        return self.bytes.fileno()

    def readline(self, most: int) -> bytes:
        return self.tried(lambda: self.bytes.readline(most))

    def read1(self, most: int) -> bytes:
        return self.tried(lambda: self.bytes.read1(most))


def list_of(call: Call) -> Source:
    """The list of a call; where the table is a sheet, its lines may have names."""
    if call.sheet is None:
        return Source(call.list, "the list")
    from sheet_lists import NamedSource  # which only sheets need
    return NamedSource(call.list, "the list", call.sheet.names())


# ---- The programs

_running: List[subprocess.Popen] = []
_children: List[int] = []  # processes of our own that answer a call each
_starting, _ending, _pending = False, False, 0  # whether a program is being started, whether all is ending, the signal that came


def start(command: List[str], given: Optional[bytes] = None) -> subprocess.Popen:
    """Starts a program, which ends with us at the latest; where all that it reads is given, it is handed that. A signal waits until it is known."""
    global _starting
    _starting = True
    try:
        process = subprocess.Popen(command, stdin=subprocess.PIPE, stdout=subprocess.PIPE)
        _running.append(process)
    except OSError as error:
        raise Trouble(f"{command[0]} could not be started: {error.strerror}")
    finally:
        _starting = False
        if _pending:
            raise Stopped
    if given is not None:
        send(process, given)
        with contextlib.suppress(BrokenPipeError):
            process.stdin.close()
    return process


def send(process: subprocess.Popen, data: bytes) -> None:
    """Sends bytes to a program. If it has ended, its output shows that."""
    with contextlib.suppress(BrokenPipeError):
        process.stdin.write(data)
        process.stdin.flush()


def end(process: subprocess.Popen) -> None:
    """Ends a program, whatever it does."""
    process.kill()
    for pipe in process.stdin, process.stdout:
        with contextlib.suppress(OSError):
            if pipe:
                pipe.close()
    process.wait()
    if process in _running:
        _running.remove(process)


@contextlib.contextmanager
def running(command: List[str], given: Optional[bytes] = None) -> Iterator[subprocess.Popen]:
    """A program while it runs: leaving this ends it."""
    process = start(command, given)
    try:
        yield process
    finally:
        end(process)


def first_line(process: subprocess.Popen, most: int = 1 << 12) -> bytes:
    """The first line of a program. A terminal shows that it is waited for."""
    while not ready(process.stdout.fileno(), select.POLLIN, EVERY):
        LINE.say("still judging")
    LINE.clear()
    return process.stdout.readline(most)


def verdict_of(call: Call, first: str) -> str:
    """The verdict on a table that has no miss to explain (number 17), for the note on it."""
    if not first.startswith("refused 17 "):
        return ""
    with running(call.program("verdict"), call.table) as process:
        return first_line(process).decode("ascii", "replace").removesuffix("\n")


# ---- The end

def stop(number: int, _frame) -> None:
    """A signal stops what is done, once a program that is being started is known; where all is ending anyway it changes nothing."""
    global _pending
    _pending = _pending or number
    if not (_starting or _ending):
        raise Stopped


def fault(error: Exception) -> str:
    """A fault of these tools, or of a program's output, with its place."""
    at = error.__traceback__
    while at.tb_next:
        at = at.tb_next
    return f"{os.path.basename(at.tb_frame.f_code.co_filename)}, line {at.tb_lineno}: {type(error).__name__}: {error}"


def ended(mode: Mode, call: Call) -> int:
    """The status of a mode; the notes beside its answer are printed."""
    try:
        status, first = mode(call)
        LINE.clear()
        for note in notes.notes(call.table, first, verdict_of(call, first)):
            say(note)
        return status
    except Gone:
        return TROUBLE
    except Trouble as trouble:
        LINE.clear()
        for line in trouble.lines:
            say(line)
        return trouble.status
    except Exception as error:
        LINE.clear()
        say(fault(error))
        return TROUBLE


def main(mode: Mode, call: Call) -> None:
    """Answers a mode and ends: what it has started with it, by a signal as the signal does."""
    global _ending
    for number in SIGNALS:
        if signal.getsignal(number) != signal.SIG_IGN:
            signal.signal(number, stop)
    signal.signal(signal.SIGCHLD, signal.SIG_DFL)
    status = TROUBLE
    try:
        try:
            status = ended(mode, call)
        finally:
            _ending = True
    except Stopped:
        _ending = True
    for child in _children:
        os.kill(child, signal.SIGTERM)
        os.waitpid(child, 0)
    for process in list(_running):
        end(process)
    if _pending:
        LINE.clear()
        signal.signal(_pending, signal.SIG_DFL)
        os.kill(os.getpid(), _pending)
    os._exit(ANSWERED + status)
