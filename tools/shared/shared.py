"""What the scripts share: plain files, the crates, counts of checks, and processes that end with the script."""
import contextlib
import functools
import importlib.machinery
import importlib.util
import os
import re
import resource
import shutil
import signal
import stat
import subprocess
import sys
import tempfile
import threading
import time

if sys.version_info < (3, 9):
    sys.exit(f"Python 3.9 or later is needed, and this is {sys.version.split()[0]}")
if sys.flags.optimize > 1:
    sys.exit("python -OO leaves out the texts that the scripts of this repository tell, so none of them runs so")

ROOT = os.path.dirname(os.path.dirname(os.path.dirname(os.path.realpath(__file__))))
# No file that these scripts write comes near to so many bytes.
MOST = 64_000_000
# What the C library's allocator is set to for a program where the user has set nothing (docs/BENCHMARKS.md): large
# pages, and no bins of small pieces that are merged late. A library that knows no such setting passes over it.
ALLOCATOR = "glibc.malloc.hugetlb=1:glibc.malloc.mxfast=0"
# By the clock a process has so many times the processor's time that it may take: others may be at work too.
PATIENCE, MINUTE = 20, 60
ENDING = (signal.SIGHUP, signal.SIGINT, signal.SIGTERM)
STARTED, STARTING, ENDED_BY = set(), [], []


class Refused(Exception):
    """What stands in the way, in one line."""


class WrongUse(Exception):
    """A script's words aren't right: why, where there is more to say than how it is called."""


def check_use(is_right, why=""):
    """Ends a script with status 2 where its words aren't right."""
    if not is_right:
        raise WrongUse(why)


def bytes_of(path, links=os.O_NOFOLLOW):
    """The bytes of a plain file, or None where there is nothing. A pipe or a folder is refused, and so is a huge file,
    and a link where these aren't followed."""
    try:
        file = open(path, "rb", opener=lambda it, _: os.open(it, os.O_RDONLY | os.O_NONBLOCK | links))
    except (FileNotFoundError, NotADirectoryError):
        return None
    except OSError as error:
        raise Refused(f"{path} is no plain file that can be read: {error.strerror}") from None
    with file:
        found = os.fstat(file.fileno())
        if not stat.S_ISREG(found.st_mode) or found.st_size > MOST:
            raise Refused(f"{path} is no plain file, or one of more than {MOST:,} bytes")
        return file.read()


def read_text(path, errors="strict"):
    """The text of a plain file, or of one behind links. Where there is none, or it isn't UTF-8, it is refused."""
    found = bytes_of(path, 0)
    if found is None:
        raise Refused(f"{path} isn't there")
    try:
        return found.decode(errors=errors)
    except UnicodeDecodeError:
        raise Refused(f"{path} isn't UTF-8") from None


def put_bytes(text, to, room, mode=0o644):
    """Writes a file by way of the folder room, on the same disk, so that no half of it is ever there. With the mode
    None a file that stands there keeps its own, and its owner as far as that can be."""
    os.makedirs(os.path.dirname(to), exist_ok=True)
    with open(f"{room}/file", "wb", opener=lambda it, flags: os.open(it, flags, mode or 0o644)) as file:
        file.write(text)
    if mode is None and os.path.exists(to):
        found = os.stat(to)
        with contextlib.suppress(OSError):
            os.chown(f"{room}/file", found.st_uid, found.st_gid)
        os.chmod(f"{room}/file", stat.S_IMODE(found.st_mode))
    os.replace(f"{room}/file", to)


def write_text(path, text):
    """Has a file of this checkout hold this text. One that stands there keeps its mode."""
    os.makedirs(os.path.dirname(f"{ROOT}/{path}"), exist_ok=True)
    with tempfile.TemporaryDirectory(dir=ROOT, prefix=".made-") as room:
        put_bytes(text.encode(), f"{ROOT}/{path}", room, None)


def text_of(path):
    """The text of a file of this checkout, and an empty one where there is none."""
    with contextlib.suppress(OSError), open(f"{ROOT}/{path}", encoding="utf-8") as file:
        return file.read()
    return ""


def files_in(folder):
    """The files below a folder, by name, one folder after the other. A link counts as a file."""
    for at, folders, names in os.walk(folder):
        links = [it for it in folders if os.path.islink(f"{at}/{it}")]
        folders.sort()
        yield from (f"{at}/{it}" for it in sorted([*names, *links]))


def uses_of_crates():
    """The crates of crates.txt, each with those that its line names."""
    lines = read_text(f"{ROOT}/crates.txt", "surrogateescape").split("\n")
    rows = [line.partition("#")[0].partition(":") for line in lines]
    return {head.split()[0]: uses.split() for head, found, uses in rows if found and head.split()}


def below(name, uses, above=()):
    """The repository's crates that a crate stands on, each after those that it uses."""
    way = (*above, name)
    if name in above:
        raise Refused(f"crates.txt has a cycle: {', '.join(way[way.index(name):])}")
    return [*dict.fromkeys(it for used in uses.get(name, ()) if used in uses for it in (*below(used, uses, way), used))]


class Tally:
    """Counts what passed, and says what failed."""

    def __init__(self):
        self.passed = self.failed = 0
        self.alone = threading.Lock()

    def add(self, passed, failed, *lines):
        """Adds to the counts, and says these lines."""
        with self.alone:
            self.passed, self.failed = self.passed + passed, self.failed + failed
            print(*(f"{it}\n" for it in lines), sep="", end="", flush=True)

    def count(self, name, is_well, said=""):
        self.add(bool(is_well), not is_well, *([] if is_well else [f"FAILED: {name}{': ' if said else ''}{said}"]))

    def told(self):
        """Says the counts, and answers the status."""
        print(f"{self.passed} passed, {self.failed} failed")
        return 1 if self.failed else 0


def kill(process):
    with contextlib.suppress(OSError):
        os.killpg(process.pid, signal.SIGTERM)


@contextlib.contextmanager
def started(words, **how):
    """A process with a group of its own, which ends where this is left, and where a signal ends the script."""
    STARTING.append(words)
    try:
        process = subprocess.Popen(words, start_new_session=True, **{"stdin": subprocess.DEVNULL, **how})
        STARTED.add(process)
    finally:
        STARTING.pop()
    try:
        if ENDED_BY:
            sys.exit(128 + ENDED_BY[0])
        yield process
    finally:
        # Told twice to end, `rt` would leave what it has started.
        if process in STARTED and process.poll() is None:
            kill(process)
        process.wait()
        STARTED.discard(process)


def ran(words, given=None, seconds=None, **how):
    """What a process writes and its status, once it has ended: bytes, or texts where `how` says so. The given bytes, if
    any, it reads from a file. It, and each process that it starts, has so many seconds of a processor, if any are
    said."""
    with contextlib.ExitStack() as stack:
        if given is not None:
            how["stdin"] = stack.enter_context(tempfile.TemporaryFile())
            how["stdin"].write(given)
            how["stdin"].seek(0)
        process = stack.enter_context(started(words, **{"stdout": subprocess.PIPE, "stderr": subprocess.PIPE, **how}))
        if seconds:
            with contextlib.suppress(ProcessLookupError):
                resource.prlimit(process.pid, resource.RLIMIT_CPU, (seconds, seconds + 1))
        said, told = process.communicate(timeout=seconds and PATIENCE * seconds)
    return subprocess.CompletedProcess(words, process.returncode, said, told)


def said_by(words, given=None, **how):
    """The text that a process writes, which has to end well."""
    found = ran(words, given, text=True, errors="replace", **how)
    if found.returncode:
        raise Refused(f"{' '.join(words)}: status {found.returncode}\n{found.stdout[-2000:]}{found.stderr[-2000:]}")
    return found.stdout


# The one program that isn't proved: an ordinary one, which cargo builds.
SHELL = "trie_shell"


def built(name, ending=""):
    """The path of a program, as ./check put it here, or cargo the shell, or in the folder PROGRAMS."""
    release = f"{os.environ.get('CARGO_TARGET_DIR') or f'{ROOT}/target'}/release"
    usual = release if name == SHELL else f"{ROOT}/crates/{name}/out"
    return os.path.abspath(f"{os.environ.get('PROGRAMS') or usual}/{name}{ending}")


def need(*names):
    """Refuses to go on where one of these programs isn't built. The shell is built by cargo first."""
    if SHELL in names and not os.environ.get("PROGRAMS"):
        words = ["cargo", "build", "--release", "--locked", "--offline", "--package", "shell"]
        done = ran(words, cwd=ROOT, text=True, errors="replace")
        if done.returncode:
            raise Refused(f"{SHELL} could not be built: {done.stderr[-2000:]}")
    for path in (it for it in map(built, names) if not os.access(it, os.X_OK)):
        raise Refused(f"{path} isn't there: ./check builds it; PROGRAMS=target/release takes what cargo has built")


def surroundings_of(**changed):
    """The surroundings of a script's commands: the user's, with these changes, by the rules of no language."""
    known = {it: value for it, value in os.environ.items() if it != "CDPATH"}
    return {**known, **changed, "LC_ALL": "C"}


@contextlib.contextmanager
def telling(what):
    """Says what is being tried, and each minute that it goes on."""
    ended, start = threading.Event(), time.monotonic()

    def tell():
        with contextlib.suppress(OSError):
            while not ended.wait(MINUTE):
                print(f"{what} goes on, for {(time.monotonic() - start) / 60:.0f} minutes by now", flush=True)

    print(f"{what}:", flush=True)
    teller = threading.Thread(target=tell)
    teller.start()
    try:
        yield
    finally:
        ended.set()
        teller.join()


def shown(command, hear, **how):
    """Shows what a command says, which is heard too, part by part. Its status."""
    how |= {"stdout": subprocess.PIPE, "stderr": subprocess.STDOUT}
    with telling(command), started(command.split(), **how) as process:
        while part := process.stdout.read1():
            sys.stdout.buffer.write(part)
            sys.stdout.buffer.flush()
            hear(part)
    return process.returncode


def add(tally, command, folder, hear=None, **surroundings):
    """Shows what a command says, and adds all its checks, which it counts in its last line. How many passed. What is
    shown is heard too, part by part."""
    last = bytearray()

    def note(part):
        last.extend(part)
        del last[:-1000]
        if hear:
            hear(part)

    status = shown(command, note, cwd=folder, env=surroundings_of(**surroundings))
    return add_counts(tally, command, bytes(last), status)


def add_counts(tally, command, said, status):
    """Adds the checks that a command's last line counts. How many passed."""
    counts = re.match(rb"(\d+) passed, (\d+) failed", said.rstrip().split(b"\n")[-1])
    passed, failed = map(int, counts.groups()) if counts else (0, 0)
    tally.add(passed, failed)
    if not counts or status and not failed:
        why = f"it ended with status {status}" + (", and with no count" if not counts else "")
        tally.count(command, False, why)
    return passed


def end(number, _):
    """Ends the script by this signal, with all that it has started, once what is being started is known."""
    ENDED_BY.append(number)
    for it in ENDING:
        signal.signal(it, lambda *_: None)
    for process in [*STARTED]:
        STARTED.discard(process)
        kill(process)
    if not STARTING:
        sys.exit(128 + number)


def heed_signals():
    """Has a signal that ends the script end all that it has started too."""
    for number in ENDING:
        signal.signal(number, end)


def run(main):
    """Runs a script: where a signal ends it, what it has made for itself goes, and what stands in its way is one line.
    --help prints its text, of which wrong use prints a line."""
    path, text = main.__globals__["__file__"], main.__globals__["__doc__"].strip()
    heed_signals()
    try:
        if sys.argv[1:] == ["--help"]:
            os.write(1, f"{text}\n".encode())
            sys.exit(0)
        sys.exit(main(sys.argv[1:]))
    except WrongUse as why:
        print(re.search("^usage: .*", text, re.M)[0], *filter(None, why.args), sep=": ", file=sys.stderr)
        sys.exit(2)
    except (OSError, RecursionError, Refused, UnicodeError, subprocess.SubprocessError) as error:
        sys.exit(f"{os.path.relpath(os.path.realpath(path), ROOT)}: {error}")


@functools.cache
def script(name):
    """A script of tools/, for what it knows."""
    loader = importlib.machinery.SourceFileLoader(name, f"{ROOT}/tools/{name}")
    made = importlib.util.module_from_spec(importlib.util.spec_from_loader(name, loader))
    loader.exec_module(made)
    return made


def compile_faults(room):
    """Makes the library of tools/checks/faults.c in this folder, by CC, cc or clang."""
    compiler = (os.environ.get("CC") or ("cc" if shutil.which("cc") else "clang")).split()
    if not shutil.which(compiler[0]):
        raise Refused(f"a C compiler is needed, cc, clang or what CC names, and there is no {compiler[0]} on the path")
    words = ["-O1", "-shared", "-fPIC", "-o", f"{room}/faults.so", f"{ROOT}/tools/checks/faults.c"]
    made = ran([*compiler, *words], text=True)
    if made.returncode or not os.path.isfile(f"{room}/faults.so"):
        raise Refused(f"{compiler[0]} made no library: {made.stderr.strip()[:200]}")


@functools.cache
def is_of_rust(program):
    """Whether Rust's compiler made a program: Rust's library reads a variable of this name."""
    with open(program, "rb") as file:
        return b"RUST_BACKTRACE" in file.read()


def preloading(library, program, faults):
    """The surroundings of a run of a program with the library of tools/checks/faults.c, and with these faults."""
    words = {**({"RUST": 1} if is_of_rust(program) else {}), **dict(faults)}
    return {"LD_PRELOAD": library, **{it: str(number) for it, number in words.items()}}
