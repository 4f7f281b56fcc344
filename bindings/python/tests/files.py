"""Checks which files `write` of the package nifazombi replaces, how, and what is left of a run that is killed."""
import contextlib
import os
import resource
import signal
import stat
import tempfile
from unittest import mock

from nifazombi import Texts

# Where the tests may be another user's, they are this one's and that one's.
ONE, OTHER, GROUP = 1001, 1002, 4242
IS_ROOT = os.geteuid() == 0


def forked(call, user=None):
    """What a call says in a process of its own, of this user: nothing where it ends well, or the signal that ends it."""
    reading, writing = os.pipe()
    process = os.fork()
    if not process:
        with contextlib.suppress(BaseException):
            if user:
                os.setgroups([]), os.setgid(user), os.setuid(user)
            try:
                call()
            except BaseException as told:
                os.write(writing, f"{type(told).__name__}: {told}".encode())
        os._exit(0)
    os.close(writing)
    with open(reading, "rb") as said:
        text = said.read().decode()
    ended = os.waitpid(process, 0)[1]
    return f"signal {os.WTERMSIG(ended)}" if os.WIFSIGNALED(ended) else text


def write(path, value=1):
    Texts.write(path, {"a": value})


def value_of(path):
    with Texts.open(path) as texts:
        return texts["a"]


def refused(path, kind, why, user=None):
    """Tries that a file stays as it is, for this reason, and nothing is left beside it."""
    before, around = os.lstat(path), sorted(os.listdir(os.path.dirname(path)))
    said = forked(lambda: write(path, 2), user)
    assert said.startswith(f"{kind}: ") and f"] {why}: " in said and repr(path) in said, said
    after = os.lstat(path)
    assert [*before[:7], before.st_mtime_ns] == [*after[:7], after.st_mtime_ns]
    assert sorted(os.listdir(os.path.dirname(path))) == around


def try_kinds(room):
    """What is no plain file of one's own with one name isn't replaced."""
    write(f"{room}/plain")
    os.symlink("plain", f"{room}/link")
    os.symlink("loop", f"{room}/loop")
    os.symlink("nowhere", f"{room}/broken")
    for name in ("link", "loop", "broken"):
        refused(f"{room}/{name}", "OSError", "a link")
    os.mkdir(f"{room}/folder")
    refused(f"{room}/folder", "IsADirectoryError", "a folder")
    os.mkfifo(f"{room}/pipe")
    refused(f"{room}/pipe", "OSError", "a device or a pipe")
    if IS_ROOT:
        os.mknod(f"{room}/null", stat.S_IFCHR | 0o666, os.makedev(1, 3))
        refused(f"{room}/null", "OSError", "a device or a pipe")
    os.chmod(f"{room}/plain", 0o444)
    refused(f"{room}/plain", "PermissionError", "read-only")
    os.chmod(f"{room}/plain", 0o644)
    os.link(f"{room}/plain", f"{room}/again")
    refused(f"{room}/plain", "OSError", "several names")
    for path in (f"{room}/none/table", f"{room}/plain/table", "", f"{room}/{'n' * 300}", f"{room}/new/"):
        assert "Error: " in forked(lambda path=path: write(path))
    assert value_of(f"{room}/plain") == 1


def try_owners(room):
    """Another user's file isn't replaced, nor one whose group can't be kept, and who may read it stays."""
    os.chmod(room, 0o777)
    for user, group, writer in ((ONE, ONE, OTHER), (ONE, ONE, None), (OTHER, GROUP, OTHER)):
        with open(f"{room}/table", "w"):
            os.chown(f"{room}/table", user, group)
        refused(f"{room}/table", "PermissionError", "another owner", writer)
        os.unlink(f"{room}/table")
    write(f"{room}/table")
    os.chown(f"{room}/table", -1, GROUP)
    os.chmod(f"{room}/table", 0o640)
    write(f"{room}/table", 2)
    found = os.stat(f"{room}/table")
    assert (found.st_gid, found.st_mode & 0o777, value_of(f"{room}/table")) == (GROUP, 0o640, 2)


def try_modes(room):
    """A new file has its mode by the umask; one that replaces another is its owner's alone until it is whole."""
    path, seen, widen = f"{room}/table", [], os.fchmod

    def fchmod(file, mode):
        seen.append((os.fstat(file).st_mode & 0o777, os.fstat(file).st_size, mode))
        widen(file, mode)

    before = os.umask(0o027)
    write(path)
    os.umask(before)
    assert os.stat(path).st_mode & 0o777 == 0o640
    os.chmod(path, 0o4666)
    with mock.patch("os.fchmod", fchmod):
        write(path, 2)
    assert seen == [(0o600, os.stat(path).st_size, 0o666)] and os.stat(path).st_mode & 0o7777 == 0o666
    assert os.listdir(room) == ["table"] and value_of(path) == 2


def killed(path, at="os.fsync"):
    """Ends a write by KILL where it makes this call."""
    with mock.patch(at, lambda *_: os.kill(os.getpid(), signal.SIGKILL)):
        assert forked(lambda: write(path, 3)) == f"signal {signal.SIGKILL}"


def try_killed(room):
    """What killed runs have left doesn't pile up, and hinders none; what others have beside a file stays."""
    write(f"{room}/table")
    os.mkdir(f"{room}/.nifazombi-0")
    os.symlink("table", f"{room}/.nifazombi-1")
    kept = [".nifazombi-0", ".nifazombi-1", "table"]
    if IS_ROOT:
        with open(f"{room}/.nifazombi-2", "w"):
            os.chown(f"{room}/.nifazombi-2", OTHER, OTHER)
        kept.insert(2, ".nifazombi-2")
    for at in ("os.fsync", "os.fsync", "os.replace"):
        killed(f"{room}/table", at)
        assert len(os.listdir(room)) == len(kept) + 1 and value_of(f"{room}/table") == 1
    write(f"{room}/table", 2)
    assert sorted(os.listdir(room)) == kept and value_of(f"{room}/table") == 2


def try_two(room):
    """Of two writes at once none takes the other's file away, and a failed one leaves none."""
    path, sync = f"{room}/table", os.fsync

    def other(file):
        with mock.patch("os.fsync", sync):
            assert forked(lambda: write(path, 2)) == "" and value_of(path) == 2
        assert sorted(os.listdir(room)) == [".nifazombi-0", "table"]
        sync(file)

    calls = iter((other, sync))
    with mock.patch("os.fsync", lambda file: next(calls)(file)):
        write(path)
    assert os.listdir(room) == ["table"] and value_of(path) == 1
    with mock.patch("os.fsync", side_effect=OSError(28, "full")), contextlib.suppress(OSError):
        write(path, 3)
    assert os.listdir(room) == ["table"] and value_of(path) == 1


def try_folder(room):
    """The disk is asked to keep the file, and then its name, and by a path alone too."""
    synced = []
    with mock.patch("os.fsync", lambda file: synced.append(os.readlink(f"/proc/self/fd/{file}"))):
        write(f"{room}/table")
        os.chdir(room)
        write("table", 2)
    at = os.path.realpath(room)
    assert synced == [f"{at}/.nifazombi-0", at] * 2 and value_of("table") == 2
    os.chdir("/")


def try_limits(room):
    """A file that is open isn't data of the process."""
    path = f"{room}/table"
    Texts.write(path, {"a": 1}, payload=bytes(64 << 20))
    with open("/proc/self/status") as status:
        used = next(int(it.split()[1]) << 10 for it in status if it.startswith("VmData"))

    def opened():
        resource.setrlimit(resource.RLIMIT_DATA, (used + (16 << 20),) * 2)
        assert value_of(path) == 1

    assert forked(opened) == ""


def main():
    if not __debug__:
        raise SystemExit("python -O checks nothing here")
    for each in (try_kinds, try_modes, try_killed, try_two, try_folder, try_limits, *[try_owners] * IS_ROOT):
        with tempfile.TemporaryDirectory() as room:
            each(room)


if __name__ == "__main__":
    main()
