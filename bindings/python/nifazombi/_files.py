"""Files that are put in place of others, or refused, as the programs of this repository do it."""
import contextlib
import errno
import fcntl
import itertools
import os
import stat

# What a file's owner alone may read and write, and what a new file is asked to be: the umask takes bits away.
PRIVATE, COMMON = 0o600, 0o666


def replace(path, image):
    """Puts a file that holds these bytes in place of the file of this name, which stays as it is where that fails: they
    are written to a file beside it, which takes the name once the disk has them all."""
    path = os.fsdecode(path)
    before, folder = _replaceable(path), os.path.dirname(path) or "."
    with _beside(folder, PRIVATE if before else COMMON) as (made, file):
        if before:
            _keep_owner(file, before, path)
        file.write(image)
        file.flush()
        if before:
            # Last, since it may be widened for others so.
            os.fchmod(file.fileno(), before.st_mode & 0o777)
        os.fsync(file.fileno())
        os.replace(made, path)
    with contextlib.suppress(OSError):
        _sync(folder)


def _replaceable(path):
    """What is known of the file of this name, if there is one, and it may be replaced."""
    try:
        found = os.lstat(path)
    except FileNotFoundError:
        return None
    for is_so, number, why in (
        (stat.S_ISLNK(found.st_mode), errno.ELOOP, "a link"),
        (stat.S_ISDIR(found.st_mode), errno.EISDIR, "a folder"),
        (not stat.S_ISREG(found.st_mode), errno.EINVAL, "a device or a pipe"),
        (found.st_nlink > 1, errno.EMLINK, "several names"),
        (not found.st_mode & stat.S_IWUSR, errno.EACCES, "read-only"),
    ):
        if is_so:
            raise OSError(number, why, path)
    return found


def _keep_owner(file, before, path):
    """Gives a new file the group of the other one, if the owner of both is the same."""
    made = os.fstat(file.fileno())
    try:
        if made.st_uid == before.st_uid:
            if made.st_gid != before.st_gid:
                os.fchown(file.fileno(), -1, before.st_gid)
            return
    except OSError:
        pass
    raise PermissionError(errno.EPERM, "another owner", path)


@contextlib.contextmanager
def _beside(folder, mode):
    """The name of a new file in a folder, and the file, which goes where this is left by a failure."""
    names = (os.path.join(folder, f".nifazombi-{number}") for number in itertools.count())
    made, file = next((name, file) for name in names if (file := _created(name, mode)))
    with file:
        try:
            yield made, file
        except BaseException:
            with contextlib.suppress(OSError):
                if _is_at(file, made):
                    os.unlink(made)
            raise


def _created(name, mode):
    """A new file of this name, or None where another one has it. It is locked as long as it is open: so what a killed
    run has left is told from what another one writes, and goes."""
    _sweep(name)
    try:
        file = open(name, "xb", opener=lambda it, flags: os.open(it, flags, mode))
    except FileExistsError:
        return None
    if _is_locked(file) and _is_at(file, name):
        return file
    # Another run took it for one that was left.
    file.close()
    return None


def _is_locked(file):
    try:
        fcntl.flock(file, fcntl.LOCK_EX | fcntl.LOCK_NB)
    except BlockingIOError:
        return False
    except OSError:
        # Some disks have no locks, and then nobody removes what is left.
        return True
    return True


def _sweep(name):
    """Removes a file of one's own that nobody has locked."""
    flags = os.O_RDONLY | os.O_NOFOLLOW | os.O_NONBLOCK
    with contextlib.suppress(OSError), open(name, "rb", opener=lambda it, _: os.open(it, flags)) as file:
        found = os.fstat(file.fileno())
        if stat.S_ISREG(found.st_mode) and found.st_uid == os.geteuid():
            fcntl.flock(file, fcntl.LOCK_EX | fcntl.LOCK_NB)
            # Meanwhile it may have taken its name.
            if _is_at(file, name):
                os.unlink(name)


def _is_at(file, name):
    with contextlib.suppress(OSError):
        return os.path.samestat(os.fstat(file.fileno()), os.lstat(name))
    return False


def _sync(folder):
    """Has the disk keep the names in a folder."""
    opened = os.open(folder, os.O_RDONLY)
    try:
        os.fsync(opened)
    finally:
        os.close(opened)
