"""Folders and files that are there only once all of them is written."""

import contextlib
import ctypes
import errno
import fcntl
import os
import shutil
import tempfile

# How Linux renames two files at once (man 2 renameat2), and what it says where it or the disk can not.
AT_FDCWD, RENAME_EXCHANGE = -100, 2
CAN_NOT = (errno.ENOSYS, errno.EINVAL, errno.EOPNOTSUPP, errno.EPERM)


class Refused(Exception):
    """What was asked for can not be done: why, a line for each reason."""

    def __init__(self, *lines):
        super().__init__("\n".join(lines))


def look_at_folder(folder, names, is_replaced):
    """Looks whether files of these names may be written to a folder, once what a killed run left of it is finished."""
    finish_folder(folder)
    if not os.path.lexists(folder):
        look_at_parent(folder)
        return
    if not os.path.isdir(folder) or os.path.islink(folder):
        raise Refused(f"{folder}: is there, and no folder")
    there = sorted(os.listdir(folder))
    if there and not is_replaced:
        raise Refused(f"{folder}: is not empty; --replace replaces what is there")
    strange = [name for name in there if name not in names]
    if strange:
        raise Refused(f"{folder}: has {strange[0]}, which --replace would delete; expected {names[0]} and so on alone")


def look_at_file(path, is_replaced):
    """Looks whether a file may be written."""
    look_at_parent(path)
    if os.path.lexists(path) and not (is_replaced and os.path.isfile(path)):
        raise Refused(f"{path}: is there; --replace replaces a file")


def look_at_parent(path):
    parent = os.path.dirname(path)
    if not os.path.isdir(parent):
        raise Refused(f"{path}: there is no folder {parent}")


# What the room beside a path is called, and in it what is new and what was there before.
ROOM, NEW, OLD = ".{}.", "new", "old"


@contextlib.contextmanager
def room_beside(path):
    """A folder for what is not finished, on the same disk as a path; it goes at the end, and is locked until then."""
    room = tempfile.mkdtemp(prefix=ROOM.format(os.path.basename(path)), dir=os.path.dirname(path))
    with opened(room) as held:
        # (on a disk without locks nothing that is left is cleared away either)
        with contextlib.suppress(OSError):
            fcntl.flock(held, fcntl.LOCK_EX)
        try:
            yield room
        finally:
            shutil.rmtree(room)


@contextlib.contextmanager
def opened(room):
    """Opens a folder, as one has to before it is locked; the lock goes at the end, also where that is a kill."""
    held = os.open(room, os.O_RDONLY | os.O_DIRECTORY)
    try:
        yield held
    finally:
        os.close(held)


def finish_folder(folder):
    """Clears away what runs that were killed have left beside a folder. Where one had put the old folder aside and not yet its
    new one in its place, the new one, which is whole then, takes its name."""
    for room in rooms_beside(folder):
        # (another run has it, or has just ended, or it is another user's)
        with contextlib.suppress(OSError), opened(room) as held:
            fcntl.flock(held, fcntl.LOCK_EX | fcntl.LOCK_NB)
            finish_room(room, folder)


def rooms_beside(folder):
    """The folders that may be rooms of runs, of this one too."""
    front, above = ROOM.format(os.path.basename(folder)), os.path.dirname(folder)
    try:
        names = os.listdir(above)
    except OSError:
        return []  # (there is no such folder, or its files may not be listed)
    rooms = [os.path.join(above, name) for name in names if name.startswith(front)]
    return [room for room in rooms if os.path.isdir(room) and not os.path.islink(room)]


def finish_room(room, folder):
    """The same with one of them. A folder in which there is something else is none of them."""
    there = set(os.listdir(room))
    if not there or there - {NEW, OLD}:
        return
    if there == {NEW, OLD} and not os.path.lexists(folder):
        os.rename(os.path.join(room, NEW), folder)
    shutil.rmtree(room)


@contextlib.contextmanager
def whole_folder(folder, names, is_replaced):
    """Gives a folder to write to, which takes its name at the end, where nothing went wrong."""
    with room_beside(folder) as room:
        made, old = os.path.join(room, NEW), os.path.join(room, OLD)
        os.mkdir(made)
        yield made
        look_at_folder(folder, names, is_replaced)
        if not os.path.lexists(folder):
            os.rename(made, folder)
        elif not exchange(made, folder):
            replace_folder(made, folder, old)


def exchange(one, other):
    """Lets two folders change their names at once, or answers that the system can not."""
    try:
        renameat2 = ctypes.CDLL(None, use_errno=True).renameat2
    except (OSError, AttributeError):
        return False
    if renameat2(AT_FDCWD, os.fsencode(one), AT_FDCWD, os.fsencode(other), RENAME_EXCHANGE) == 0:
        return True
    number = ctypes.get_errno()
    if number in CAN_NOT:
        return False
    raise OSError(number, os.strerror(number), other)


def replace_folder(made, folder, old):
    """Puts the old folder aside first. Where a kill comes in between, finish_folder ends it."""
    os.rename(folder, old)
    try:
        os.rename(made, folder)
    except OSError:
        os.rename(old, folder)
        raise


@contextlib.contextmanager
def whole_file(path, is_replaced):
    """Gives a path to write a file to, which takes its name at the end, where nothing went wrong."""
    with room_beside(path) as room:
        made = os.path.join(room, os.path.basename(path))
        yield made
        look_at_file(path, is_replaced)
        os.replace(made, path)
