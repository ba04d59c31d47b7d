"""Replacing a file whole or not at all: the new one is written beside the old one, and takes its name when it is complete."""
from __future__ import annotations

import contextlib
import errno
import io
import os
import stat
from typing import BinaryIO

from frontend import streams

_STANDARD = (1, 2)  # standard output and standard error


def replace_file(name: str, data: bytes) -> None:
    """Make data the contents of a file; raise OSError if that cannot be done, and then an old file is as it was.

    A name that leads to no regular file, as /dev/null or a pipe, is written as it is: it holds nothing that could be kept. So is
    one that leads to standard output or standard error, as /dev/stdout: what stands there already is to stay before the data. A
    symbolic link stays, and the file that it leads to is replaced. Other hard links to that file keep the old contents."""
    if not os.path.basename(name):
        code = errno.EISDIR if name else errno.ENOENT
        raise OSError(code, os.strerror(code))
    found = _found(name)
    if found is None or stat.S_ISREG(found.st_mode) and _standard(found) is None:
        _put_beside(os.path.realpath(name), data, found)
    else:
        with _opened(name, found) as file:
            streams.write_all(file, data)


def _found(name: str) -> os.stat_result | None:
    """Give what stands under a name, links followed, or None."""
    try:
        return os.stat(name)
    except FileNotFoundError:
        return None


def _standard(found: os.stat_result) -> int | None:
    """Give which of the standard streams a file is, or None."""
    for number in _STANDARD:
        with contextlib.suppress(OSError):
            if os.path.samestat(found, os.fstat(number)):
                return number
    return None


def _opened(name: str, found: os.stat_result) -> BinaryIO:
    """Open what is to be written as it is; a standard stream by its number, since opened anew it would start over."""
    number = _standard(found)
    return open(name, "wb", buffering=0) if number is None else io.FileIO(number, "wb", closefd=False)


def _put_beside(target: str, data: bytes, old: os.stat_result | None) -> None:
    """Write a file beside the target and let it take the target's name; whatever happens, leave nothing else behind."""
    if old is not None and not os.access(target, os.W_OK):  # a new name would get round the old file's protection
        raise PermissionError(errno.EACCES, os.strerror(errno.EACCES))
    part = os.path.join(os.path.dirname(target), f".dipperlock-{os.urandom(8).hex()}.part")
    try:
        with open(part, "xb", buffering=0) as file:
            if old is not None:
                _take_over_rights(file.fileno(), old)
            streams.write_all(file, data)
            os.fsync(file.fileno())  # some systems tell of a full disk only here
        os.replace(part, target)
    except BaseException:  # Ctrl-C too
        with contextlib.suppress(OSError):
            os.unlink(part)
        raise


def _take_over_rights(number: int, old: os.stat_result) -> None:
    """Give a new file the old one's owner, where that is allowed, and its permissions."""
    with contextlib.suppress(PermissionError):
        os.fchown(number, old.st_uid, old.st_gid)
    os.fchmod(number, stat.S_IMODE(old.st_mode))
