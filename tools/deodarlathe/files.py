"""Files and standard input and output, with a clear word where one is missing or cannot be used."""

import errno

from .fault import Fault, shown

STANDARD_INPUT, STANDARD_OUTPUT = 0, 1
WRONG = {
    errno.ENOENT: "there is no such file",
    errno.EISDIR: "it is a folder",
    errno.ENOTDIR: "a part of its path is no folder",
    errno.EACCES: "this is not permitted",
    errno.EPERM: "this is not permitted",
    errno.EROFS: "nothing can be written there",
    errno.ENOSPC: "no space is left",
    errno.EBADF: "it is closed",
}


def is_standard(name):
    """A hyphen, or no name, is standard input or output."""
    return name in (None, "-")


def opened(name, standard, mode):
    """The named file, or the standard one, which stays open."""
    return open(standard, mode, closefd=False) if is_standard(name) else open(name, mode)


def fault_of(doing, name, standard, error):
    """What could not be done to which file, and why."""
    file = standard if is_standard(name) else shown(name)
    wrong = WRONG.get(error.errno) or error.strerror
    if doing == "write" and error.errno == errno.ENOENT:
        wrong = "there is no such folder"
    return Fault(f"cannot {doing} {file}: {wrong}")


def file_bytes(name):
    """All bytes of a file or of standard input."""
    try:
        with opened(name, STANDARD_INPUT, "rb") as file:
            return file.read()
    except OSError as error:
        raise fault_of("read", name, "standard input", error) from None


def write_bytes(data, name=None):
    """Writes all bytes to a file or to standard output."""
    try:
        with opened(name, STANDARD_OUTPUT, "wb") as file:
            file.write(data)
    except OSError as error:
        raise fault_of("write", name, "standard output", error) from None


def write_lines(lines):
    """Writes lines of text to standard output, in UTF-8."""
    write_bytes("".join(f"{line}\n" for line in lines).encode())
