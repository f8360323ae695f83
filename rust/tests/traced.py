"""traced.py COMMAND..: runs the command, and prints on standard error each of its system calls that writes, flushes or cuts a file.

A line for each: the call's name, the descriptor, and for a write how many bytes it was to take. Other tests import `follow`.
"""
import ctypes
import os
import platform
import signal
import sys

CALLS = {
    "x86_64": {1: "write", 74: "fsync", 75: "fdatasync", 77: "ftruncate"},
    "aarch64": {64: "write", 82: "fsync", 83: "fdatasync", 46: "ftruncate"},
}[platform.machine()]
TRACEME, SYSCALL, SETOPTIONS, GET_SYSCALL_INFO = 0, 24, 0x4200, 0x420E
TRACESYSGOOD, EXITKILL = 1, 0x100000
ENTRY = 1


class Info(ctypes.Structure):
    """What the kernel tells of a call that is being entered."""

    _fields_ = [
        ("op", ctypes.c_uint8),
        ("arch", ctypes.c_uint32),
        ("ip", ctypes.c_uint64),
        ("sp", ctypes.c_uint64),
        ("number", ctypes.c_uint64),
        ("arguments", ctypes.c_uint64 * 6),
    ]


LIBC = ctypes.CDLL(None, use_errno=True)
LIBC.ptrace.argtypes = [ctypes.c_long, ctypes.c_long, ctypes.c_void_p, ctypes.c_void_p]
LIBC.ptrace.restype = ctypes.c_long


def ptrace(request, child, address, data):
    if LIBC.ptrace(request, child, address, data) < 0:
        raise OSError(ctypes.get_errno(), "ptrace")


def follow(child, look):
    """Runs a child that has asked to be traced, and hands `look` each of its calls that is entered or left; its exit status."""
    os.waitpid(child, 0)
    ptrace(SETOPTIONS, child, None, TRACESYSGOOD | EXITKILL)
    handed_on = 0
    while True:
        ptrace(SYSCALL, child, None, handed_on)
        _, status = os.waitpid(child, 0)
        if not os.WIFSTOPPED(status):
            return os.waitstatus_to_exitcode(status)
        stopped_by = os.WSTOPSIG(status)
        is_call = stopped_by == signal.SIGTRAP | 0x80
        handed_on = 0 if is_call or stopped_by == signal.SIGTRAP else stopped_by
        if is_call:
            info = Info()
            ptrace(GET_SYSCALL_INFO, child, ctypes.sizeof(info), ctypes.addressof(info))
            look(info)


def become(command):
    """Of a child: asks to be traced, and becomes the command."""
    ptrace(TRACEME, 0, None, None)
    os.execvp(command[0], command)


def tell(info):
    name = CALLS.get(info.number) if info.op == ENTRY else None
    if name:
        bytes_asked = f" {info.arguments[2]}" if name == "write" else ""
        sys.stderr.write(f"{name} {info.arguments[0]}{bytes_asked}\n")


if __name__ == "__main__":
    traced = os.fork()
    if traced == 0:
        become(sys.argv[1:])
    sys.exit(follow(traced, tell))
