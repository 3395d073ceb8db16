"""A tracer: each call of a program is stopped at, and a plan says what becomes of it. It needs Linux on x86-64."""
import ctypes
import os
import platform
import signal
import sys
import tempfile
import time

SECONDS = 60
TRACEME, GETREGS, SETREGS, SYSCALL, SETOPTIONS = 0, 12, 13, 24, 0x4200
SYSGOOD, EXITKILL = 1, 0x100000
NAMES = {0: "read", 1: "write", 2: "open", 3: "close", 4: "stat", 5: "fstat", 6: "lstat", 8: "lseek", 17: "pread64",
         20: "writev"}
NAMES |= {73: "flock", 74: "fsync", 75: "fdatasync", 77: "ftruncate", 217: "getdents64", 262: "newfstatat",
          332: "statx"}
NAMES |= {82: "rename", 83: "mkdir", 87: "unlink", 257: "openat", 258: "mkdirat", 263: "unlinkat", 264: "renameat",
          316: "renameat2"}
ON_FD = {"read", "write", "close", "writev", "flock", "fsync", "fdatasync", "ftruncate", "fstat", "lseek", "pread64",
         "getdents64"}
AT_FOLDER = {"openat", "mkdirat", "unlinkat", "renameat", "renameat2", "newfstatat", "statx"}
CHANGES = {"write", "ftruncate", "rename", "renameat", "renameat2", "mkdir", "mkdirat", "unlink", "unlinkat"}
STATS = {"stat", "lstat", "fstat", "newfstatat", "statx"}
OPENS = {"open", "openat"}
O_RDWR, O_CREAT, O_DIRECTORY = 0o2, 0o100, 0o200000
libc = ctypes.CDLL(None, use_errno=True)
libc.ptrace.argtypes = [ctypes.c_long, ctypes.c_long, ctypes.c_void_p, ctypes.c_void_p]
libc.ptrace.restype = ctypes.c_long


class Registers(ctypes.Structure):
    _fields_ = [
        (name, ctypes.c_uint64)
        for name in "r15 r14 r13 r12 rbp rbx r11 r10 r9 r8 rax rcx rdx rsi rdi orig_rax rip cs eflags rsp ss fs_base "
        "gs_base ds es fs gs".split()
    ]


class Call:
    """A call of the system, as it begins: its name, the file that it is on, and how many bytes it asks for."""

    def __init__(self, name, fd, path, count, flags):
        self.name, self.fd, self.path, self.count, self.flags = name, fd, path, count, flags
        self.makes = bool(flags & O_CREAT)

    def is_of_descriptor(self):
        """Whether it asks what an open file is."""
        return self.name in ("fstat", "statx", "newfstatat") and self.fd is not None

    def changes(self):
        """Whether it changes a file or a name."""
        return self.fd not in (0, 1, 2) and (self.name in CHANGES or self.makes)


def text_at(pid, at):
    with open(f"/proc/{pid}/mem", "rb", buffering=0) as memory:
        memory.seek(at)
        text = memory.read(4096 - at % 4096)
        # The page after it may not be there, and is read only where the text goes on in it.
        if b"\0" not in text:
            text += memory.read(4096)
        return text.split(b"\0")[0].decode(errors="replace")


def call_at(pid, regs):
    """The call that begins here, or None where it is of no kind that a plan speaks of."""
    name = NAMES.get(regs.orig_rax)
    if name is None:
        return None
    path = "" if name in ON_FD else text_at(pid, regs.rsi if name in AT_FOLDER else regs.rdi)
    if not path:
        fd = ctypes.c_int32(regs.rdi).value
        try:
            path = os.readlink(f"/proc/{pid}/fd/{fd}")
        except OSError:
            path = ""
        return Call(name, fd, path, regs.rdx, 0)
    flags = regs.rdx if name == "openat" else regs.rsi if name == "open" else 0
    return Call(name, None, path, 0, flags)


def apply(regs, action):
    """Changes the call that begins here. What it answers is then put in place as it ends."""
    kind, value = action
    if kind == "short":
        regs.rdx = min(regs.rdx, value)
    else:
        regs.orig_rax = 2**64 - 1


def follow(pid, plan, log):
    """Follows the program to its end, and returns how it ended."""
    regs = Registers()
    entering, pending = True, None
    end = time.monotonic() + SECONDS
    libc.ptrace(SETOPTIONS, pid, None, SYSGOOD | EXITKILL)
    passed = 0
    while True:
        libc.ptrace(SYSCALL, pid, None, passed)
        passed = 0
        _, state = os.waitpid(pid, 0)
        if os.WIFEXITED(state):
            return os.WEXITSTATUS(state)
        if os.WIFSIGNALED(state):
            return -os.WTERMSIG(state)
        if time.monotonic() > end:
            os.kill(pid, signal.SIGKILL)
            continue
        if os.WSTOPSIG(state) != signal.SIGTRAP | 0x80:
            passed = 0 if os.WSTOPSIG(state) == signal.SIGTRAP else os.WSTOPSIG(state)
            continue
        libc.ptrace(GETREGS, pid, None, ctypes.addressof(regs))
        if entering:
            call = call_at(pid, regs)
            action = plan(call) if call else None
            if call:
                log.append((call, action))
            if action and action[0] == "kill":
                os.kill(pid, signal.SIGKILL)
                continue
            if action:
                pending = (action, regs.rdx)
                apply(regs, action)
                libc.ptrace(SETREGS, pid, None, ctypes.addressof(regs))
        elif pending:
            (kind, value), asked = pending
            regs.rdx = asked
            if kind == "error":
                regs.rax = 2**64 - value
            libc.ptrace(SETREGS, pid, None, ctypes.addressof(regs))
            pending = None
        entering = not entering


class Run:
    """How a run ended: its status (less than 0 for a signal), what it printed, and its calls with what became of
    them."""

    def __init__(self, status, out, log):
        self.status, self.out, self.log = status, out, log

    def injected(self):
        return [call for call, action in self.log if action]


def traced(program, folder, words, given, plan):
    """Runs the program on the folder, with these bytes as its standard input. The plan takes each call and returns
    None, an error, as ("error", errno), a length, as ("short", 3), or ("kill", None)."""
    with tempfile.TemporaryFile() as source, tempfile.TemporaryFile() as sink:
        source.write(given)
        source.seek(0)
        sys.stdout.flush()
        pid = os.fork()
        if pid == 0:
            try:
                os.dup2(source.fileno(), 0)
                os.dup2(sink.fileno(), 1)
                libc.ptrace(TRACEME, 0, None, None)
                os.execv(program, [program, folder, "1000", *words])
            finally:
                os._exit(127)
        os.waitpid(pid, 0)
        log = []
        status = follow(pid, plan, log)
        sink.seek(0)
        return Run(status, sink.read(), log)


def may_trace():
    """Whether a program may be traced here, which needs Linux on x86-64."""
    if platform.system() != "Linux" or platform.machine() != "x86_64":
        return False
    pid = os.fork()
    if pid == 0:
        os._exit(0 if libc.ptrace(TRACEME, 0, None, None) == 0 else 1)
    return os.waitstatus_to_exitcode(os.waitpid(pid, 0)[1]) == 0
