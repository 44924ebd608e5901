"""A call of the program whose system calls are seen one by one, by ptrace: x86-64 Linux alone."""
import ctypes, os, platform, signal, struct, subprocess

CALLS = {
    0: "read", 1: "write", 2: "open", 3: "close", 8: "lseek", 18: "pwrite", 73: "flock", 74: "fsync", 75: "fdatasync", 82: "rename",
    86: "link", 87: "unlink", 89: "readlink", 90: "chmod", 91: "fchmod", 92: "chown", 93: "fchown", 217: "getdents", 231: "exit",
    257: "open", 263: "unlink", 264: "rename", 265: "link", 267: "readlink", 316: "rename", 318: "getrandom", 332: "statx",
}
AT_FUNCTIONS = {257, 263, 264, 265, 267, 316, 332}
TRACEME, PEEK_REGISTERS, NEXT_CALL, DETACH, SET_OPTIONS = 0, 12, 24, 17, 0x4200
EXIT_WITH_TRACER, MARK_CALLS = 0x100000, 1

libc = ctypes.CDLL(None, use_errno=True)
libc.ptrace.argtypes = [ctypes.c_long, ctypes.c_long, ctypes.c_void_p, ctypes.c_void_p]
libc.ptrace.restype = ctypes.c_long


def ptrace(request, pid, data=0):
    return libc.ptrace(request, pid, None, data)


def available():
    """Whether calls can be traced here."""
    if platform.machine() != "x86_64":
        return False
    child = os.fork()
    if child == 0:
        os._exit(0 if ptrace(TRACEME, 0) == 0 else 1)
    return os.waitpid(child, 0)[1] == 0


class Call:
    """One system call as it begins: its name, its arguments, and the paths among them."""

    def __init__(self, pid, registers):
        self.number = registers[15]
        self.name = CALLS.get(self.number, str(self.number))
        self.arguments = [registers[14], registers[13], registers[12], registers[7]]
        if self.name in ("open", "unlink", "rename", "link", "readlink", "statx", "chmod", "chown"):
            at = 1 if self.number in AT_FUNCTIONS else 0
            self.paths = [self.text(pid, self.arguments[at])]
            if self.name in ("rename", "link"):
                self.paths.append(self.text(pid, self.arguments[3 if self.number in AT_FUNCTIONS else 1]))
        else:
            self.paths = []

    @staticmethod
    def text(pid, address):
        """The text at an address, which ends with a NUL."""
        found = b""
        with open(f"/proc/{pid}/mem", "rb", buffering=0) as memory:
            while b"\0" not in found and len(found) < 8192:
                try:
                    memory.seek(address + len(found))
                    found += memory.read(256 - (address + len(found)) % 256)
                except (OSError, ValueError, OverflowError):
                    return ""
        return os.fsdecode(found.split(b"\0")[0])

    def __repr__(self):
        return f"{self.name}({', '.join(self.paths) or self.arguments[0]})"


class Traced:
    """A call that is begun, and stands before its first instruction."""

    def __init__(self, words, given, folder, out, err):
        self.files = [open(given, "rb"), open(out, "wb"), open(err, "wb")]
        self.call = subprocess.Popen(words, cwd=folder, stdin=self.files[0], stdout=self.files[1], stderr=self.files[2], preexec_fn=lambda: ptrace(TRACEME, 0))
        self.pid, self.status, self.inside = self.call.pid, None, False
        self.wait()
        ptrace(SET_OPTIONS, self.pid, EXIT_WITH_TRACER | MARK_CALLS)

    def wait(self):
        """The signal that the call stopped by; None where it ended."""
        _, status = os.waitpid(self.pid, 0)
        if os.WIFSTOPPED(status):
            return os.WSTOPSIG(status)
        self.status = os.waitstatus_to_exitcode(status)
        self.call.returncode = self.status
        for file in self.files:
            file.close()
        return None

    def next(self):
        """The next system call, which is about to begin; None where the call ended."""
        passed = 0
        while self.status is None:
            ptrace(NEXT_CALL, self.pid, passed)
            stopped = self.wait()
            passed = 0
            if stopped == signal.SIGTRAP | 0x80:
                self.inside = not self.inside
                if self.inside:
                    registers = (ctypes.c_ulong * 27)()
                    libc.ptrace(PEEK_REGISTERS, self.pid, None, ctypes.cast(registers, ctypes.c_void_p))
                    return Call(self.pid, list(registers))
            elif stopped is not None and stopped != signal.SIGTRAP:
                passed = stopped
        return None

    def run_to(self, wanted):
        """The next system call of which this is true, which is about to begin; None where the call ended."""
        while True:
            call = self.next()
            if call is None or wanted(call):
                return call

    def go_on(self):
        """Lets the call run to its end, and gives its status."""
        if self.status is None:
            ptrace(DETACH, self.pid)
            self.wait()
        return self.status

    def kill(self):
        """Ends the call where it stands."""
        if self.status is None:
            self.call.send_signal(signal.SIGKILL)
            while self.status is None:
                self.wait()
