"""Runs a program whose system calls are watched, and made to fail if a test says so: on Linux with x86-64, by ptrace.

The program is stopped before each call. A call may get another length, as `read at most 2 bytes`, or fail with an error without being
made. So a disk that is full, a file that nobody may read, a pipe that breaks in mid-stream, and memory that ends are tried without a
real one."""
import contextlib, ctypes, errno, os, pty, signal, tempfile, tty

READ, WRITE, OPEN, PREAD, PWRITE, TRUNCATE = 0, 1, 257, 17, 18, 77
MAP, BREAK, REMAP = 9, 12, 25
TRACE_ME, GET_REGISTERS, SET_REGISTERS, GO_ON, SET_OPTIONS = 0, 12, 13, 24, 0x4200
MARK_CALLS, DIE_WITH_TRACER = 1, 0x100000
NAMES = "r15 r14 r13 r12 rbp rbx r11 r10 r9 r8 rax rcx rdx rsi rdi call rip cs eflags rsp ss fs_base gs_base ds es fs gs".split()
NONE = ctypes.c_ulonglong(-1).value

libc = ctypes.CDLL(None, use_errno=True)
libc.ptrace.argtypes = [ctypes.c_long, ctypes.c_long, ctypes.c_void_p, ctypes.c_void_p]
libc.ptrace.restype = ctypes.c_long


class Registers(ctypes.Structure):
    _fields_ = [(name, ctypes.c_ulonglong) for name in NAMES]


class Faults:
    """What fails in a run, and what is seen of it.

    `reads` and `writes` say after how many calls that of a stream fails, and with which error: {1: (0, errno.EIO)} fails the first write
    to standard output. `at_once` has how many bytes such a call takes at most. `files` says what fails of files, by their names: of
    each a way, as OPEN, "write" for opening it to write, or PWRITE, and the error. `memory` says how many requests for memory are granted:
    each of the program's is then one call."""

    def __init__(self, files=(), reads=(), writes=(), at_once=(1 << 30, 1 << 30), memory=None):
        self.files, self.at_once, self.memory = dict(files), at_once, memory
        self.left = {READ: dict(reads), WRITE: dict(writes)}
        self.names, self.end = {}, 0
        self.written = []

    def fault(self, process, registers):
        """The error with which this call is to fail; None if it is made, maybe with another length."""
        call, first = registers.call, registers.rdi
        if call == OPEN:
            return self.fault_of_open(process, registers)
        if call in (MAP, BREAK, REMAP) and self.memory is not None:
            self.memory -= 1
            # A break that can't be moved is answered as it is.
            return None if self.memory >= 0 else -self.end if call == BREAK else errno.ENOMEM
        if call in (READ, WRITE) and first <= 2 and not self.names.get(first):
            registers.rdx = min(registers.rdx, self.at_once[call])
            left, error = self.left[call].get(first, (1, None))
            if left <= 0:
                return error
            if error:
                self.left[call][first] = (left - 1, error)
            return None
        if call in (READ, WRITE, PREAD, PWRITE, TRUNCATE):
            return self.files.get(self.names.get(first), {}).get(call)
        return None

    def fault_of_open(self, process, registers):
        name = text_at(process, registers.rsi).rstrip(b"/")
        self.opened = name
        is_write = registers.rdx & (os.O_WRONLY | os.O_RDWR)
        if is_write:
            self.written.append(name)
        ways = self.files.get(name) or self.files.get(os.path.basename(name)) or {}
        return ways.get("write") if is_write and "write" in ways else ways.get(OPEN)

    def made(self, call, result):
        """A call was made."""
        if call == BREAK:
            self.end = result
        if call == OPEN and result < 1 << 20:
            name = self.opened
            self.names[result] = name if name in self.files else os.path.basename(name)


def text_at(process, address):
    """The text that ends in a NUL at this address of a process."""
    with open(f"/proc/{process}/mem", "rb", buffering=0) as memory:
        memory.seek(address)
        found = memory.read(256)
        while b"\0" not in found and (more := memory.read(256)):
            found += more
    return found.partition(b"\0")[0]


def ask(request, process, address=None, data=None):
    if libc.ptrace(request, process, address, data) == -1:
        number = ctypes.get_errno()
        raise OSError(number, f"ptrace {request}: {os.strerror(number)}")


def begin(words, folder, streams, environment):
    """Starts a program that waits to be traced."""
    process = os.fork()
    if process == 0:
        try:
            for number, stream in enumerate(streams):
                os.dup2(stream, number)
            os.chdir(folder)
            ask(TRACE_ME, 0)
            os.execve(words[0], words, environment)
        finally:
            os._exit(127)
    return process


def follow(process, faults):
    """Watches a program to its end, and returns its status; None if a signal ended it."""
    _, status = os.waitpid(process, 0)
    if not os.WIFSTOPPED(status):
        raise OSError("the program doesn't start, or may not be traced")
    ask(SET_OPTIONS, process, None, MARK_CALLS | DIE_WITH_TRACER)
    registers, is_inside, error, call, passed_on = Registers(), False, None, None, None
    while True:
        ask(GO_ON, process, None, passed_on)
        _, status = os.waitpid(process, 0)
        if not os.WIFSTOPPED(status):
            return os.WEXITSTATUS(status) if os.WIFEXITED(status) else None
        passed_on = None
        if os.WSTOPSIG(status) != signal.SIGTRAP | 0x80:
            passed_on = os.WSTOPSIG(status) if os.WSTOPSIG(status) != signal.SIGTRAP else None
            continue
        is_inside = not is_inside
        if not is_inside and error is None and call not in (OPEN, BREAK):
            continue
        ask(GET_REGISTERS, process, None, ctypes.addressof(registers))
        if is_inside:
            call, length = registers.call, registers.rdx
            error = faults.fault(process, registers)
            if error is not None:
                registers.call = NONE
            if error is not None or registers.rdx != length:
                ask(SET_REGISTERS, process, None, ctypes.addressof(registers))
        elif error is not None:
            registers.rax = ctypes.c_ulonglong(-error).value
            ask(SET_REGISTERS, process, None, ctypes.addressof(registers))
        else:
            faults.made(call, registers.rax)


def run(words, folder, given=b"", faults=None, on_terminal=False):
    """Runs a program on these words in a folder with these faults, and returns its status and the bytes that it writes to standard output
    and to standard error, which is a terminal or a file."""
    faults = faults or Faults()
    environment = {"TERM": "xterm", "TMPDIR": "/tmp", "PATH": os.environ.get("PATH", "")}
    if faults.memory is not None:
        environment["GLIBC_TUNABLES"] = "glibc.malloc.mmap_threshold=0"
    with tempfile.TemporaryFile() as source, tempfile.TemporaryFile() as out, tempfile.TemporaryFile() as err:
        source.write(given)
        source.seek(0)
        terminal, end = pty.openpty() if on_terminal else (None, err.fileno())
        if on_terminal:
            tty.setraw(end)
        status = follow(begin(words, folder, (source.fileno(), out.fileno(), end), environment), faults)
        out.seek(0)
        err.seek(0)
        written = out.read()
        if not on_terminal:
            return status, written, err.read()
        os.close(end)
        shown = b""
        # The end of what is shown is an error, since nobody has the other end any more.
        with contextlib.suppress(OSError):
            while part := os.read(terminal, 1 << 16):
                shown += part
        os.close(terminal)
        return status, written, shown
