"""Runs the program on a request as a system may run it: with limits, pipes, full devices, files that fail."""
import ctypes
import fcntl
import os
import resource
import select
import signal
import socket
import subprocess
import tempfile
import threading

SECONDS = int(os.environ.get("MKSTRIKE_PATIENCE", 60))  # that a run may take
KIB = 1024


class TooSlow(Exception):
    """The program did not end in time."""


class Run:
    """One run of the program: its words, its input, what is due, and how the system stands.

    `feed` is a list of sizes: the input comes by a pipe in pieces of these sizes, over and over. `limits` is a dict
    from names of limits of the system, as RLIMIT_AS, to numbers. `way`, if it is given, runs the program in a way of
    its own: it gets the program and the run, and returns status, output and errors."""

    def __init__(self, name, words, data, due, feed=None, limits=None, way=None):
        self.name, self.words, self.data, self.due = name, words, data, due
        self.feed, self.limits, self.way = feed, limits or {}, way

    def wrong(self, program):
        """Runs the program, and says what is wrong with its answer, or None."""
        way = self.way or (fed if self.feed else plain)
        try:
            return self.due.wrong(way(program, self))
        except (TooSlow, TimeoutError):
            return "no end within %d seconds" % SECONDS


# ---- files and processes ----

def memory_file(data=b""):
    """A file in memory that holds these bytes, read from its start."""
    file = os.fdopen(os.memfd_create("mkstrike"), "w+b")
    file.write(data)
    file.seek(0)
    return file


def read_again(file):
    """All that a file holds."""
    file.seek(0)
    return file.read()


def start(program, run, given, out, err, before=None):
    """Starts the program on its words, which are a text that is parted at spaces, or a list.

    `before` is done in the child, after it took the run's limits."""
    words = run.words.split() if isinstance(run.words, str) else list(run.words)

    def prepare():
        for name, number in run.limits.items():
            resource.setrlimit(getattr(resource, name), (number, number))
        if before:
            before()
    # a child that has nothing to do before is started in less time
    return subprocess.Popen([program] + words, stdin=given, stdout=out, stderr=err, env={}, bufsize=0,
                            preexec_fn=prepare if run.limits or before else None)


def end_of(child):
    """Waits for the end of a program, and returns its status; that of a signal is below 0."""
    watch = os.pidfd_open(child.pid)
    try:
        if not select.select([watch], [], [], SECONDS)[0]:
            child.kill()
            child.wait()
            raise TooSlow
    finally:
        os.close(watch)
    return child.wait()


def answer_of(program, run, given, out, before=None):
    """Runs the program from a file to a file: its status, what the file of its output holds, and its errors."""
    with memory_file() as err:
        status = end_of(start(program, run, given, out, err, before))
        return status, read_again(out), read_again(err)


def plain(program, run):
    """Files in memory as input, output and errors."""
    with memory_file(run.data) as given, memory_file() as out:
        return answer_of(program, run, given, out)


# ---- inputs ----

def fed(program, run):
    """The input comes by a pipe, to which another thread writes it in pieces."""
    with memory_file() as out, memory_file() as err:
        child = start(program, run, subprocess.PIPE, out, err)
        return while_written(child, out, err, write_in_pieces, child.stdin, run.data, run.feed)


def while_written(child, out, err, write, *arguments):
    """The answer of a program whose input another thread writes."""
    writer = threading.Thread(target=write, args=arguments)
    writer.start()
    try:
        return end_of(child), read_again(out), read_again(err)
    finally:
        writer.join()


def write_in_pieces(pipe, data, sizes):
    """Writes data to a pipe in pieces of these sizes, over and over, until all is written or nothing reads."""
    at = k = 0
    try:
        with pipe:
            while at < len(data):
                pipe.write(data[at:at + sizes[k % len(sizes)]])
                at += sizes[k % len(sizes)]
                k += 1
    except BrokenPipeError:
        pass


def from_silent_pipe(program, run):
    """The input is a pipe into which nothing is written and which is not closed, as a terminal at which nobody types."""
    reading, writing = os.pipe()
    with open(reading, "rb") as given, open(writing, "wb"), memory_file() as out:
        return answer_of(program, run, given, out)


def in_packets(size):
    """The input comes in packets of which a call of the system reads one: what of it the call has no room for is lost.

    So a program that reads fewer bytes at a time loses some, and its answer is another."""
    def way(program, run):
        writing, reading = socket.socketpair(socket.AF_UNIX, socket.SOCK_SEQPACKET)
        with writing, memory_file() as out, memory_file() as err:
            with reading:
                child = start(program, run, reading, out, err)
            return while_written(child, out, err, send_packets, writing, run.data, size)
    return way


def send_packets(connection, data, size):
    """Sends data in packets of a size, and ends it."""
    try:
        for at in range(0, len(data), size):
            connection.send(data[at:at + size])
        connection.shutdown(socket.SHUT_WR)
    except (BrokenPipeError, ConnectionResetError):
        pass


def failing_after(data):
    """The input gives these bytes and then fails: it is the end of a part of memory."""
    def way(program, run):
        libc, page = ctypes.CDLL(None, use_errno=True), resource.getpagesize()
        libc.mmap.restype = ctypes.c_void_p
        libc.mmap.argtypes = [ctypes.c_void_p, ctypes.c_size_t] + [ctypes.c_int] * 3 + [ctypes.c_long]
        libc.munmap.argtypes = [ctypes.c_void_p, ctypes.c_size_t]
        size = -(-max(len(data), 1) // page) * page
        at = libc.mmap(None, size + page, 3, 0x22, -1, 0)  # readable and writable; private, of no file
        libc.munmap(at + size, page)
        ctypes.memmove(at + size - len(data), data, len(data))
        with open("/proc/self/mem", "rb", buffering=0) as memory, memory_file() as out:
            memory.seek(at + size - len(data))
            answer = answer_of(program, run, memory, out)
        libc.munmap(at, size)
        return answer
    return way


# ---- outputs ----

def with_files(given=None, out=None, err=None):
    """Input, output or errors are opened at a path with the flags that come with it, as ("/dev/full", os.O_WRONLY)."""
    def way(program, run):
        with memory_file(run.data) as usual, memory_file() as shown, memory_file() as told:
            opened = [os.open(*named) if named else None for named in (given, out, err)]
            files = [instead if it is None else it for it, instead in zip(opened, (usual, shown, told))]
            try:
                status = end_of(start(program, run, *files))
            finally:
                for it in opened:
                    if it is not None:
                        os.close(it)
            return status, read_again(shown), read_again(told)
    return way


def without(number):
    """One of the standard files, by its number, is closed."""
    def way(program, run):
        with memory_file(run.data) as given, memory_file() as out:
            return answer_of(program, run, given, out, lambda: os.close(number))
    return way


def into_file(size):
    """Standard output is a file that may grow to so many bytes; the signal that comes with this limit is ignored."""
    def limit():
        signal.signal(signal.SIGXFSZ, signal.SIG_IGN)
        resource.setrlimit(resource.RLIMIT_FSIZE, (size, size))

    def way(program, run):
        with memory_file(run.data) as given, tempfile.TemporaryFile() as out:
            # errors go to a pipe, since the limit is one of all files
            reading, writing = os.pipe()
            status = end_of(start(program, run, given, out, writing, limit))
            os.close(writing)
            with open(reading, "rb") as told:
                return status, read_again(out), told.read()
    return way


def into_records(program, run):
    """Standard output keeps what each call of the system writes apart. The answer has the number of calls too."""
    reading, writing = socket.socketpair(socket.AF_UNIX, socket.SOCK_SEQPACKET)
    with reading, memory_file(run.data) as given, memory_file() as told:
        with writing:
            child = start(program, run, given, writing, told)
        reading.settimeout(SECONDS)
        records = list(iter(lambda: reading.recv(1024 * KIB), b""))
        return end_of(child), b"".join(records), read_again(told), len(records)


def into_closed_pipe(taken):
    """Standard output is a pipe that is closed after so many bytes were read, or more. What it took is the output."""
    def way(program, run):
        reading, writing = os.pipe()
        fcntl.fcntl(writing, fcntl.F_SETPIPE_SZ, 4 * KIB)
        if taken == 0:
            os.close(reading)
        with memory_file(run.data) as given, memory_file() as told:
            child = start(program, run, given, writing, told)
            os.close(writing)
            got = read_and_close(reading, child, taken) if taken else b""
            return end_of(child), got, read_again(told)
    return way


def read_and_close(reading, child, taken):
    """Reads bytes from a pipe that a program writes to, stops the program, takes what it holds, and closes it."""
    got = b""
    while len(got) < taken:
        some = os.read(reading, taken - len(got))
        if not some:
            break
        got += some
    os.kill(child.pid, signal.SIGSTOP)
    # it may have ended meanwhile
    os.waitid(os.P_PID, child.pid, os.WSTOPPED | os.WEXITED | os.WNOWAIT)
    got += all_there(reading)
    os.close(reading)
    os.kill(child.pid, signal.SIGCONT)
    return got


def all_there(reading):
    """What a pipe holds now."""
    os.set_blocking(reading, False)
    got = b""
    while True:
        try:
            some = os.read(reading, 64 * KIB)
        except BlockingIOError:
            return got
        if not some:
            return got
        got += some


# ---- memory

def run_refusing(library, words, at, on, size=0, **how):
    """Runs a command under the library of tests/program/memory.c, which refuses the request for memory with number `at`, if `on`
    all after it too, and if a size is given all of that size or more. Returns the finished process, and whether a request was
    refused."""
    with tempfile.TemporaryFile() as mark:
        environment = {"LD_PRELOAD": library, "REFUSE_AT": str(at), "REFUSE_ON": str(int(on)), "REFUSE_FROM": str(size),
                       "REFUSE_MARK": str(mark.fileno())}
        done = subprocess.run(words, capture_output=True, timeout=60, env=environment, pass_fds=[mark.fileno()], **how)
        return done, os.fstat(mark.fileno()).st_size != 0
