"""system.py PROGRAM SMALL LONG: plays captures with the bench program where the system fails it or lets it wait. SMALL is a capture of two symbols, LONG
one of several blocks of 65,536 bytes. Standard output, standard error and the exit status are held to README.md, "What a script has to look at". Ends
with 1 at the first situation that is not as expected, and says how many were tried."""
import contextlib
import ctypes
import errno
import fcntl
import itertools
import os
import pty
import resource
import struct
import subprocess
import sys
import tempfile
import termios
import threading
import time
import tty

LIMIT = 30
READ, WRITE = 0, 1
READS, WRITES = "bench: cannot read standard input: ", "bench: cannot write standard output: "
# Sizes of the pieces in which a capture comes: the contents end after 33 bytes, the header of two points after 2,190.
FIRST = (1, 7, 24, 3, 64, 33, 1021, 5)
REST = (1, 683, 4099, 2, 9001, 333)


class Fault(Exception):
    pass


class Refused(Exception):
    """The system does not let this situation be made."""


def last(lines):
    return lines[lines[:-1].rfind(b"\n") + 1 :]


class Bench:
    def __init__(self, program, small, long):
        self.program = program
        self.small, self.long = (open(name, "rb").read() for name in (small, long))
        self.plain, self.started = {}, []

    def start(self, **more):
        """Started, and ended after a while if it does not end by itself, so that no situation lasts for ever."""
        bench = subprocess.Popen([self.program], stderr=subprocess.PIPE, **more)
        bench.late = threading.Timer(LIMIT, bench.kill)
        bench.late.daemon = True
        bench.late.start()
        self.started.append(bench)
        return bench

    def from_file(self, capture, **more):
        """Started on a file that holds the capture."""
        with tempfile.TemporaryFile() as file:
            file.write(capture)
            file.seek(0)
            return self.start(stdin=file, **more)

    def lines(self, capture):
        """The lines that are owed: those of a plain run, from a file into a file."""
        if capture not in self.plain:
            with tempfile.TemporaryFile() as to:
                ended(self.from_file(capture, stdout=to), "")
                to.seek(0)
                self.plain[capture] = to.read()
        return self.plain[capture]


def ended(bench, told, status=0):
    """The program has ended so, and standard error has this line, or nothing."""
    err = bench.communicate()[1].decode()
    if bench.late.finished.is_set():
        raise Fault(f"it had not ended after {LIMIT} s; standard error has {err[:200]!r}")
    bench.late.cancel()
    if err != (told + "\n" if told else ""):
        raise Fault(f"standard error has {err!r}, and not {told!r}")
    if bench.returncode != status:
        raise Fault(f"it ended with status {bench.returncode}, and not {status}")


def same(lines, owed):
    if lines != owed:
        at = next((k for k, (a, b) in enumerate(zip(lines, owed)) if a != b), min(len(lines), len(owed)))
        raise Fault(f"{len(lines)} bytes of {len(owed)}, other from byte {at} on; the last line is {last(lines)!r}")


def text(number):
    return os.strerror(number)


# ---- slow partners


def pushed(to, data):
    """All of the data into a pipe that does not wait, or into a terminal that does, unless its reader leaves."""
    while data:
        try:
            data = data[os.write(to, data) :]
        except BlockingIOError:
            time.sleep(0.001)
        except OSError:
            return


def feed(to, capture, before=0.06):
    """In odd pieces, with pauses: before the first byte, within the header and behind it. A pause before the input ends."""
    time.sleep(before)
    rest = memoryview(capture)
    for turn, size in enumerate(itertools.chain(FIRST, itertools.cycle(REST))):
        if not rest:
            break
        pushed(to, rest[:size])
        rest = rest[size:]
        time.sleep(0.02 if turn < len(FIRST) else 0.001)
    time.sleep(0.02)
    os.close(to)


def drain(source, into):
    """Whatever comes, in odd pieces, with pauses."""
    time.sleep(0.06)
    for turn, size in enumerate(itertools.cycle((1, 4099, 77, 65536, 513))):
        try:
            piece = os.read(source, size)
        except BlockingIOError:
            time.sleep(0.0005)
            continue
        if not piece:
            break
        into.append(piece)
        if turn % 40 == 0:
            time.sleep(0.01)
    os.close(source)


def pipe():
    """Neither end waits; a page of room, so that it is often full."""
    ends = os.pipe()
    fcntl.fcntl(ends[1], fcntl.F_SETPIPE_SZ, 4096)
    for end in ends:
        os.set_blocking(end, False)
    return ends


def slowly(b, capture, slow_in, slow_out, before=0.06):
    """Played through pipes that are not ready."""
    got, partners = [], []
    out, to = pipe() if slow_out else os.pipe()
    if slow_in:
        source, feeds = pipe()
        bench = b.start(stdin=source, stdout=to)
        os.close(source)
        partners.append(threading.Thread(target=feed, args=(feeds, capture, before)))
    else:
        bench = b.from_file(capture, stdout=to)
    os.close(to)
    partners.append(threading.Thread(target=drain, args=(out, got)))
    for partner in partners:
        partner.start()
    for partner in partners:
        partner.join()
    ended(bench, "")
    same(b"".join(got), b.lines(capture))


# ---- what the system answers, by a filter of its calls


def answering(call, fd, number):
    """For a child: the call on this descriptor is not made and answers -1 with this errno; 0: it answers 0."""

    def install():
        code = ((0x20, 0, 0, 4), (0x15, 0, 5, 0xC000003E), (0x20, 0, 0, 0), (0x15, 0, 3, call), (0x20, 0, 0, 16), (0x15, 0, 1, fd), (0x06, 0, 0, 0x50000 | number), (0x06, 0, 0, 0x7FFF0000))
        filters = ctypes.create_string_buffer(b"".join(struct.pack("=HBBI", *line) for line in code))
        program = ctypes.create_string_buffer(struct.pack("@HP", len(code), ctypes.addressof(filters)))
        libc = ctypes.CDLL(None)
        if libc.prctl(38, 1, 0, 0, 0) or libc.prctl(22, 2, program):
            os._exit(77)

    return install


def filtered(b, call, number, told):
    bench = b.from_file(b.small, stdout=subprocess.DEVNULL, preexec_fn=answering(call, call, number))
    try:
        ended(bench, told)
    except Fault:
        if bench.returncode == 77:
            raise Refused from None
        raise


def for_ever(b, call):
    """A call that a signal cuts short again and again is made again and again, and nothing is told."""
    bench = b.from_file(b.small, stdout=subprocess.DEVNULL, preexec_fn=answering(call, call, errno.EINTR))
    time.sleep(0.4)
    going = bench.poll() is None
    bench.kill()
    err = bench.communicate()[1]
    bench.late.cancel()
    if bench.returncode == 77:
        raise Refused
    if not going or err:
        raise Fault(f"it gave up, and told {err.decode()!r}")


# ---- the situations


def files(b):
    for capture, end in ((b.small, b"end 2\n"), (b.long, b"end %d\n" % symbols(b.long)), (b.long[:-1], b"refused 12\n"), (b.small + b"\0", b"refused 12\n"), (b.small[:32], b"refused 11\n"), (b"", b"refused 11\n")):
        same(last(b.lines(capture)), end)


def symbols(capture):
    return struct.unpack("<I", capture[29:33])[0] // 2


def empty(b):
    same(b.lines(b""), b"refused 11\n")
    bench = b.start(stdin=subprocess.DEVNULL, stdout=subprocess.PIPE)
    same(bench.stdout.read(), b"refused 11\n")
    ended(bench, "")


def full_disk(b):
    for capture in (b.small, b.long):
        with open("/dev/full", "wb") as full:
            ended(b.from_file(capture, stdout=full), WRITES + text(errno.ENOSPC))


def closed_output(b):
    for capture in (b.small, b.long):
        ended(b.from_file(capture, preexec_fn=lambda: os.close(1)), WRITES + text(errno.EBADF))


def silent(b, told, **more):
    """Nothing on standard output."""
    bench = b.start(stdout=subprocess.PIPE, **more)
    same(bench.stdout.read(), b"")
    ended(bench, told)


def closed_input(b):
    silent(b, READS + text(errno.EBADF), preexec_fn=lambda: os.close(0))


def directory(b):
    with tempfile.TemporaryDirectory() as name:
        fd = os.open(name, os.O_RDONLY)
        silent(b, READS + text(errno.EISDIR), stdin=fd)
        # nothing is left to be written, so that a closed output makes no second line
        ended(b.start(stdin=fd, preexec_fn=lambda: os.close(1)), READS + text(errno.EISDIR))
        os.close(fd)


def sent(to, capture):
    """Through a terminal, which is closed once all has left it."""
    pushed(to, capture)
    with contextlib.suppress(OSError):
        while struct.unpack("i", fcntl.ioctl(to, termios.TIOCOUTQ, b"\0" * 4))[0]:
            time.sleep(0.001)
    time.sleep(0.02)
    os.close(to)


def fails_on_the_way(b):
    """A terminal whose other side is closed fails behind the bytes that came: the lines of these, and no last one."""
    for capture in (b.small[:20], b.small, b.long[:30001], b.long[:300001]):
        source, to = pty.openpty()
        tty.setraw(to)
        got = []
        out, into = os.pipe()
        bench = b.start(stdin=source, stdout=into)
        os.close(source)
        os.close(into)
        reader = threading.Thread(target=drain, args=(out, got))
        reader.start()
        sent(to, capture)
        reader.join()
        ended(bench, READS + text(errno.EIO))
        owed = b.lines(capture)
        same(b"".join(got), owed[: -len(last(owed))])


def both_fail(b):
    """A line for each."""
    source, to = pty.openpty()
    tty.setraw(to)
    with open("/dev/full", "wb") as full:
        bench = b.start(stdin=source, stdout=full)
    os.close(source)
    sent(to, b.long[:30001])
    ended(bench, f"{READS}{text(errno.EIO)}\n{WRITES}{text(errno.ENOSPC)}")


def slow_input(b):
    for capture in (b.small, b.small[:33], b.small[:-1], b.long):
        slowly(b, capture, True, False)


def slow_output(b):
    for capture in (b.small, b.long):
        slowly(b, capture, False, True)


def slow_both(b):
    for capture in (b.small, b.long):
        slowly(b, capture, True, True)


def at_rest(b):
    """Whoever waits for half a second leaves the processor to others."""
    before = resource.getrusage(resource.RUSAGE_CHILDREN)
    slowly(b, b.small, True, False, before=0.5)
    after = resource.getrusage(resource.RUSAGE_CHILDREN)
    used = after.ru_utime - before.ru_utime + after.ru_stime - before.ru_stime
    if used > 0.25:
        raise Fault(f"it took {used:.2f} s of the processor")


def reader_leaves(b, told, status, **more):
    out, to = os.pipe()
    bench = b.from_file(b.long, stdout=to, **more)
    os.close(to)
    got = b""
    while piece := os.read(out, 10000 - len(got)):
        got += piece
    os.close(out)
    ended(bench, told, status)
    same(got, b.lines(b.long)[:10000])


def reader_leaves_signal(b):
    """The system's signal ends no program of Rattle's, which ignores it as it starts: whoever starts the program is told."""
    reader_leaves(b, WRITES + text(errno.EPIPE), 0)


def reader_leaves_ignored(b):
    """.. and so is who starts it with that signal ignored, as this program is itself."""
    reader_leaves(b, WRITES + text(errno.EPIPE), 0, restore_signals=False)


SITUATIONS = {
    "files": files,
    "empty input": empty,
    "full disk": full_disk,
    "closed output": closed_output,
    "closed input": closed_input,
    "directory as input": directory,
    "input that fails on the way": fails_on_the_way,
    "input that fails on the way, and a full disk": both_fail,
    "input that is not ready": slow_input,
    "output that is not ready": slow_output,
    "neither is ready": slow_both,
    "a long wait": at_rest,
    "reader that leaves": reader_leaves_signal,
    "reader that leaves, signal ignored": reader_leaves_ignored,
    "read that fails": lambda b: filtered(b, READ, errno.EIO, READS + text(errno.EIO)),
    "write that fails": lambda b: filtered(b, WRITE, errno.EFBIG, WRITES + text(errno.EFBIG)),
    "write that takes no byte": lambda b: filtered(b, WRITE, 0, WRITES + "no byte was taken"),
    "read that signals cut short": lambda b: for_ever(b, READ),
    "write that signals cut short": lambda b: for_ever(b, WRITE),
}


def main():
    b = Bench(*sys.argv[1:])
    tried, refused = 0, []
    for name, situation in SITUATIONS.items():
        try:
            situation(b)
            tried += 1
        except Refused:
            refused.append(name)
        except Fault as fault:
            print(f"system.py: {name}: {fault}")
            for bench in b.started:
                bench.kill()
            return 1
    if refused:
        print(f"system.py: not tried, as the system takes no filter of calls: {', '.join(refused)}")
    print(f"system: {tried} situations tried, all as expected")
    return 0


if __name__ == "__main__":
    sys.exit(main())
