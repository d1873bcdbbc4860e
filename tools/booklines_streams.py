#!/usr/bin/env python3
"""Runs the line program on files, pipes and devices that end, fail or are slow, and compares what it writes and says.

    (cd crates/booklines && rt run </dev/null) && python3 tools/booklines_streams.py [PROGRAM]

PROGRAM is crates/booklines/out/booklines unless it is named. The last line written has the count of cases and of those that failed;
the exit status is 1 if one failed.
"""
import errno
import os
import pty
import resource
import signal
import subprocess
import sys
import tempfile
import threading
import time
import tty

from booklines_cases import K, LIMIT, PROGRAM

LINE_1, REPLY = b"K 10 A/B\n", b"0 1 2\n"
# the most bytes that the program may read ahead
BLOCK = 65_536
# how much of a second of waiting may be spent on the processor
BUSY = 0.25


def feed(messages, end=b"\n"):
    return LINE_1 + b"\n".join([K] * messages) + end


def file_of(text):
    file = tempfile.TemporaryFile()
    file.write(text)
    file.flush()
    file.seek(0)
    return file


def end(process):
    try:
        os.killpg(process.pid, signal.SIGKILL)
    except ProcessLookupError:
        pass


def start(stdin, stdout, **options):
    """The program, which is ended after LIMIT."""
    process = subprocess.Popen([PROGRAM], stdin=stdin, stdout=stdout, stderr=subprocess.PIPE, start_new_session=True, **options)
    limit = threading.Timer(LIMIT, end, [process])
    limit.daemon = True
    limit.start()
    return process, limit


def run(stdin, stdout, **options):
    """What the program says on standard error, and its status."""
    process, limit = start(stdin, stdout, **options)
    said = process.communicate()[1]
    limit.cancel()
    return said, process.returncode


def failure(answered, what, why):
    return b"booklines: messages answered: %d; %s failed: %s\n" % (answered, what, os.strerror(why).encode())


def expect(seen, wanted):
    if seen != wanted:
        raise AssertionError(f"{str(seen)[:200]} and not {str(wanted)[:200]}")


def ignores(signal_number):
    return {"restore_signals": False, "preexec_fn": lambda: signal.signal(signal_number, signal.SIG_IGN)}


def processor_time():
    used = resource.getrusage(resource.RUSAGE_CHILDREN)
    return used.ru_utime + used.ru_stime


def full_disk():
    with file_of(feed(20_000)) as source, open("/dev/full", "wb") as full:
        expect(run(source, full), (failure(0, b"writing standard output", errno.ENOSPC), 0))
        if BLOCK < source.seek(0, os.SEEK_CUR):
            raise AssertionError("more was read after a reply that could not be written")


def disk_that_fills_up():
    def limited():
        signal.signal(signal.SIGXFSZ, signal.SIG_IGN)
        resource.setrlimit(resource.RLIMIT_FSIZE, (10_000, 10_000))

    with file_of(feed(20_000)) as source, file_of(b"") as target:
        expect(run(source, target, restore_signals=False, preexec_fn=limited), (failure(10_000 // len(REPLY), b"writing standard output", errno.EFBIG), 0))
        target.seek(0)
        expect(target.read(), (REPLY * 20_000)[:10_000])


def closed_pipe():
    def closed():
        reading, writing = os.pipe()
        os.close(reading)
        return os.fdopen(writing, "wb")

    with file_of(feed(10)) as source, closed() as pipe:
        expect(run(source, pipe, **ignores(signal.SIGPIPE)), (failure(0, b"writing standard output", errno.EPIPE), 0))
    # every program of this Rattle starts by ignoring SIGPIPE, whatever it was handed
    with file_of(feed(10)) as source, closed() as pipe:
        expect(run(source, pipe), (failure(0, b"writing standard output", errno.EPIPE), 0))


def slow_reader():
    """A pipe that does not wait, whose reader does: no reply is lost or torn, and the program does not spin."""
    reading, writing = os.pipe()
    os.set_blocking(writing, False)
    before = processor_time()
    with file_of(feed(60_000)) as source, os.fdopen(reading, "rb") as pipe:
        process, limit = start(source, writing)
        os.close(writing)
        time.sleep(1)
        out = pipe.read()
        said = process.communicate()[1]
        limit.cancel()
        expect((said, process.returncode), (b"", 0))
    expect(out == REPLY * 60_000 or f"{out.count(REPLY)} whole replies of {len(out)} bytes", True)
    expect(processor_time() - before < BUSY, True)


def slow_writer():
    """A pipe that does not wait, whose writer does."""
    reading, writing = os.pipe()
    os.set_blocking(reading, False)
    before = processor_time()
    process, limit = start(reading, subprocess.PIPE)
    os.close(reading)
    with os.fdopen(writing, "wb", buffering=0) as pipe:
        for piece in (LINE_1, K + b"\n", K[:20], K[20:] + b"\n"):
            time.sleep(0.25)
            try:
                pipe.write(piece)
            except BrokenPipeError:
                break
    out, said = process.communicate()
    limit.cancel()
    expect((out, said, process.returncode), (REPLY * 2, b"", 0))
    expect(processor_time() - before < BUSY, True)


def directory():
    with file_of(b"") as target:
        source = os.open("/", os.O_RDONLY)
        expect(run(source, target), (failure(0, b"reading standard input", errno.EISDIR), 0))
        os.close(source)
        expect(target.seek(0, os.SEEK_END), 0)


def broken_line():
    """A terminal whose other end goes away within a line: that line is not answered."""
    ours, theirs = pty.openpty()
    tty.setraw(theirs)
    process, limit = start(ours, subprocess.PIPE)
    os.close(ours)
    os.write(theirs, LINE_1 + K + b"\n")
    first = process.stdout.readline()
    os.write(theirs, K)
    time.sleep(0.25)
    os.close(theirs)
    out, said = process.communicate()
    limit.cancel()
    expect((first + out, said, process.returncode), (REPLY, failure(1, b"reading standard input", errno.EIO), 0))


def replies_to(text, **options):
    with file_of(text) as source, file_of(b"") as target:
        expect(run(source, target, **options), (b"", 0))
        target.seek(0)
        return target.read()


def end_within_a_line():
    expect(replies_to(feed(3, end=b"")), REPLY * 3)
    expect(replies_to(feed(3) + K[:40]), REPLY * 3 + b"3 - -\n")


def large_file():
    """Lines that lie across the ends of blocks, and one that is longer than a block."""
    long = K + b" " * (2 * BLOCK)
    expect(replies_to(feed(20_000) + long + b"\n" + feed(20_000)[len(LINE_1) :]), REPLY * 20_000 + b"2 - -\n" + REPLY * 20_000)


def small_stack():
    limit = lambda: resource.setrlimit(resource.RLIMIT_STACK, (256 * 1024, 256 * 1024))
    expect(replies_to(feed(20_000), preexec_fn=limit), REPLY * 20_000)


CASES = [full_disk, disk_that_fills_up, closed_pipe, slow_reader, slow_writer, directory, broken_line, end_within_a_line, large_file, small_stack]


def main():
    if not os.access(PROGRAM, os.X_OK):
        sys.exit(f"{PROGRAM} is no program")
    begun, failed = time.time(), 0
    for case in CASES:
        try:
            case()
        except AssertionError as fault:
            failed += 1
            print(f"{case.__name__}: {fault}")
    print(f"{len(CASES)} cases of streams, {failed} failed, {time.time() - begun:.1f} s")
    sys.exit(1 if failed else 0)


if __name__ == "__main__":
    main()
