"""The runner on pipes: pipes.py RUNNER SCRIPT LONG, where the replies to LONG are many times a pipe. Called by tests/programs.

No answer depends on a time; what waits for an answer gives up after a minute, so that a runner that does not answer fails the test."""
import fcntl
import os
import select
import subprocess
import sys
import time

runner, script, long = sys.argv[1:]


def fail(what):
    sys.exit("programs: " + what)


def does_not_wait(fd):
    fcntl.fcntl(fd, fcntl.F_SETFL, fcntl.fcntl(fd, fcntl.F_GETFL) | os.O_NONBLOCK)


def until(what, holds):
    for _ in range(6000):
        if holds():
            return
        time.sleep(0.01)
    fail(what)


def bytes_in(pipe):
    return int.from_bytes(fcntl.ioctl(pipe, 0x541B, b"\0\0\0\0"), sys.byteorder)


def plain(path):
    with open(path) as text:
        return subprocess.run([runner], stdin=text, capture_output=True).stdout


def piped(**more):
    return subprocess.Popen([runner], stdin=subprocess.PIPE, stdout=subprocess.PIPE, stderr=subprocess.PIPE, **more)


def ended(name, run, wrote, said=b""):
    output, sentences = run.communicate(timeout=60)
    if output != wrote:
        fail(f"{name}: wrote {len(output)} bytes, not the {len(wrote)} that it should")
    if sentences != said:
        fail(f"{name}: said {sentences}")


# A typist sees each reply before the next call, and half a line has none yet.
run = piped()
for call, reply in ((b"store 1 4 2 4 8 10\n", b"+\n"), (b"B\n", b"+ 1\n"), (b"W 1", b""), (b" 0 0\nL", b"+ 0:1\n"), (b"\n", b"+ 1 3\n")):
    run.stdin.write(call)
    run.stdin.flush()
    until("typed: a call was not read", lambda: bytes_in(run.stdin) == 0)
    if reply:
        if not select.select([run.stdout], [], [], 60)[0]:
            fail(f"typed: no reply to {call}")
        if os.read(run.stdout.fileno(), 100) != reply:
            fail(f"typed: another reply to {call}")
ended("typed", run, b"")

# Pieces of all sizes make the replies of the whole.
text = open(script, "rb").read()
for size in range(1, len(text)):
    run = piped()
    for at in range(0, len(text), size):
        run.stdin.write(text[at:at + size])
        run.stdin.flush()
    ended(f"pieces of {size}", run, plain(script))

# An output that is set not to wait: the pipe is full before anything is read from it.
back, out = os.pipe()
does_not_wait(out)
with open(long) as given:
    run = subprocess.Popen([runner], stdin=given, stdout=out, stderr=subprocess.PIPE)
until("an output that does not wait: it was not filled", lambda: not select.select([], [out], [], 0)[1])
os.close(out)
wrote = b"".join(iter(lambda: os.read(back, 65536), b""))
sentences = run.communicate(timeout=60)[1]
if wrote != plain(long) or sentences:
    fail(f"an output that does not wait: {len(wrote)} bytes, and {sentences}")

# An input that is set not to wait, with nothing there yet.
given, to = os.pipe()
does_not_wait(given)
run = subprocess.Popen([runner], stdin=given, stdout=subprocess.PIPE, stderr=subprocess.PIPE)
time.sleep(0.2)
os.close(given)
os.write(to, text[:30])
time.sleep(0.2)
os.write(to, text[30:])
os.close(to)
ended("an input that does not wait", run, plain(script))

# A reader that is gone: a sentence, also where the signal is not ignored at the start, since a program of this toolchain ignores it.
for ignored in (True, False):
    back, out = os.pipe()
    os.close(back)
    with open(script) as given:
        run = subprocess.Popen([runner], stdin=given, stdout=out, stderr=subprocess.PIPE, restore_signals=not ignored)
    os.close(out)
    sentences = run.communicate(timeout=60)[1]
    if sentences != b"sogvect: standard output: Broken pipe\n":
        fail(f"a reader that is gone: said {sentences}")
    if run.returncode != 0:
        fail(f"a reader that is gone: ended with {run.returncode}")
