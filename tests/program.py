"""Drives the built program through pipes, as a user does, and the command that runs it.

Each try has a limit of time, so a program that waits where it should answer or end is a failure and does not hang the test.
"""

import os
import pathlib
import select
import shutil
import signal
import subprocess
import sys
import tempfile
import threading

ROOT = pathlib.Path(__file__).resolve().parent.parent
COMMAND = ROOT / "korytanka"
PROGRAM = ROOT / "target/bin/korytanka"
# How it is started: the emulator's words in front, where the machine is not x86-64.
START = [*os.environ.get("RUN_X86_64", "").split(), PROGRAM]
SESSION = ROOT / "docs/session.txt"
ANSWERS = ROOT / "docs/session.out"
LONG = ROOT / "crates/korytanka/stdin"
LONG_ANSWERS = ROOT / "crates/korytanka/stdout"
LIMIT = 20


def start(**more):
    return subprocess.Popen(START, stdin=subprocess.PIPE, stdout=subprocess.PIPE, bufsize=0, **more)


def some_from(process, most):
    ready, _, _ = select.select([process.stdout], [], [], LIMIT)
    assert ready, f"nothing was written for {LIMIT} s"
    return os.read(process.stdout.fileno(), most)


def line_from(process):
    """One line of the output, without its line feed."""
    got = b""
    while not got.endswith(b"\n"):
        one = some_from(process, 1)
        assert one, f"the output ended, after {got!r}"
        got += one
    return got[:-1]


def all_from(process):
    """The output to its end; the program has ended well."""
    got = b""
    while some := some_from(process, 65536):
        got += some
    assert process.wait(LIMIT) == 0, f"exit {process.returncode}"
    return got


def ended(process):
    process.stdin.close()
    return all_from(process)


def line_by_line():
    """Each answer comes before the next frame is sent."""
    answers = iter(ANSWERS.read_bytes().splitlines())
    process = start()
    for frame in SESSION.read_bytes().splitlines():
        process.stdin.write(frame + b"\n")
        if frame:
            got, wanted = line_from(process), next(answers)
            assert got == wanted, f"{frame!r}: {got!r}, not {wanted!r}"
    assert ended(process) == b""
    assert next(answers, None) is None


def byte_by_byte():
    """A frame that comes in pieces of one byte."""
    process = start()
    for frame in (b"00020010\n", b"01000000050000000700000009\n", b"0300000005"):
        for byte in frame:
            process.stdin.write(bytes([byte]))
    assert line_from(process) == b"00"
    assert line_from(process) == b"00"
    for byte in b"00000007\n":
        process.stdin.write(bytes([byte]))
    assert line_from(process) == b"000000000900000001"
    assert ended(process) == b""


def last_line():
    """A last line without line feed is answered at the end of the input, and no bytes answer nothing."""
    process = start()
    process.stdin.write(b"00020010")
    assert ended(process) == b"00\n"
    assert ended(start()) == b""


def in_pieces():
    """The long session, cut anywhere, gives what it gives whole."""
    whole, wanted = LONG.read_bytes(), LONG_ANSWERS.read_bytes()
    for size in (1, 7, 129, 65536):
        process = start()

        def send():
            for at in range(0, len(whole), size):
                process.stdin.write(whole[at:at + size])
            process.stdin.close()

        writer = threading.Thread(target=send)
        writer.start()
        assert all_from(process) == wanted, f"pieces of {size}"
        writer.join()


def much_output():
    """One read that asks for more than the program's output buffer holds."""
    frames = b"00010010\n" + b"".join(b"01%08X%08X\n" % (i, i) for i in range(64)) + b"0400000000000000FF\n" * 3000
    done = subprocess.run(START, input=frames, capture_output=True, timeout=LIMIT)
    listed = b"00000000400000000A" + b"".join(b"%08X" % i for i in range(64))
    assert done.returncode == 0
    assert done.stdout.splitlines() == [b"00"] * 65 + [listed] * 3000


def closed_output():
    """Nobody reads the answers any more: the program ends though its input stays open, by the failed write. It ignores SIGPIPE itself."""
    for pipes in (signal.SIG_DFL, signal.SIG_IGN):
        process = start(restore_signals=False, preexec_fn=lambda: signal.signal(signal.SIGPIPE, pipes))
        process.stdin.write(b"00020010\n")
        assert line_from(process) == b"00"
        process.stdout.close()
        try:
            process.stdin.write(b"0300000005\n")
        except BrokenPipeError:
            pass
        code = process.wait(LIMIT)
        assert code == 0, f"exit {code}"


def command():
    """./korytanka answers a session file, and its standard input."""
    for words, given in (([SESSION], None), ([], SESSION.read_bytes())):
        done = subprocess.run([COMMAND, *words], input=given, capture_output=True, timeout=600)
        assert done.returncode == 0, done.stderr
        assert done.stdout == ANSWERS.read_bytes()
    done = subprocess.run([COMMAND, "no such file"], capture_output=True, timeout=LIMIT)
    assert done.returncode == 2 and b"no such file" in done.stderr and not done.stdout


def command_without():
    """Without rt, where the proof fails, and without the emulator on Arm, it says so and runs nothing."""
    with tempfile.TemporaryDirectory() as folder:
        shutil.copy(COMMAND, folder)
        for made in ("tools", "crates/korytanka", "bin"):
            (pathlib.Path(folder) / made).mkdir(parents=True)
        shutil.copy(ROOT / "tools/build", pathlib.Path(folder) / "tools")
        tools = pathlib.Path(folder) / "bin"
        for tool in ("bash", "env", "dirname", "readlink", "find", "grep", "touch", "mkdir", "tee", "tail", "cp", "mv"):
            (tools / tool).symlink_to(shutil.which(tool))

        def fake(tool, does):
            (tools / tool).write_text(f"#!/usr/bin/env bash\n{does}\n")
            (tools / tool).chmod(0o755)

        def says(*words):
            run = [f"{folder}/korytanka"]
            done = subprocess.run(run, env={"PATH": str(tools)}, input=b"00020010\n", capture_output=True, timeout=LIMIT)
            assert done.returncode == 1 and all(word in done.stderr for word in words) and not done.stdout, done

        fake("uname", "echo x86_64")
        says(b"rt", b"missing")
        fake("rt", "echo 'rt: FAILED: korytanka'; exit 1")
        says(b"FAILED", b"not proved")
        fake("uname", "echo aarch64")
        says(b"qemu-x86_64", b"missing")
        fake("qemu-x86_64", "exit 0")
        says(b"FAILED", b"not proved")


def main():
    if not PROGRAM.exists():
        sys.exit(f"missing: {PROGRAM}; tools/build program makes it")
    tries = (line_by_line, byte_by_byte, last_line, in_pieces, much_output, closed_output, command, command_without)
    for one in tries:
        one()
    print(f"{len(tries)} tries of the frame program, all as they should be")


main()
