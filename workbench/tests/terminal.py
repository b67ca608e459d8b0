#!/usr/bin/env python3
"""A run on a terminal: the status line, and Ctrl-C.

terminal.py ARDUINOS IMAGE    the program, and an image with a routine 'lamp' that never ends
"""
import os
import pty
import re
import select
import signal
import subprocess
import sys
import tempfile
import time

if "--help" in sys.argv[1:]:
    sys.exit(print(__doc__.strip()))

STATUS = re.compile(rb"\r\x1b\[K[0-9]+ rounds, [0-9]+ a second, 1 running")


def on_terminal(command, seconds):
    """Runs a command on a terminal, with Ctrl-C after so many seconds. Its status and its text."""
    child, terminal = pty.fork()
    if child == 0:
        os.execv(command[0], command)
    written, begun, interrupted = b"", time.monotonic(), False
    while True:
        if not interrupted and time.monotonic() - begun > seconds:
            os.write(terminal, b"\x03")
            interrupted = True
        if time.monotonic() - begun > seconds + 20:
            os.kill(child, signal.SIGKILL)
        if select.select([terminal], [], [], 0.1)[0]:
            try:
                part = os.read(terminal, 65536)
            except OSError:
                part = b""
            if not part:
                break
            written += part
    return os.waitstatus_to_exitcode(os.waitpid(child, 0)[1]), written


def main():
    arduinos, image = sys.argv[1:]
    with tempfile.TemporaryDirectory() as folder:
        record = os.path.join(folder, "record")
        status, written = on_terminal([arduinos, "run", image, "lamp", "--record", record], 1.5)
        assert status == 0, f"Ctrl-C: status {status}"
        assert len(STATUS.findall(written)) >= 2, f"no status line: {written[-200:]!r}"
        assert b"red\r\n" in written, "no output"
        assert re.search(rb"\r\x1b\[K[0-9]+ rounds, 1 process runs\r\n$", written), f"no last line: {written[-200:]!r}"
        # Nothing stands behind a status line but what wipes it, and the terminal's own echo of Ctrl-C.
        shown = [part for part in written.replace(b"^C", b"").split(b"\r\x1b[K") if b" a second, " in part]
        assert all(part.endswith(b" running") for part in shown), "text behind a status line"
        subprocess.run([arduinos, "replay", record], check=True, stdout=subprocess.DEVNULL)
        piped = subprocess.run([arduinos, "run", image, "lamp", "--rounds", "1000000"], capture_output=True, check=True)
        assert b"a second" not in piped.stderr, "a status line without a terminal"


main()
