"""Runs one part of a longer run: a command with a time limit, whose lines are shown as they come."""
import contextlib
import os
import signal
import subprocess
import sys

# So many seconds after a command was asked to end, it is killed.
PATIENCE = 30


def ran(words, limit, to):
    """Runs a command in a group of its own, which ends at the limit of seconds, and where this script is ended. Writes its lines, with four
    spaces before each, to a stream. Returns its status, None where it had not ended in time, and the last line that it printed."""
    last, signals = "", [signal.SIGKILL, signal.SIGTERM]
    how = {"stdin": subprocess.DEVNULL, "stdout": subprocess.PIPE, "stderr": subprocess.STDOUT, "errors": "replace"}
    for it in (signal.SIGTERM, signal.SIGHUP):
        signal.signal(it, lambda number, _: sys.exit(128 + number))
    with subprocess.Popen(words, preexec_fn=os.setpgrp, **how) as part:

        def end(*_):
            with contextlib.suppress(ProcessLookupError):
                os.killpg(part.pid, signals.pop())
            signal.alarm(PATIENCE if signals else 0)

        signal.signal(signal.SIGALRM, end)
        signal.alarm(limit)
        try:
            for line in part.stdout:
                print(f"    {line}", end="", file=to, flush=True)
                last = line.strip() or last
        except BaseException:
            end()
            raise
        finally:
            signal.alarm(0)
    return part.returncode if len(signals) == 2 else None, last
