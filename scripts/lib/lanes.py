"""Tasks side by side: as many as there are lanes, and as their memory allows."""

import collections
import concurrent.futures

import project

# The call returns the tasks that come after it, or None where it failed. `waits` has the names of the tasks that must have succeeded
# before, and `memory` is the most that it is likely to take, in bytes. Of the tasks that can start, the one of least rank does.
Task = collections.namedtuple("Task", "name rank memory waits call")


class Killed(Exception):
    """A prover was killed, most likely for want of memory."""


def run(tasks, lanes, memory, at_end):
    """Runs the tasks and all that come after them. A task that is killed runs once more, alone. Calls at_end in this thread after each.

    Whatever ends this function ends all commands that the tasks started."""
    left, running, done, again = [*tasks], {}, set(), set()
    pool = concurrent.futures.ThreadPoolExecutor(lanes)
    try:
        while left or running:
            for task in sorted(left, key=lambda it: it.rank):
                room = memory - sum(it.memory for it in running.values())
                if len(running) < lanes and done >= {*task.waits} and (task.memory <= room or not running):
                    left.remove(task)
                    running[pool.submit(task.call)] = task
            if not running:
                # (what these wait for has failed)
                break
            for it in concurrent.futures.wait(running, return_when=concurrent.futures.FIRST_COMPLETED).done:
                task = running.pop(it)
                try:
                    more = it.result()
                except Killed:
                    more = None if task in again else [task._replace(memory=memory)]
                    again.update(more or ())
                    print(f"{task.name}: the prover was killed, most likely for want of memory{': once more, alone' if more else ''}", flush=True)
                else:
                    done |= {task.name} if more is not None else set()
                left += more or ()
            at_end()
    except BaseException:
        project.end_all()
        raise
    finally:
        pool.shutdown(cancel_futures=True)
    return left
