"""The processor time of tasks that run as threads of this process: user and system time of the processes that a task
waited for, with all that these waited for, and its own.

A thread that a task starts belongs to the task, as do the processes that such a thread waits for. Of a process that is
never waited for nothing is known.
"""
import contextlib
import os
import resource
import threading
import time

START, HERE, GUARD = threading.Thread.start, threading.local(), threading.Lock()


class Used:
    """What a task used, in seconds of a processor."""

    def __init__(self):
        self.seconds = 0.0

    def adds(self, seconds):
        with GUARD:
            self.seconds += seconds


def watch():
    """From now on each thread belongs to the task of the thread that started it, and what is waited for is noted."""
    threading.Thread.start, os.waitpid = start, waitpid


def start(thread):
    """Starts a thread, for the task of this one."""
    task, run = getattr(HERE, "task", None), thread.run

    def run_for_task():
        HERE.task = task
        run()

    thread.run = run_for_task
    START(thread)


def waitpid(process, options):
    """Waits for a process as os.waitpid does, and notes what it used."""
    found, status, used = os.wait4(process, options)
    task = getattr(HERE, "task", None)
    if found and task:
        task.adds(used.ru_utime + used.ru_stime)
    return found, status


@contextlib.contextmanager
def of_task():
    """What is done in this `with` is a task of this thread. Returns what it used, which is whole at the end."""
    before, begun = getattr(HERE, "task", None), time.thread_time()
    HERE.task = task = Used()
    try:
        yield task
    finally:
        HERE.task = before
        task.adds(time.thread_time() - begun)


def of_all():
    """Returns what this process used, and all that it waited for, in seconds of a processor."""
    kinds = [resource.getrusage(it) for it in (resource.RUSAGE_SELF, resource.RUSAGE_CHILDREN)]
    return sum(it.ru_utime + it.ru_stime for it in kinds)
