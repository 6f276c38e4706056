"""What a process takes."""
import os
import resource
import sys
import time


def took(words, stdin=os.devnull, stdout=os.devnull, status=0, stderr=None):
    """Milliseconds from the start of a process to its end, milliseconds of the processor, and its peak in bytes. It is
    to end with the status."""
    actions = [(os.POSIX_SPAWN_OPEN, 0, stdin, os.O_RDONLY, 0)]
    actions += [
        (os.POSIX_SPAWN_OPEN, number, path, os.O_WRONLY | os.O_CREAT | os.O_TRUNC, 0o644)
        for number, path in ((1, stdout), (2, stderr))
        if path
    ]
    before = time.monotonic()
    child = os.posix_spawnp(words[0], words, os.environ, file_actions=actions)
    _, ended, used = os.wait4(child, 0)
    after = time.monotonic()
    if os.waitstatus_to_exitcode(ended) != status:
        sys.exit(f"status {ended}: {words}")
    return (after - before) * 1e3, (used.ru_utime + used.ru_stime) * 1e3, used.ru_maxrss * 1024


def own_peak():
    """The peak of this process. One that it starts is told to have at least that."""
    return resource.getrusage(resource.RUSAGE_SELF).ru_maxrss * 1024


def shared_memory():
    """A folder for files that never go to a disk; None, which is TMPDIR, where there is none."""
    return "/dev/shm" if os.access("/dev/shm", os.W_OK) else None
