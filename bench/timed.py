"""For the other files here: one run of a shell command, timed."""
import os
import sys
import time


def timed(command, due=0):
    """Answers the seconds on the clock and the peak memory in MiB of one run of `command`, which must end with the status `due`."""
    begun = time.time()
    child = os.spawnv(os.P_NOWAIT, '/bin/sh', ['sh', '-c', 'exec ' + command])
    _, status, used = os.wait4(child, 0)
    if os.waitstatus_to_exitcode(status) != due:
        sys.exit('%s: status %d' % (command, os.waitstatus_to_exitcode(status)))
    return time.time() - begun, used.ru_maxrss // 1024
