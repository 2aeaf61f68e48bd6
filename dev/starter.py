"""Runs a command, and prints its seconds, processor seconds, the kilobytes that it took at most and its exit status.

usage: python3 -I -S starter.py SECONDS BYTES FILE COMMAND ARGUMENT..

The command may take so many seconds and bytes of address space, -1 for any number; what it prints goes to the file.
"""
import os
import resource
import signal
import sys
import time

seconds, room, report = int(sys.argv[1]), int(sys.argv[2]), sys.argv[3]
began = time.perf_counter()
child = os.fork()
if child == 0:
    if room >= 0:
        resource.setrlimit(resource.RLIMIT_AS, (room, room))
    signal.alarm(seconds)
    os.dup2(os.open(report, os.O_WRONLY | os.O_CREAT | os.O_TRUNC, 0o666), 1)
    os.execvp(sys.argv[4], sys.argv[4:])
_, status, usage = os.wait4(child, 0)
print(time.perf_counter() - began, usage.ru_utime + usage.ru_stime, usage.ru_maxrss, os.waitstatus_to_exitcode(status))
