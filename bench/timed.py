"""Runs a command, and prints its status, its processor seconds and the KiB that it held at most: python3 -IS bench/timed.py REPORT WORDS..

It is a process of its own since what the process that starts a command holds counts as memory of the command. REPORT gets the standard output.
"""

import os
import sys

child = os.fork()
if child == 0:
    try:
        os.dup2(os.open(os.devnull, os.O_RDONLY), 0)
        os.dup2(os.open(sys.argv[1], os.O_WRONLY | os.O_CREAT | os.O_TRUNC), 1)
        os.dup2(os.open(os.devnull, os.O_WRONLY), 2)
        os.execvp(sys.argv[2], sys.argv[2:])
    finally:
        os._exit(127)
_, status, used = os.wait4(child, 0)
print(os.waitstatus_to_exitcode(status), used.ru_utime + used.ru_stime, used.ru_maxrss)
