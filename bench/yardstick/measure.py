"""Runs a command and prints its exit status, its seconds, its peak memory in bytes, and the seconds of the processor.

Usage: measure.py COMMAND WORD..
"""
import resource
import subprocess
import sys
import time

begin = time.perf_counter()
status = subprocess.run(sys.argv[1:]).returncode
seconds = time.perf_counter() - begin
used = resource.getrusage(resource.RUSAGE_CHILDREN)
print(status, f"{seconds:.3f}", used.ru_maxrss * 1024, f"{used.ru_utime + used.ru_stime:.3f}")
