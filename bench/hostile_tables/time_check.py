# Runs `PROGRAM check FILE` and prints its status, the seconds by the clock and of the processor, the most memory and what it said.
#     time_check.py PROGRAM FILE
import resource
import subprocess
import sys
import time

start = time.perf_counter()
try:
    run = subprocess.run([sys.argv[1], "check", sys.argv[2]], capture_output=True, timeout=120)
    said = f"status {run.returncode}: {(run.stdout + run.stderr).decode().strip()}"
except subprocess.TimeoutExpired:
    said = "given up"
taken = time.perf_counter() - start
usage = resource.getrusage(resource.RUSAGE_CHILDREN)
print(f"{sys.argv[2]:26} {taken:7.2f} s, processor {usage.ru_utime + usage.ru_stime:6.2f} s, {usage.ru_maxrss // 1024:5} MB, {said}", flush=True)
