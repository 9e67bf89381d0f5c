"""Processor time and peak memory of a program's run."""
import subprocess
import sys

# A process of its own waits for the program: what Linux tells of a child's memory begins with that of
# the process that started it.
WAITS = """
import os, sys
with open(os.devnull, 'wb') as nowhere:
    os.dup2(nowhere.fileno(), 1)
pid = os.posix_spawn(sys.argv[1], sys.argv[1:], os.environ)
_, status, usage = os.wait4(pid, 0)
print(status, usage.ru_utime + usage.ru_stime, usage.ru_maxrss / 1024, file=sys.stderr)
"""


def usage_of(words):
    """Seconds of processor time and MB at most. The output goes nowhere."""
    ran = subprocess.run([sys.executable, '-c', WAITS, *words], stderr=subprocess.PIPE, check=True)
    status, took, peak = ran.stderr.split()[-3:]
    if int(status):
        sys.exit('status %s' % int(status))
    return float(took), float(peak)
