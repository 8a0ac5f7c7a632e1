"""Times programs and takes their peak memory."""
import subprocess
import sys

# Runs a program from a small process of its own, since a process counts the memory of the one that it was forked from.
SPAWNER = '''
import os, sys, time
start = time.perf_counter()
child = os.fork()
if child == 0:
    nothing = os.open(os.devnull, os.O_WRONLY)
    os.dup2(nothing, 1)
    os.dup2(nothing, 2)
    os.execvp(sys.argv[1], sys.argv[1:])
_, status, usage = os.wait4(child, 0)
print(status, time.perf_counter() - start, usage.ru_maxrss)
'''


def run(words):
    """The seconds that a program takes, and its peak memory in bytes; at least the few megabytes of the spawner."""
    spawned = subprocess.run([sys.executable, '-I', '-S', '-c', SPAWNER, *words], capture_output=True, check=True)
    status, seconds, peak = spawned.stdout.split()
    return (float(seconds), int(peak) * 1024) if status == b'0' else None


def best_of(rounds, rivals):
    """The best run of each program, which take turns; None for one that fails."""
    best = {name: None for name in rivals}
    for _ in range(rounds):
        for name, words in rivals.items():
            taken = run(words)
            if taken and (best[name] is None or taken[0] < best[name][0]):
                best[name] = taken
    return best
