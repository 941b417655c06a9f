"""What the measurements share: one run of a program, and a table of two sizes."""
import os
import subprocess
import sys

SIZES = (64 << 10, 1 << 20)

# A program has the heap that `./schc` asks for, but where the variable is set, as by `GLIBC_TUNABLES= bench/compile.py`.
HEAP = "hugetlb=1", "tcache_count=100", "mxfast=0", "mmap_threshold=268435456", "trim_threshold=268435456"
ENVIRONMENT = {"GLIBC_TUNABLES": ":".join("glibc.malloc." + word for word in HEAP), **os.environ}


def once(words, folder=None, wanted=0):
    """Seconds and peak kilobytes of one run, which must end with the status that is wanted. The seconds are those of the processor, of
    which other work on the machine changes least."""
    said = subprocess.DEVNULL if wanted else None
    child = subprocess.Popen(words, cwd=folder, env=ENVIRONMENT, stdout=subprocess.DEVNULL, stderr=said)
    _, status, usage = os.wait4(child.pid, 0)
    if os.waitstatus_to_exitcode(status) != wanted:
        sys.exit(f"{words[0]} ended with {os.waitstatus_to_exitcode(status)}")
    return usage.ru_utime + usage.ru_stime, usage.ru_maxrss


def runs_wanted():
    return int(sys.argv[1]) if len(sys.argv) > 1 else 15


def table(texts, path, words, folder, wanted=0):
    """Writes each kind of text in both sizes to a file, runs the words over it, and prints a line for
    each size and one for how the time grows."""
    runs = runs_wanted()
    print(f"{os.cpu_count()} processors, least of {runs} runs")
    for name, make in texts.items():
        least = []
        for size in SIZES:
            with open(path, "wb") as file:
                file.write(make(size))
            measured = [once(words, folder, wanted) for _ in range(runs)]
            seconds, peak = min(m[0] for m in measured), max(m[1] for m in measured)
            least.append(seconds)
            print(f"{name:16} {size:8} bytes: {1000 * seconds:8.2f} ms, {peak / 1024:6.1f} MiB")
        print(f"{name:16} 1 MiB takes {least[1] / least[0]:.1f} times as long as 64 KiB")
