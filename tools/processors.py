"""How many checks run side by side: as many as there are processors, and as fit into nine tenths of the memory.

Run by itself it prints that number. `RT_JOBS`, which `rt ci` also reads, decides where somebody has set it.
"""
import os
import pathlib

# What the largest checks of the repository take, in bytes, the greatest first (docs/GATE.md); each of the others takes no more than the last of these.
LARGEST = (6_500_000_000, 4_600_000_000, 3_700_000_000, 3_200_000_000)
GROUP = pathlib.Path("/sys/fs/cgroup")


def number_in(path):
    """The first number of a file, or nothing where there is none."""
    try:
        word = path.read_text(encoding="utf-8").split()[0]
    except (OSError, IndexError):
        return None
    return int(word) if word.isdigit() else None


def processors():
    """The processors that this process may run on, or fewer by the quota of its control group."""
    found, quota = len(os.sched_getaffinity(0)), number_in(GROUP / "cpu.max")
    if quota:
        period = int((GROUP / "cpu.max").read_text(encoding="utf-8").split()[1])
        found = min(found, max(quota // period, 1))
    return found


def free_memory():
    """The bytes of memory that are free, within the limit of the control group."""
    lines = pathlib.Path("/proc/meminfo").read_text(encoding="utf-8").split("\n")
    free = 1024 * next(int(line.split()[1]) for line in lines if line.startswith("MemAvailable:"))
    limit, used = number_in(GROUP / "memory.max"), number_in(GROUP / "memory.current")
    return free if limit is None or used is None else min(free, limit - used)


def together(count):
    """The bytes that so many checks take together, if they are the largest."""
    return sum(LARGEST[:count]) + LARGEST[-1] * max(count - len(LARGEST), 0)


def jobs(count=None, memory=None):
    """How many checks run side by side on so many processors with so much memory."""
    count, memory = count or processors(), free_memory() if memory is None else memory
    return max([1, *(number for number in range(1, count + 1) if together(number) <= 0.9 * memory)])


def wanted_jobs():
    """How many checks run side by side: what RT_JOBS sets, or else `jobs`."""
    given = os.environ.get("RT_JOBS", "")
    return int(given) if given.isdigit() and int(given) else jobs()


if __name__ == "__main__":
    print(wanted_jobs())
