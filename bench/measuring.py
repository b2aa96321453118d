"""What the measuring scripts beside this file share: traces that they make, and runs of the program.

A measurement refuses nothing: it says of a run that does not end as it should how it ended. Each run may take
the memory that is free when it begins: what asks for more ends with status 5. No peak below that of the script
itself, some 10 MB, can be seen.
"""
import os
import random
import resource
import sys
import tempfile
import time

HERE = os.path.dirname(os.path.realpath(__file__))
PROGRAM = os.path.abspath(sys.argv[1] if len(sys.argv) > 1 else os.path.join(HERE, "..", "crates", "lb", "out", "lb"))


def text_of(lines):
    return "".join(line + "\n" for line in lines)


def cpu_lines(cpus, core, cache, node):
    """The `cpu` lines of a machine whose cores, caches and nodes have so many CPUs each."""
    return ["cpu,%d,%d,%d,%d" % (cpu, cpu // core, cpu // cache, cpu // node) for cpu in range(cpus)]


def distance_lines(nodes):
    """10 within a node, 20 from node to node."""
    return ["dist," + ",".join("10" if a == b else "20" for b in range(nodes)) for a in range(nodes)]


def wide(rows):
    """64 CPUs on four nodes, 16 lanes and 4,096 tasks; of twelve rows five are wakes, four sleeps, three ticks."""
    rng = random.Random(2)
    lines = ["lbtrace,1"] + cpu_lines(64, 2, 8, 16) + distance_lines(4) + ["lanes,16"]
    for task in range(4_096):
        mask = rng.choice(["0-63"] * 8 + ["0-31", "%d" % rng.randrange(64)])
        lines.append("task,%d,%d,%d,%s" % (task, rng.choice([0, 0, 0, -5, 5]), rng.randrange(64), mask))
    at = 0
    for _ in range(rows):
        at += rng.randrange(40_000)
        kind = rng.choice(["wake"] * 5 + ["sleep"] * 4 + ["tick"] * 3)
        if kind == "tick":
            cpu = rng.randrange(64)
            lines.append("tick,%d,%d,%d" % (cpu % 16, at, cpu))
        else:
            lines.append("%s,%d,%d,%d" % (kind, rng.randrange(16), at, rng.randrange(4_096)))
    return text_of(lines)


def tickless(ticks):
    """64 CPUs of which one is busy, with two tasks that may run nowhere else. The others tick once and are
    tickless from then on, so each tick of the busy one is followed by a turn for each of them."""
    lines = ["lbtrace,1"] + cpu_lines(64, 1, 32, 32) + distance_lines(2) + ["lanes,1"]
    lines += ["task,0,0,0,0", "task,1,0,0,0", "wake,0,0,0", "wake,0,0,1"]
    lines += ["tick,0,0,%d" % cpu for cpu in range(1, 64)]
    lines += ["tick,0,%d,0" % (600_000_000 * tick) for tick in range(1, ticks + 1)]
    return text_of(lines)


def free_memory():
    """The bytes that are free, or None where the system does not say."""
    try:
        with open("/proc/meminfo") as told:
            return next(int(line.split()[1]) * 1024 for line in told if line.startswith("MemAvailable:"))
    except (OSError, StopIteration):
        return None


def start(words, given, into):
    """Starts the program with these words. It reads the file `given`, and writes into the pipe or file `into`."""
    child = os.fork()
    if child == 0:
        room = free_memory()
        if room:
            resource.setrlimit(resource.RLIMIT_AS, (room, room))
        os.dup2(given.fileno() if given else os.open(os.devnull, os.O_RDONLY), 0)
        os.dup2(into, 1)
        os.dup2(os.open(os.devnull, os.O_WRONLY), 2)
        os.execv(PROGRAM, [PROGRAM, *words])
    return child


def made(make, *sizes):
    """A file with a trace. A child makes it, since what this process takes is seen in the peak of what it starts."""
    given = tempfile.TemporaryFile()
    child = os.fork()
    if child == 0:
        given.write(make(*sizes).encode())
        given.flush()
        os._exit(0)
    _, status = os.waitpid(child, 0)
    if status != 0:
        sys.exit("a trace could not be made")
    return given


def written(words, given=None):
    """A file with what the program writes for these words and this input."""
    if given:
        given.seek(0)
    found = tempfile.TemporaryFile()
    _, status = os.waitpid(start(words, given, found.fileno()), 0)
    if status != 0:
        sys.exit("%s ended with status %d" % (" ".join(words), os.waitstatus_to_exitcode(status)))
    return found


def run(words, given):
    """The status, the seconds, those of processors, the peak memory in bytes, the bytes written and the last line of one
    run."""
    given.seek(0)
    out, into = os.pipe()
    began = time.monotonic()
    child = start(words, given, into)
    os.close(into)
    size, tail = 0, b""
    with open(out, "rb", buffering=0) as pipe:
        while part := pipe.read(1 << 16):
            size += len(part)
            tail = (tail + part)[-4096:]
    _, status, used = os.wait4(child, 0)
    seconds = time.monotonic() - began
    last = tail.splitlines()[-1].decode() if tail.endswith(b"\n") else ""
    return os.waitstatus_to_exitcode(status), seconds, used.ru_utime + used.ru_stime, used.ru_maxrss * 1024, size, last


def measure(name, words, given, entries_in, wanted=0, tries=3):
    """Runs the program so many times, prints the quickest run in a line, and answers its seconds. `entries_in`
    says how many entries the last line that was written tells of."""
    status, seconds, busy, peak, out, last = min((run(words, given) for _ in range(tries)), key=lambda found: found[1])
    size = os.fstat(given.fileno()).st_size
    line = "%-44s %8.3f s, %8.3f s of processors, %6.0f MB" % (name, seconds, busy, peak / 1e6)
    if status != wanted:
        line += ", status %d" % status
    elif last:
        entries = entries_in(last)
        line += ", %d entries, %.0f a second, %.1f MB in, %.1f MB out" % (
            entries, entries / seconds, size / 1e6, out / 1e6)
    else:
        line += ", %.1f MB in, %.1f MB a second" % (size / 1e6, size / seconds / 1e6)
    print(line, flush=True)
    return seconds if status == wanted else None


def compare(few, many):
    """Prints how much more time ten times the rows took."""
    if few and many:
        print("ten times the rows: %.1f times the time" % (many / few))


def main_of(name, measurements):
    """Runs a script's measurements, where there is a program."""
    if os.access(PROGRAM, os.X_OK):
        measurements()
    else:
        print("%s: there is no program %s, which ./lb builds: skipped" % (name, PROGRAM))
