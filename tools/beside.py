"""Running a program and another implementation of the same rules, side by side."""
import multiprocessing
import resource
import subprocess

SLOW = 5.0


class Owed(Exception):
    """The other implementation wrote more than is compared."""


def told(oracle, words, most=None):
    """What the other implementation writes, its status and its text."""
    out, size = [], [0]

    def take(piece):
        size[0] += len(piece)
        if most is not None and size[0] > most:
            raise Owed
        out.append(piece)

    try:
        oracle.Program(take).run(words)
        status, text = 0, b''
    except oracle.Stop as stop:
        status, text = stop.status, stop.text.encode() + b'\n'
    return b''.join(out), text, status


def processor_time():
    """Seconds that the processes took that this one started and that have ended."""
    usage = resource.getrusage(resource.RUSAGE_CHILDREN)
    return usage.ru_utime + usage.ru_stime


def written(program, words):
    """The same of the program, and how many seconds of processor time it took."""
    began = processor_time()
    ran = subprocess.run([program, *words], stdin=subprocess.DEVNULL, capture_output=True,
                         timeout=120, check=False)
    return (ran.stdout, ran.stderr, ran.returncode), processor_time() - began


def over_seeds(compared, first, count, workers, *more):
    """What `compared((first, count, *more))` gives for pieces of these seeds, in order."""
    step = 50
    jobs = [(at, min(step, first + count - at), *more)
            for at in range(first, first + count, step)]
    with multiprocessing.Pool(workers) as pool:
        yield from pool.imap(compared, jobs)
