"""The processor time that parts of a run take."""
import resource


def time_of_processes():
    """The processor time, user and system, of all processes that were run so far."""
    used = resource.getrusage(resource.RUSAGE_CHILDREN)
    return used.ru_utime + used.ru_stime


def told(part, run):
    """What a part of a run answers; the processor time that it took is printed."""
    before = time_of_processes()
    answer = run()
    print(f"{part}: {time_of_processes() - before:.0f} processor seconds", flush=True)
    return answer
