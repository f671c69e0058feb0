"""Programs that a script runs, with a limit of what they may take."""
import contextlib
import resource
import subprocess


def run(words, seconds, given=None, **how):
    """Runs a program to its end, or until it has taken so many seconds of a processor. The clock
    shows nothing of it, since others may have the processors."""
    if given is not None:
        how["stdin"] = subprocess.PIPE
    with subprocess.Popen(words, **how) as ran:
        with contextlib.suppress(ProcessLookupError):  # (it has ended)
            most = resource.prlimit(ran.pid, resource.RLIMIT_CPU)[1]
            if most == resource.RLIM_INFINITY or most > seconds:
                resource.prlimit(ran.pid, resource.RLIMIT_CPU, (seconds, seconds))
        try:
            said, told = ran.communicate(given)
        except BaseException:
            ran.kill()
            raise
    return subprocess.CompletedProcess(words, ran.returncode, said, told)
