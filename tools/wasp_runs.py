"""Runs the planner on many files, each as a process of its own, through GNU parallel where it is present.

A run reads FOLDER/NAME/WORD.in and leaves WORD.out and WORD.status beside it. WORD.out gets its name as the last step,
so a run that was cut off has none and is done again.
"""

import os
import shlex
import shutil
import subprocess
from concurrent.futures import ThreadPoolExecutor

WHOLE_STATUSES = (0, 1, 2)
NO_PARALLEL = "GNU parallel is not there, which --sshlogin needs (on Debian: apt-get install parallel)"


class Failure(Exception):
    """Why studies cannot be run."""


def program():
    """The planner: what WASP4 names, or ./wasp4 at the top of the repository."""
    top = os.path.dirname(os.path.dirname(os.path.realpath(__file__)))
    return os.path.abspath(os.environ.get("WASP4") or os.path.join(top, "wasp4"))


def path_of(folder, run, ending):
    """A file of a run, which is a study's name with the run's word, as 'base/plan'."""
    return os.path.join(folder, f"{run}.{ending}")


def status_of(folder, run):
    """The exit status of a run, or None where it was cut off."""
    try:
        with open(path_of(folder, run, "status"), encoding="ascii") as source:
            status = int(source.read())
        return status if os.path.exists(path_of(folder, run, "out")) else None
    except (FileNotFoundError, ValueError):
        return None


def prepare(folder, run, text, resume):
    """Writes the input of a run; says whether it is still to be run."""
    os.makedirs(os.path.dirname(path_of(folder, run, "in")), exist_ok=True)
    data = text.encode("latin-1")
    path = path_of(folder, run, "in")
    if resume and os.path.exists(path) and status_of(folder, run) in WHOLE_STATUSES:
        with open(path, "rb") as source:
            if source.read() == data:
                return False
    for ending in ("out", "status", "part"):
        if os.path.exists(path_of(folder, run, ending)):
            os.remove(path_of(folder, run, ending))
    with open(path, "wb") as sink:
        sink.write(data)
    return True


def shell_line(word, run):
    """The shell command of a run, in the studies' folder."""
    return (f"{shlex.quote(program())} {word} <{run}.in >{run}.part; "
            f"echo $? >{run}.status; mv {run}.part {run}.out")


def run_by_parallel(folder, word, runs, jobs, sshlogins):
    """Runs through GNU parallel, on this machine or on those of --sshlogin."""
    command = ["parallel", "--jobs", str(jobs)]
    for login in sshlogins:
        command += ["--sshlogin", login]
    if sshlogins:
        command += ["--transferfile", "{}.in", "--return", "{}.status", "--return", "{}.out", "--cleanup",
                    "--workdir", "."]
    command.append(shell_line(word, "{}"))
    lines = "".join(run + "\n" for run in runs)
    subprocess.run(command, cwd=folder, input=lines, text=True, check=False)


def run_by_threads(folder, word, runs, jobs):
    """Runs so many at a time without GNU parallel."""
    def one(run):
        subprocess.run(["sh", "-c", shell_line(word, run)], cwd=folder, check=False)

    with ThreadPoolExecutor(max_workers=jobs) as pool:
        list(pool.map(one, runs))


def run_all(folder, word, runs, jobs, sshlogins):
    """Runs the planner's command `word` on the input of each run."""
    if not runs:
        return
    if shutil.which("parallel"):
        run_by_parallel(folder, word, runs, jobs, sshlogins)
    elif sshlogins:
        raise Failure(NO_PARALLEL)
    else:
        run_by_threads(folder, word, runs, jobs)
