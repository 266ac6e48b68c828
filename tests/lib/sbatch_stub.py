#!/usr/bin/python3
"""Stands in for sbatch of Slurm: takes the words and the lines #SBATCH that are used here, and runs the job at once.

sbatch has far more. What a job came to is kept in the folder that SBATCH_STUB names, for those that depend on it.
"""
import os
import re
import subprocess
import sys

MINUTES = r"(\d+-)?\d+(:\d+){0,2}"
# The options of sbatch 22.05 that are known here, with their forms; those without one take no value.
OPTIONS = {
    "job-name": r"\S+", "array": r"\d+(-\d+)?(,\d+(-\d+)?)*(%\d+)?", "ntasks": r"\d+", "cpus-per-task": r"\d+",
    "mem": r"\d+[KMGT]?", "time": MINUTES, "requeue": None, "open-mode": "append|truncate", "output": r"\S+",
    "dependency": r"afterok:\d+", "wrap": r".+", "parsable": None}


def stop(why):
    """Ends as sbatch does where it refuses."""
    sys.exit("sbatch: error: " + why)


def take(words, into):
    """Takes options from the front of words; the words after them."""
    rest = list(words)
    while rest and rest[0].startswith("--"):
        name, is_given, value = rest.pop(0)[2:].partition("=")
        if name not in OPTIONS:
            stop("unrecognized option '--%s'" % name)
        if OPTIONS[name] is None:
            into[name] = True
            continue
        value = value if is_given else rest.pop(0)
        if not re.fullmatch(OPTIONS[name], value):
            stop("Invalid --%s specification: %s" % (name, value))
        into[name] = value
    return rest


def of_script(path):
    """The options in a script: its lines #SBATCH before the first command."""
    given = {}
    with open(path, encoding="utf-8") as script:
        if not script.readline().startswith("#!"):
            stop("This does not look like a batch script.")
        for line in script:
            if line.strip() and not line.startswith("#"):
                break
            if line.startswith("#SBATCH") and take(line.split()[1:], given):
                stop("Invalid directive found in batch script: " + line)
    return given


def numbers(array):
    """The numbers of an array's tasks."""
    found = []
    for part in array.partition("%")[0].split(","):
        first, _, last = part.partition("-")
        found += range(int(first), int(last or first) + 1)
    return found


def main():
    """Runs a job; what it came to is in its file."""
    on_line = {}
    rest = take(sys.argv[1:], on_line)
    given = {**(of_script(rest[0]) if "wrap" not in on_line else {}), **on_line}
    room = os.environ["SBATCH_STUB"]
    job = len(os.listdir(room)) + 1
    with open(os.path.join(room, str(job)), "w", encoding="ascii") as told:
        if "dependency" in given:
            with open(os.path.join(room, given["dependency"].split(":")[1]), encoding="ascii") as before:
                if set(before.read().split()) != {"0"}:
                    told.write("never\n")
                    return
        words = ["sh", "-c", given["wrap"]] if "wrap" in given else ["sh", *rest]
        tasks = numbers(given["array"]) if "array" in given else [None]
        for task in tasks:
            told.write("%d\n" % run(words, given, job, task, tasks))
    print(job if "parsable" in given else "Submitted batch job %d" % job)


def run(words, given, job, task, tasks):
    """Runs a task; its status."""
    env = dict(os.environ, SLURM_JOB_ID=str(job))
    name = given.get("output", "slurm-%j.out").replace("%j", str(job))
    if task is not None:
        env.update(SLURM_ARRAY_JOB_ID=str(job), SLURM_ARRAY_TASK_ID=str(task), SLURM_ARRAY_TASK_COUNT=str(len(tasks)),
                   SLURM_ARRAY_TASK_MAX=str(max(tasks)))
        name = name.replace("%a", str(task)).replace("%A", str(job))
    if "cpus-per-task" in given:
        env["SLURM_CPUS_PER_TASK"] = given["cpus-per-task"]
    with open(name, "ab" if given.get("open-mode") == "append" else "wb") as output:
        return subprocess.run(words, env=env, stdin=subprocess.DEVNULL, stdout=output, stderr=output).returncode


if __name__ == "__main__":
    main()
