#!/usr/bin/env python3
"""Runs the lines that docs/LARGE.md gives for many machines, on this one, and holds their sums to the plain count.

PUZZLE is `examples/gallery/sixteen_squares` where none is named. It wants GNU parallel, make and Slurm (Debian's packages
`parallel`, `make`, `slurm-wlm` and `munge`), and starts a Slurm of one node, which needs root, if none runs here. A line
whose programs aren't there is left out, and said to be. Kubernetes' line isn't tried. It ends with 0 where each line that
ran gives what the plain count does, and with 1 where one doesn't.
"""
import argparse
import contextlib
import os
import re
import shutil
import socket
import subprocess
import sys
import tempfile
import time

from check_cases import program_at

TOP = os.path.join(os.path.dirname(os.path.abspath(__file__)), "..")
PAGE = os.path.join(TOP, "docs/LARGE.md")
PUZZLE = os.path.join(TOP, "examples/gallery/sixteen_squares")
# What a line needs, by the name that stands before it.
NEEDED = {
    "GNU parallel": ["parallel"],
    "GNU parallel, eight parts a call": ["parallel"],
    "GNU parallel, over machines": ["parallel"],
    "Slurm": ["sbatch", "slurmctld", "slurmd", "munged"],
    "make": ["make"],
}
# The seconds that one line may take, and those in which Slurm's node has to be there.
LONGEST, SLURM_STARTS = 600, 60
SLURM = """ClusterName=one
SlurmctldHost={host}
SlurmUser=root
AuthType=auth/munge
StateSaveLocation={folder}/state
SlurmdSpoolDir={folder}/spool
SlurmctldPidFile={folder}/slurmctld.pid
SlurmdPidFile={folder}/slurmd.pid
SlurmctldLogFile={folder}/slurmctld.log
SlurmdLogFile={folder}/slurmd.log
ProctrackType=proctrack/linuxproc
TaskPlugin=task/none
SelectType=select/cons_tres
MaxArraySize=1001
NodeName={host} CPUs={cpus} State=UNKNOWN
PartitionName=all Nodes={host} Default=YES State=UP
"""


def lines_of(page):
    """The lines of the page's table, by the names that stand before them, and the text of `parts.mk`."""
    with open(page, encoding="utf-8") as file:
        text = file.read()
    rows = re.findall(r"^\| ([^|]+) \| `((?:[^`|]|\\\|)+)`[^|]*\|$", text, re.MULTILINE)
    makefile = re.search(r"^```\n(all: .*?)^```$", text, re.MULTILINE | re.DOTALL)
    lines = {name: line.replace("\\|", "|") for name, line in rows if name in NEEDED}
    if set(lines) != set(NEEDED) or makefile is None:
        raise LookupError(f"docs/LARGE.md has no lines for {', '.join(sorted(set(NEEDED) - set(lines))) or 'parts.mk'}")
    return lines, makefile[1]


def is_there(name):
    """Whether there is a program of this name, also where root's are."""
    return shutil.which(name, path=os.environ["PATH"] + ":/usr/sbin:/sbin") is not None


@contextlib.contextmanager
def one_node(folder):
    """A Slurm of this machine alone, where none runs."""
    if subprocess.run(["sinfo"], capture_output=True, check=False).returncode == 0:
        yield os.environ
        return
    settings = os.path.join(folder, "slurm.conf")
    for name in ("state", "spool"):
        os.mkdir(os.path.join(folder, name))
    with open(settings, "w", encoding="utf-8") as file:
        file.write(SLURM.format(host=socket.gethostname().split(".")[0], folder=folder, cpus=os.cpu_count()))
    where = {**os.environ, "SLURM_CONF": settings, "PATH": os.environ["PATH"] + ":/usr/sbin:/sbin"}
    os.makedirs("/run/munge", exist_ok=True)
    started = [
        subprocess.Popen(words, env=where, stdout=subprocess.DEVNULL, stderr=subprocess.DEVNULL)
        for words in (["munged", "--foreground", "--force"], ["slurmctld", "-D"], ["slurmd", "-D"])
    ]
    try:
        for _ in range(SLURM_STARTS):
            said = subprocess.run(["sinfo", "-h", "-o", "%T"], env=where, capture_output=True, check=False).stdout
            if said.strip() == b"idle":
                break
            time.sleep(1)
        yield where
    finally:
        for process in reversed(started):
            process.terminate()
            process.wait()


def last_line(line, folder, where):
    """The last line that a shell's line prints."""
    run = subprocess.run(["bash", "-c", line], cwd=folder, env=where, capture_output=True, timeout=LONGEST, check=False)
    if run.returncode != 0:
        print(run.stderr.decode(errors="replace"), file=sys.stderr)
    return run.stdout.decode().strip().split("\n")[-1]


def main():
    parser = argparse.ArgumentParser(description=__doc__, formatter_class=argparse.RawDescriptionHelpFormatter)
    parser.add_argument("program", type=program_at, metavar="PROGRAM")
    parser.add_argument("puzzle", nargs="?", default=PUZZLE, metavar="PUZZLE")
    given = parser.parse_args()
    program, puzzle = given.program, given.puzzle
    try:
        lines, makefile = lines_of(PAGE)
    except LookupError as error:
        parser.error(error)
    wanted = subprocess.run([program, "count", puzzle], stdout=subprocess.PIPE, check=True).stdout.decode().strip()
    ran, wrong = 0, 0
    for name, line in lines.items():
        missing = [it for it in NEEDED[name] if not is_there(it)]
        if missing:
            print(f"{name}: left out, there is no {missing[0]}")
            continue
        with tempfile.TemporaryDirectory() as folder, contextlib.ExitStack() as stack:
            os.symlink(program, os.path.join(folder, "edgematch"))
            shutil.copy(puzzle, os.path.join(folder, "PUZZLE"))
            for told, text in (("parts.mk", makefile), ("machines", ":\n")):
                with open(os.path.join(folder, told), "w", encoding="utf-8") as file:
                    file.write(text)
            where = stack.enter_context(one_node(folder)) if name == "Slurm" else os.environ
            got = last_line(line, folder, {**where, "PATH": f"{folder}:{where['PATH']}"})
        print(f"{name}: {got}")
        ran += 1
        wrong += got != wanted
    print(f"{ran - wrong} lines as the plain count, {wrong} not")
    sys.exit(1 if wrong else 0)


if __name__ == "__main__":
    main()
