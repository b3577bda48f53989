#!/usr/bin/env python3
"""Tries what no case can of the program: links, modes, each moment of a solve, logs, devices, pipes, closed streams,
signals, a full disk, two solves at once, progress, workers, a limit on memory, and what is told on a terminal.

Each function of `TRIALS` runs the program in a folder of its own and names what isn't as wanted. It takes some ten
seconds, and ends with 0 where each passes, else with 1. What can't be tried here, as what root alone may, is named.
"""
import argparse
import ctypes
import os
import re
import resource
import shutil
import signal
import stat
import subprocess
import sys
import tempfile
import termios
import threading
import time

from check_cases import program_at
from limit_each_run import row_of_cells

PUZZLE = b"match 1\nboard rect 2 1\nturns no\nborder free\ntiles 2\ntile 0101\ntile 0101\nend\n"
NO_PUZZLE = PUZZLE.replace(b"tiles 2\ntile 0101\n", b"tiles 1\n")
# Another puzzle, of one arrangement.
SMALL = b"match 1\nboard rect 1 1\nturns no\nborder free\ntiles 1\ntile 0123\nend\n"
LIST = b"list 1\narrangements 2\n0.0 1.0\n1.0 0.0\nend\n"
CERTIFICATE = b"certificate 1\nsymmetries 0\nlemmas 1\nlemma 0 prefix tree c 0 2 c 1 1 f 0 c 1 1 f 1\nend\n"
SMALL_LIST = b"list 1\narrangements 1\n0.0\nend\n"
SMALL_CERTIFICATE = b"certificate 1\nsymmetries 0\nlemmas 1\nlemma 0 prefix tree c 0 1 f 0\nend\n"
# A puzzle of 24 arrangements, since its tiles are alike and have numbers.
SQUARES = b"match 1\nboard rect 2 2\nturns no\nborder free\ntiles 4\n" + b"tile 0101\n" * 4 + b"end\n"
# A puzzle of 362,880 arrangements.
ALIKE = b"match 1\nboard rect 3 3\nturns no\nborder free\ntiles 9\n" + b"tile 0101\n" * 9 + b"end\n"
# A puzzle whose search takes long.
LONG = os.path.join(os.path.dirname(os.path.abspath(__file__)), "..", "examples", "gallery", "macmahon_squares")
# Its certificate names symmetries.
SYMMETRIC = os.path.join(os.path.dirname(os.path.abspath(__file__)), "..", "examples", "heads_and_tails")
OLD = b"what stood there\n"
# The seconds after which something has to have happened.
LONGEST = 20


class Trial:
    """A folder of its own, in which the program runs, and what isn't as wanted there."""

    def __init__(self, program, folder):
        self.program, self.folder, self.differences, self.untried = program, folder, [], None
        self.put("puzzle", PUZZLE)

    def path(self, name):
        return os.path.join(self.folder, name)

    def put(self, name, text):
        with open(self.path(name), "wb") as file:
            file.write(text)

    def holds(self, name):
        try:
            with open(self.path(name), "rb") as file:
                return file.read()
        except OSError as error:
            return str(error)

    def mode(self, name):
        return stat.S_IMODE(os.stat(self.path(name)).st_mode)

    def wants(self, what, wanted, got):
        if wanted != got:
            self.differences.append(f"{what}: {got!r}, and not {wanted!r}")

    def wants_texts(self, **texts):
        for name, text in texts.items():
            self.wants(name, text, self.holds(name))

    def wants_left(self, *names):
        self.wants("the files that are left", sorted(names), sorted(os.listdir(self.folder)))

    def words(self, *files, options=("--depth", "0")):
        return [self.program, "solve", *(it if it == "-" else self.path(it) for it in files), *options]

    def begin(self, *files, options=("--depth", "0"), **how):
        streams = {"stdin": subprocess.DEVNULL, "stdout": subprocess.PIPE, "stderr": subprocess.PIPE, **how}
        return subprocess.Popen(self.words(*files, options=options), **streams)

    def end(self, run, status=0, stderr=b""):
        out, errors = run.communicate(timeout=LONGEST)
        self.wants("exit status", status, run.returncode)
        self.wants("standard error", stderr, errors)
        return out

    def solve(self, *files, status=0, stderr=b"", **how):
        return self.end(self.begin(*files, **how), status, stderr)

    def fails(self, *files, **how):
        self.solve(*files, status=2, stderr=b"cannot write\n", **how)


def opened_to_write(path):
    """The pipe, once somebody reads it."""
    ends = time.monotonic() + LONGEST
    while True:
        try:
            return os.open(path, os.O_WRONLY | os.O_NONBLOCK)
        except OSError:
            if time.monotonic() > ends:
                raise
            time.sleep(0.005)


def begin_from_a_pipe(trial):
    """A solve that waits for its puzzle, and has made its files; and what the puzzle has to be written to."""
    os.mkfifo(trial.path("pipe"))
    before = len(os.listdir(trial.folder))
    run = trial.begin("pipe", "list", "certificate")
    puzzle = opened_to_write(trial.path("pipe"))
    ends = time.monotonic() + 1
    while len(os.listdir(trial.folder)) < before + 2 and time.monotonic() < ends:
        time.sleep(0.005)
    return run, puzzle


def reader(trial, name, texts):
    """A thread that reads the file of this name to its end."""
    def read():
        texts[name] = trial.holds(name)

    thread = threading.Thread(target=read, daemon=True)
    thread.start()
    return thread


PTRACE_TRACEME, PTRACE_SYSCALL, PTRACE_SETOPTIONS, EXIT_KILL = 0, 24, 0x4200, 0x100000


def at_each_call(trial, words, look):
    """Runs a command, calls `look` with its process before and after each call that its first thread makes of the system,
    and gives its exit status; none where no process may be stopped so."""
    ptrace = ctypes.CDLL(None, use_errno=True).ptrace
    ptrace.argtypes = [ctypes.c_long, ctypes.c_long, ctypes.c_void_p, ctypes.c_void_p]
    child = os.fork()
    if child == 0:
        nowhere = os.open(os.devnull, os.O_RDWR)
        for stream in (0, 1, 2):
            os.dup2(nowhere, stream)
        if ptrace(PTRACE_TRACEME, 0, None, None) != 0:
            os._exit(100)
        os.execv(words[0], words)
    status = os.waitpid(child, 0)[1]
    if not os.WIFSTOPPED(status):
        return None
    ptrace(PTRACE_SETOPTIONS, child, None, EXIT_KILL)
    while os.WIFSTOPPED(status):
        look(child)
        ptrace(PTRACE_SYSCALL, child, None, None)
        status = os.waitpid(child, 0)[1]
    return os.waitstatus_to_exitcode(status)


# Trials


def new_files(trial):
    """Where nothing stood, both get the mode that new files have."""
    trial.put("plain", b"")
    trial.solve("puzzle", "list", "certificate")
    trial.wants_texts(list=LIST, certificate=CERTIFICATE)
    trial.wants("the mode", trial.mode("plain"), trial.mode("list"))
    trial.wants_left("plain", "puzzle", "list", "certificate")


def modes(trial):
    """What stood there gives its mode to what stands there then, be it for its owner alone, or not to be written."""
    for mode in (0o600, 0o444, 0o640):
        for name in ("list", "certificate"):
            trial.put(name + ".new", OLD)
            os.chmod(trial.path(name + ".new"), mode)
            os.replace(trial.path(name + ".new"), trial.path(name))
        trial.solve("puzzle", "list", "certificate")
        trial.wants_texts(list=LIST, certificate=CERTIFICATE)
        trial.wants("the modes", [mode, mode], [trial.mode("list"), trial.mode("certificate")])
        trial.wants_left("puzzle", "list", "certificate")


def each_step(trial):
    """At each moment the old file or the new one stands under its name, nobody else can open the one that is made, and
    both are on the disk before the first is put."""
    for name in ("list", "certificate"):
        trial.put(name, OLD)
        os.chmod(trial.path(name), 0o600)
    modes, gone, calls = set(), [], []

    def look(process):
        names = os.listdir(trial.folder)
        gone.extend({"list", "certificate"} - set(names))
        for name in names:
            if name.endswith(".part"):
                modes.add(trial.mode(name))
        with open(f"/proc/{process}/syscall", encoding="ascii") as file:
            calls.append(file.read().split()[0])

    before = os.umask(0)
    ended = at_each_call(trial, trial.words("puzzle", "list", "certificate"), look)
    os.umask(before)
    if ended is None:
        trial.untried = "no process may be stopped at its calls"
        return
    trial.wants("exit status", 0, ended)
    trial.wants("the modes of what is made", {0o600}, modes)
    trial.wants("names that led to nothing", [], gone)
    if os.uname().machine == "x86_64":
        sync, rename = "74", "82"
        trial.wants("calls that sync, before the first that renames", 2, calls[:calls.index(rename)].count(sync) // 2)


def owners(trial):
    """What root solves over another's files stays that one's; what another solves stays in its group, where it may."""
    if os.geteuid() != 0:
        trial.untried = "only root can give files away"
        return
    trial.put("list", OLD)
    os.chown(trial.path("list"), 1234, 2345)
    trial.solve("puzzle", "list", "certificate")
    owner = os.stat(trial.path("list"))
    trial.wants("the owner", (1234, 2345), (owner.st_uid, owner.st_gid))
    os.chmod(trial.folder, 0o777)
    shutil.copy(trial.program, trial.path("program"))
    trial.program = trial.path("program")
    os.chmod(trial.program, 0o755)
    trial.put("list", OLD)
    os.chown(trial.path("list"), 0, 2345)

    def another():
        os.setgroups([2345])
        os.setgid(1234)
        os.setuid(1234)

    trial.solve("puzzle", "list", "certificate", preexec_fn=another)
    owner = os.stat(trial.path("list"))
    trial.wants("the group", (1234, 2345), (owner.st_uid, owner.st_gid))


def two_disks(trial):
    """Files of two disks that have one number there are two."""
    script = """
        mkdir one two && mount -t tmpfs one one && mount -t tmpfs two two || exit 100
        cp puzzle one && : > two/list && [ "$(stat -c %i one/puzzle)" = "$(stat -c %i two/list)" ] || exit 100
        "$1" solve --depth 0 one/puzzle two/list certificate > report && cp two/list list"""
    run = subprocess.run(["unshare", "-rm", "sh", "-c", script, "sh", trial.program], cwd=trial.folder, timeout=LONGEST,
                         capture_output=True, check=False)
    if run.returncode == 100 or b"unshare" in run.stderr:
        trial.untried = "no disk can be made"
        return
    trial.wants("exit status", (0, b""), (run.returncode, run.stderr))
    trial.wants_texts(list=LIST)


def links(trial):
    """A link stays one, and what it leads to is written, over several links and from another folder too."""
    os.mkdir(trial.path("folder"))
    trial.put("folder/real", OLD)
    os.symlink("folder/middle", trial.path("list"))
    os.symlink("real", trial.path("folder/middle"))
    os.symlink(trial.path("folder/new"), trial.path("certificate"))
    trial.solve("puzzle", "list", "certificate")
    trial.wants("links", [True] * 3, [os.path.islink(trial.path(it)) for it in ("list", "folder/middle", "certificate")])
    trial.wants("what they lead to", [LIST, CERTIFICATE], [trial.holds("folder/real"), trial.holds("folder/new")])
    trial.wants("the folder", ["middle", "new", "real"], sorted(os.listdir(trial.path("folder"))))
    trial.wants_left("puzzle", "list", "certificate", "folder")


def links_in_a_circle(trial):
    os.symlink("certificate", trial.path("list"))
    os.symlink("list", trial.path("certificate"))
    trial.fails("puzzle", "list", "other")
    trial.wants_left("puzzle", "list", "certificate")


def hard_links_of_the_puzzle(trial):
    """The puzzle is never written, by whatever name."""
    os.link(trial.path("puzzle"), trial.path("other"))
    os.symlink("other", trial.path("third"))
    trial.put("list", OLD)
    for name in ("other", "third"):
        trial.fails("puzzle", name, "certificate")
        trial.fails("puzzle", "list", name)
    trial.wants_texts(puzzle=PUZZLE, list=OLD)
    trial.wants_left("puzzle", "list", "other", "third")


def two_links_to_nothing(trial):
    """Two names of a file that isn't there yet are names of one file."""
    for name in ("list", "certificate"):
        os.symlink("new", trial.path(name))
    trial.fails("puzzle", "list", "certificate")
    trial.wants_left("puzzle", "list", "certificate")


def pipes(trial):
    """A pipe is written directly."""
    texts = {}
    threads = []
    for name in ("list", "certificate"):
        os.mkfifo(trial.path(name))
        threads.append(reader(trial, name, texts))
    trial.solve("puzzle", "list", "certificate")
    for thread in threads:
        thread.join(LONGEST)
    trial.wants("what was read", {"list": LIST, "certificate": CERTIFICATE}, texts)
    trial.wants("pipes", [True] * 2, [stat.S_ISFIFO(os.stat(trial.path(it)).st_mode) for it in texts])
    trial.wants_left("puzzle", "list", "certificate")


def a_log(trial):
    """What goes to what a standard stream has open, by whatever name, stands behind what stood there, and before the
    report; and what stood there is kept."""
    report = trial.solve("puzzle", "plain", "certificate")
    os.symlink("log", trial.path("link"))
    names = ("/dev/stdout", "/proc/self/fd/1", "log", "link")
    for name, how in ((name, how) for name in names for how in ("ab", "wb")):
        trial.put("log", OLD if how == "ab" else b"")
        with open(trial.path("log"), how) as log:
            log.write(b"" if how == "ab" else OLD)
            log.flush()
            trial.solve("puzzle", name, "certificate", stdout=log)
        trial.wants(f"{name}, opened by {how}", OLD + LIST + report, trial.holds("log"))
        trial.wants("the certificate", CERTIFICATE, trial.holds("certificate"))
    for name, stream in (("/dev/stderr", "stderr"), ("log", "stderr"), ("/dev/stdin", "stdin"), ("log", "stdin")):
        trial.put("log", OLD)
        with open(trial.path("log"), "rb" if stream == "stdin" else "ab") as log:
            run = trial.begin("puzzle", "list", name, **{stream: log})
            trial.wants(f"{name} as {stream}: the report", report, run.communicate(timeout=LONGEST)[0])
        trial.wants(f"{name} as {stream}", (0, OLD + CERTIFICATE), (run.returncode, trial.holds("log")))
    trial.put("log", OLD)
    with open(trial.path("log"), "ab") as log:
        third = log.fileno()
        trial.solve("puzzle", f"/dev/fd/{third}", "certificate", pass_fds=(third,))
    trial.wants("another descriptor", OLD + LIST, trial.holds("log"))
    trial.wants_left("puzzle", "plain", "list", "certificate", "log", "link")


def a_puzzle_on_input(trial):
    """A puzzle on standard input is solved, and the file that it comes from is not written over, by whatever name."""
    with open(trial.path("puzzle"), "rb") as puzzle:
        trial.solve("-", "list", "certificate", stdin=puzzle)
    os.symlink("puzzle", trial.path("link"))
    for name in ("puzzle", "link", "/dev/stdin", "/proc/self/fd/0"):
        for files in ((name, "certificate"), ("list", name)):
            with open(trial.path("puzzle"), "rb") as puzzle:
                trial.fails("-", *files, stdin=puzzle)
    trial.wants_texts(puzzle=PUZZLE, list=LIST, certificate=CERTIFICATE)
    trial.wants_left("puzzle", "list", "certificate", "link")


def devices(trial):
    """A device is written directly, and stays one; one that takes nothing leaves the other file as it was."""
    try:
        for name, minor in (("null", 3), ("full", 7)):
            os.mknod(trial.path(name), stat.S_IFCHR | 0o666, os.makedev(1, minor))
            open(trial.path(name), "rb").close()
    except OSError:
        trial.untried = "no device can be made"
        return
    trial.put("list", OLD)
    trial.solve("puzzle", "list", "null")
    trial.wants_texts(list=LIST)
    trial.put("list", OLD)
    trial.fails("puzzle", "list", "full")
    trial.wants_texts(list=OLD)
    trial.wants("devices", [True] * 2, [stat.S_ISCHR(os.stat(trial.path(it)).st_mode) for it in ("null", "full")])
    trial.wants_left("puzzle", "list", "null", "full")


def a_full_disk(trial):
    """Where a file can't grow, what stood there stands, and nothing else."""
    def limit():
        signal.signal(signal.SIGXFSZ, signal.SIG_IGN)
        resource.setrlimit(resource.RLIMIT_FSIZE, (50, 50))

    trial.put("list", OLD)
    trial.put("certificate", OLD)
    trial.solve("puzzle", "list", "certificate", status=2, stderr=b"cannot write\n", preexec_fn=limit)
    trial.wants_texts(list=OLD, certificate=OLD)
    trial.wants_left("puzzle", "list", "certificate")


def a_closed_pipe_for_the_report(trial):
    """Where the report can't be written, neither file is put in its place."""
    gone, closed = os.pipe()
    os.close(gone)
    trial.put("list", OLD)
    trial.fails("puzzle", "list", "certificate", stdout=closed)
    os.close(closed)
    trial.wants_texts(list=OLD)
    trial.wants_left("puzzle", "list")


def a_stop_by_a_signal(trial):
    """What stood there stands, and what is left beside it hinders no other solve."""
    for number in (signal.SIGINT, signal.SIGTERM):
        trial.put("list", OLD)
        trial.put("certificate", OLD)
        run, puzzle = begin_from_a_pipe(trial)
        run.send_signal(number)
        run.communicate(timeout=LONGEST)
        os.close(puzzle)
        trial.wants("the signal", -number, run.returncode)
        trial.wants_texts(list=OLD, certificate=OLD)
        trial.solve("puzzle", "list", "certificate")
        trial.wants_texts(list=LIST, certificate=CERTIFICATE)
        os.remove(trial.path("pipe"))


def two_at_once(trial):
    """Two solves on the same names each end with their own whole texts, the slow one with shorter ones."""
    run, puzzle = begin_from_a_pipe(trial)
    trial.solve("puzzle", "list", "certificate")
    trial.wants_texts(list=LIST, certificate=CERTIFICATE)
    os.write(puzzle, SMALL)
    os.close(puzzle)
    trial.end(run)
    trial.wants_texts(list=SMALL_LIST, certificate=SMALL_CERTIFICATE)
    trial.wants_left("puzzle", "list", "certificate", "pipe")


def two_in_rounds(trial):
    """Of two solves that end at once one may say that the other wrote there; where neither does, both files are of one."""
    trial.put("small", SMALL)
    of_one = ((LIST, CERTIFICATE), (SMALL_LIST, SMALL_CERTIFICATE))
    for _ in range(5):
        runs = [trial.begin(puzzle, "list", "certificate") for puzzle in ("puzzle", "small")]
        ended = [(run.communicate(timeout=LONGEST)[1], run.returncode) for run in runs]
        for it in ended:
            trial.wants("how it ends", True, it in ((b"", 0), (b"another run wrote there\n", 2)))
        if all(status == 0 for _, status in ended):
            trial.wants("both of one", True, (trial.holds("list"), trial.holds("certificate")) in of_one)
    trial.wants_left("puzzle", "small", "list", "certificate")


def a_name_that_leads_elsewhere(trial):
    """A solve is done only where both names lead to its files at its end."""
    for name in ("list", "certificate"):
        for other in ("list", "certificate"):
            trial.put(other, OLD)
        os.replace(trial.path(name), trial.path("first"))
        trial.put("second", OLD)
        os.symlink("first", trial.path(name))
        run, puzzle = begin_from_a_pipe(trial)
        os.remove(trial.path(name))
        os.symlink("second", trial.path(name))
        os.write(puzzle, PUZZLE)
        os.close(puzzle)
        trial.end(run, 2, b"another run wrote there\n")
        trial.wants_texts(first=LIST if name == "list" else CERTIFICATE, second=OLD)
        for left in (name, "pipe"):
            os.remove(trial.path(left))


def a_file_that_another_replaces(trial):
    """Where what a name leads to changes all the while, it is looked at again."""
    trial.put("list", OLD)
    ended = []

    def replace():
        while not ended:
            trial.put("new", OLD)
            os.replace(trial.path("new"), trial.path("list"))

    thread = threading.Thread(target=replace, daemon=True)
    thread.start()
    for _ in range(5):
        run = trial.begin("puzzle", "list", "certificate")
        told = run.communicate(timeout=LONGEST)[1]
        trial.wants("what is told", True, told in (b"", b"another run wrote there\n"))
    ended.append(True)
    thread.join(LONGEST)


def a_fault_beside_another_solve(trial):
    """One that finds a fault removes nothing of the other's."""
    run, puzzle = begin_from_a_pipe(trial)
    trial.solve("puzzle", "list", "certificate")
    os.write(puzzle, NO_PUZZLE)
    os.close(puzzle)
    trial.end(run, 2, b"puzzle: tile-count\n")
    trial.wants_texts(list=LIST, certificate=CERTIFICATE)
    trial.wants_left("puzzle", "list", "certificate", "pipe")


def closed_streams(trial):
    """Whichever streams are closed, nothing that is told goes into a file, and what can't be told is a fault."""
    for closed in ((0,), (1,), (2,), (0, 1), (0, 2), (1, 2), (0, 1, 2)):
        trial.put("list", OLD)
        trial.put("certificate", OLD)
        words = trial.words("puzzle", "list", "certificate", options=("--depth", "0", "--progress"))
        closing = " ".join(f"{it}>&-" for it in closed)
        run = subprocess.run(["bash", "-c", f'"$@" {closing}', "bash", *words], stdin=subprocess.DEVNULL,
                             capture_output=True, timeout=LONGEST, check=False)
        written = 1 not in closed
        trial.wants(f"{closed}: exit status", 0 if written else 2, run.returncode)
        texts = (LIST, CERTIFICATE) if written else (OLD, OLD)
        trial.wants(f"{closed}: the files", texts, (trial.holds("list"), trial.holds("certificate")))
        trial.wants_left("puzzle", "list", "certificate")


def an_input_of_another(trial):
    """What a loop of the shell reads is left to it by all that read files."""
    for name, text in (("puzzle", SMALL), ("list", SMALL_LIST), ("certificate", SMALL_CERTIFICATE)):
        trial.put(name, text)
    for words in ("check puzzle list certificate", "solve puzzle made made_too", "expand puzzle list certificate",
                  "page puzzle list certificate", "explain puzzle list certificate", "count puzzle", "count puzzle list certificate", "find puzzle", "show puzzle",
                  "show puzzle list", "draw puzzle", "draw puzzle list", "symmetries puzzle", "explain puzzle", "tiles 3 2"):
        script = f'printf "a\\nb\\n" | while read it; do "$0" {words} > /dev/null; echo $it; done'
        run = subprocess.run(["bash", "-c", script, trial.program], stdin=subprocess.DEVNULL, capture_output=True,
                             cwd=trial.folder, timeout=LONGEST, check=False)
        trial.wants(words, (b"a\nb\n", b""), (run.stdout, run.stderr))


def words_that_are_no_text(trial):
    """Which word isn't UTF-8 is told, and nothing is done."""
    words = [trial.program.encode(), b"check", b"puzzle", b"p\xff\n", b"certificate"]
    run = subprocess.run(words, stdin=subprocess.DEVNULL, capture_output=True, cwd=trial.folder, timeout=LONGEST, check=False)
    line = b"the words of the command line are not UTF-8: word 3 is p\\xff\\n\n"
    trial.wants("told", (2, b"", line), (run.returncode, run.stdout, run.stderr))


def a_limit_on_memory(trial):
    """A tree of 257 levels is walked under a limit on memory, on a stack that is there from the beginning."""
    trial.put("puzzle", row_of_cells(256).encode("ascii"))
    trial.solve("puzzle", "list", "certificate", options=())

    def limit():
        resource.setrlimit(resource.RLIMIT_AS, (1 << 28, resource.RLIM_INFINITY))

    words = [trial.program, "check", *(trial.path(it) for it in ("puzzle", "list", "certificate"))]
    for options in ((), ("--workers", "2", "--forks", "1")):
        run = subprocess.run([*words, *options], capture_output=True, timeout=LONGEST, check=False, preexec_fn=limit)
        trial.wants(f"check {options}", (0, b"complete 1\n", b""), (run.returncode, run.stdout, run.stderr))


def workers(trial):
    """So many threads work as workers are asked for."""
    shutil.copy(LONG, trial.path("puzzle"))
    trial.put("alike", ALIKE)
    trial.solve("alike", "listed", "certified", options=("--workers", "4"))
    for words in (("count", "puzzle"), ("find", "puzzle", "--first", "1000000"), ("solve", "puzzle", "list", "certificate"),
                  ("check", "alike", "listed", "certified")):
        run = subprocess.Popen([trial.program, *words, "--workers", "4"], stdout=subprocess.DEVNULL, stderr=subprocess.DEVNULL,
                               cwd=trial.folder)
        ends, most = time.monotonic() + LONGEST, 0
        while most < 4 and run.poll() is None and time.monotonic() < ends:
            with open(f"/proc/{run.pid}/status", encoding="ascii") as file:
                most = max(most, *(int(it.split()[1]) for it in file if it.startswith("Threads:")))
        run.kill()
        run.wait()
        trial.wants(f"{words[0]}: threads at once", True, most >= 4)


def workers_by_processors(trial):
    """A solve by `--workers all` has a worker for each processor that it may use: one where it is held to one."""
    own = os.sched_getaffinity(0)
    words = [trial.program, "solve", *(trial.path(it) for it in ("puzzle", "list", "certificate")), "--workers", "all"]
    for allowed in ({min(own)}, own):
        run = subprocess.run(words, capture_output=True, timeout=LONGEST, check=False,
                             preexec_fn=lambda held=allowed: os.sched_setaffinity(0, held))
        lines = sum(it.startswith(b"worker ") for it in run.stdout.splitlines())
        # a quota of the machine may leave fewer than may be used
        trial.wants(f"workers for {len(allowed)} processors", True, 1 <= lines <= min(len(allowed), 64))


def progress_in_the_middle(trial):
    """What is told in the middle of a run is so. Each run waits for a document for a second, and tells how far it is then."""
    three = [trial.path(it) for it in ("puzzle", "list", "certificate")]
    trial.solve("puzzle", "list", "certificate")
    os.mkfifo(trial.path("pipe"))
    os.mkfifo(trial.path("other"))
    runs = [subprocess.Popen([trial.program, *words, "--progress"], stdout=subprocess.DEVNULL, stderr=subprocess.PIPE,
                             stdin=subprocess.PIPE, cwd=trial.folder)
            for words in (["check", *three[:2], trial.path("pipe")], ["count", "-"], ["solve", trial.path("other"), "l", "c"],
                          ["generate", "--like", "-", "--colours", "9", "--unique", "--seed", "1"])]
    ends = [opened_to_write(trial.path("pipe")), runs[1].stdin.fileno(), opened_to_write(trial.path("other")),
            runs[3].stdin.fileno()]
    time.sleep(1.1)
    for end, text in zip(ends, (CERTIFICATE, SQUARES, SQUARES, SQUARES)):
        os.write(end, text)
    for end in (ends[0], ends[2]):
        os.close(end)
    checked, counted, solved, made = (run.communicate(timeout=LONGEST)[1].decode().splitlines() for run in runs)
    trial.wants("a check, as its first lemma is begun", True, bool(re.fullmatch(r"check: \d+ s, 0 of 1 lemmas", checked[0])))
    form = r"count: (\d+) s, (\d+) of (\d+) subtrees, (\d+) arrangements, about (\d+) s left"
    first, last = (list(map(int, re.fullmatch(form, it).groups())) for it in (counted[0], counted[-1]))
    seconds, done, subtrees, _, left = first
    trial.wants("a count, as its first subtree is done", (1, seconds * (subtrees - 1)), (done, left))
    trial.wants("a count, as its last is", [subtrees, subtrees, 24, 0], last[1:])
    form = r"solve: \d+ s, (\d+) children looked at, (\d+) lemmas done, \d+ open, (\d+) arrangements"
    told = [re.fullmatch(form, it) for it in solved if "bytes" not in it]
    trial.wants("lines of a solve alone", True, all(told))
    first, last = (list(map(int, it.groups())) for it in (told[0], told[-1]))
    trial.wants("a solve, in its middle", True, len(told) > 1 and first[0] < last[0] and first[1] <= last[1] and first[2] <= last[2])
    form = r"generate: \d+ s, counts a puzzle's arrangements: \d+ of \d+ subtrees, \d+ arrangements"
    trial.wants("a puzzle that is made, as its first subtree is counted", True, bool(re.fullmatch(form, made[0])))


def a_closed_input(trial):
    """What is to be read from an input that is closed can't be read."""
    run = subprocess.run(["bash", "-c", '"$1" <&-', "bash", trial.program], capture_output=True, timeout=LONGEST, check=False)
    trial.wants("the fault", (2, b"cannot read input\n"), (run.returncode, run.stderr))


def told_on_a_terminal(trial, words, given=b""):
    """What the words come to where standard error is a terminal: the exit status, and what is told there."""
    seen, terminal = os.openpty()
    run = subprocess.run([trial.program, *words], input=given, stdout=subprocess.DEVNULL, stderr=terminal,
                         cwd=trial.folder, timeout=LONGEST, check=False)
    os.close(terminal)
    told = b""
    with open(seen, "rb", buffering=0) as file:
        try:
            while part := file.read(4096):
                told += part
        except OSError:
            # A terminal that nobody holds any more.
            pass
    return run.returncode, told.replace(b"\r\n", b"\n")


def typed_on_a_terminal(trial, words, given):
    """The same where standard input is that terminal too, on which this is typed, with Ctrl-D at its end."""
    seen, terminal = os.openpty()
    # What is typed isn't shown.
    settings = termios.tcgetattr(terminal)
    settings[3] &= ~termios.ECHO
    termios.tcsetattr(terminal, termios.TCSANOW, settings)
    run = subprocess.Popen([trial.program, *words], stdin=terminal, stdout=subprocess.DEVNULL, stderr=terminal,
                           cwd=trial.folder)
    os.close(terminal)
    os.write(seen, given + b"\x04")
    status, told = run.wait(timeout=LONGEST), b""
    with open(seen, "rb", buffering=0) as file:
        try:
            while part := file.read(4096):
                told += part
        except OSError:
            pass
    return status, told.replace(b"\r\n", b"\n")


def what_is_awaited_on_a_terminal(trial):
    """What is read from standard input is told to who types it, and nowhere else."""
    trial.put("puzzle", SMALL)
    trial.put("list", SMALL_LIST)
    trial.put("certificate", SMALL_CERTIFICATE)
    joined = SMALL + SMALL_LIST + SMALL_CERTIFICATE
    of_three = b"a puzzle, its list and its certificate, joined,"
    # A check says at its end what the listed arrangement stands for.
    scope = b"arrangements listed 1, symmetries named 0: there is no other\n"
    for words, documents, given in (
            ("", of_three, joined), ("explain", of_three, joined), ("count", of_three, joined),
            ("expand --orbits", of_three, joined), ("page", of_three, joined),
            ("explain -", b"a puzzle", SMALL), ("count -", b"a puzzle", SMALL), ("find -", b"a puzzle", SMALL),
            ("symmetries -", b"a puzzle", SMALL), ("show -", b"a puzzle", SMALL),
            ("show - list", b"a puzzle", SMALL), ("draw puzzle -", b"a list", SMALL_LIST),
            ("count puzzle list -", b"a certificate", SMALL_CERTIFICATE),
    ):
        line = b"edgematch reads " + documents + b" from standard input, to Ctrl-D; edgematch --help tells more\n"
        end = b"" if words else scope
        trial.wants(f"{words}: told who types", (0, line + end), typed_on_a_terminal(trial, words.split(), given))
        trial.wants(f"{words}: told who looks on", (0, end), told_on_a_terminal(trial, words.split(), given))
    trial.wants("told of files", (0, b""), typed_on_a_terminal(trial, ["explain", "puzzle"], b""))


def what_is_listed_on_a_terminal(trial):
    """Up to what a list that is complete has every arrangement is told on a terminal, and elsewhere nothing is."""
    trial.put("list", LIST)
    trial.put("certificate", CERTIFICATE)
    symmetric = [os.path.join(SYMMETRIC, name) for name in ("puzzle", "list", "certificate")]
    of_images = (b"arrangements listed 1, symmetries named 3: each other one is an image of these; "
                 b"edgematch count tells how many there are\n")
    for words, status, scope in (
            (["check", "puzzle", "list", "certificate"], 0, b"arrangements listed 2, symmetries named 0: there is no other\n"),
            (["check", *symmetric], 0, of_images),
            (["check", *symmetric[:2], "certificate"], 1, b""),
            (["count", *symmetric], 0, b""),
    ):
        trial.wants(f"{words}: told on a terminal", (status, scope), told_on_a_terminal(trial, words))
        run = subprocess.run([trial.program, *words], capture_output=True, cwd=trial.folder, timeout=LONGEST, check=False)
        trial.wants(f"{words}: told elsewhere", (status, b""), (run.returncode, run.stderr))


def names_of_standard_input(trial):
    """A dash is standard input, be it a pipe, a file that was read in part, or closed; with a slash it is a file."""
    trial.put("puzzle", SMALL)
    trial.put("list", SMALL_LIST)
    trial.put("-", SMALL)
    count = [trial.program, "count", "-", "list", "certificate"]
    trial.put("certificate", SMALL_CERTIFICATE)
    counted = b"arrangements 1\npictures 1\norbits 1\nsymmetries 0\n"
    how = {"capture_output": True, "cwd": trial.folder, "timeout": LONGEST, "check": False}
    run = subprocess.run(count, input=SMALL, **how)
    trial.wants("a pipe", (0, counted, b""), (run.returncode, run.stdout, run.stderr))
    trial.put("behind", b"of another\n" + SMALL)
    with open(trial.path("behind"), "rb", buffering=0) as file:
        file.read(len(b"of another\n"))
        run = subprocess.run(count, stdin=file, **how)
    trial.wants("a file that was read in part", (0, counted, b""), (run.returncode, run.stdout, run.stderr))
    run = subprocess.run(count, stdin=subprocess.DEVNULL, preexec_fn=lambda: os.close(0), **how)
    trial.wants("closed", (2, b"", b"cannot read puzzle\n"), (run.returncode, run.stdout, run.stderr))
    run = subprocess.run([trial.program, "explain", "./-"], stdin=subprocess.DEVNULL, **how)
    trial.wants("with a slash", (0, b"puzzle: no fault\n", b""), (run.returncode, run.stdout, run.stderr))
    for words in ("show - -", "draw - -", "explain - - certificate", "count - list -", "count puzzle - -"):
        run = subprocess.run([trial.program, *words.split()], input=b"not read", **how)
        trial.wants(f"{words}: status", (2, b""), (run.returncode, run.stdout))
        trial.wants(f"{words}: told", b"error: - is standard input, and is read once: name other documents by their files",
                    run.stderr.split(b"\n")[0])


def reasons_on_a_terminal(trial):
    """Which file is refused, and why, is told in a second line on a terminal, and elsewhere the one line alone."""
    os.mkdir(trial.path("folder"))
    trial.put("list", LIST)
    no_file, is_folder = b"nothing: there is no such file\n", b"folder: it is a folder\n"
    for words, line, reason in (
            ("check nothing list list", b"cannot read puzzle\n", no_file),
            ("check puzzle nothing list", b"cannot read list\n", no_file),
            ("check puzzle folder list", b"cannot read list\n", is_folder),
            ("count puzzle list nothing", b"cannot read certificate\n", no_file),
            ("count nothing", b"cannot read puzzle\n", no_file),
            ("find folder", b"cannot read puzzle\n", is_folder),
            ("show folder", b"cannot read puzzle\n", is_folder),
            ("draw puzzle nothing", b"cannot read list\n", no_file),
            ("solve nothing list made", b"cannot read puzzle\n", no_file),
            ("solve puzzle folder made", b"cannot write\n", is_folder),
            ("solve puzzle made none/made", b"cannot write\n", b"none/made: there is no such folder\n"),
            ("solve puzzle list/made made", b"cannot write\n", b"list/made: there is no such folder\n"),
            ("solve puzzle /dev/full made", b"cannot write\n", b"/dev/full: no space is left\n"),
            ("solve puzzle made made", b"cannot write\n",
             b"two of the names lead to one file\n"),
    ):
        trial.wants(f"{words}: told on a terminal", (2, line + reason), told_on_a_terminal(trial, words.split()))
        run = subprocess.run([trial.program, *words.split()], capture_output=True, cwd=trial.folder, timeout=LONGEST, check=False)
        trial.wants(f"{words}: told elsewhere", (2, line), (run.returncode, run.stderr))
    trial.wants_left("puzzle", "list", "folder")


def reasons_with_hints(trial):
    """With `--hints` a file or a stream that is refused is named with the reason, wherever that is told."""
    trial.put("list", LIST)
    for words, line, reason in (
            ("check nothing list list", b"cannot read puzzle\n", b"nothing: there is no such file\n"),
            ("expand puzzle nothing list", b"cannot read list\n", b"nothing: there is no such file\n"),
            ("check /proc/self/mem list list", b"cannot read puzzle\n", b"/proc/self/mem: the system refuses it\n"),
            ("solve puzzle none/made made", b"cannot write\n", b"none/made: there is no such folder\n"),
            ("solve puzzle puzzle made", b"cannot write\n", b"two of the names lead to one file\n"),
            ("solve puzzle /dev/full made", b"cannot write\n", b"/dev/full: no space is left\n"),
            ("solve ./- made made_too", b"cannot read puzzle\n", b"./-: there is no such file\n"),
    ):
        run = subprocess.run([trial.program, *words.split(), "--hints"], capture_output=True, cwd=trial.folder,
                             timeout=LONGEST, check=False)
        trial.wants(words, (2, line + reason), (run.returncode, run.stderr))
    with open("/dev/full", "wb") as full:
        run = trial.begin("puzzle", "made", "made_too", options=("--hints",), stdout=full)
        trial.end(run, 2, b"cannot write\nstandard output: no space is left\n")
    trial.wants_left("puzzle", "list")


def hints_on_a_terminal(trial):
    """What has to be changed in a text is told in a second line on a terminal, and elsewhere where it is asked for, or
    always, by the command."""
    trial.put("none", NO_PUZZLE)
    trial.put("list", LIST)
    trial.put("certificate", CERTIFICATE)
    line = b"puzzle: tile-count\n"
    hint = (b'the board of puzzle line 2 has 2 cells, and puzzle line 5 says "tiles 1": there has to be a tile for each cell\n')
    for words, always in (
            ("check none list certificate", False),
            ("expand none list certificate", False),
            ("page none list certificate", False),
            ("solve none made made_too", False),
            ("count none list certificate", True),
            ("explain none list certificate", True),
            ("explain none", True),
            ("count none", True),
            ("find none", True),
            ("show none", True),
            ("draw none", True),
            ("symmetries none", True),
    ):
        trial.wants(f"{words}: told on a terminal", (2, line + hint), told_on_a_terminal(trial, words.split()))
        run = subprocess.run([trial.program, *words.split()], capture_output=True, cwd=trial.folder, timeout=LONGEST, check=False)
        trial.wants(f"{words}: told elsewhere", (2, line + hint if always else line), (run.returncode, run.stderr))
    joined = NO_PUZZLE + LIST + CERTIFICATE
    trial.wants("told on a terminal of an input", (2, line + hint), told_on_a_terminal(trial, [], joined))
    trial.wants_left("puzzle", "none", "list", "certificate")


TRIALS = (
    new_files, modes, each_step, owners, two_disks, links, links_in_a_circle, hard_links_of_the_puzzle, two_links_to_nothing,
    pipes, a_log, a_puzzle_on_input, devices, a_full_disk, a_closed_pipe_for_the_report, a_stop_by_a_signal, two_at_once, two_in_rounds,
    a_name_that_leads_elsewhere, a_file_that_another_replaces, a_fault_beside_another_solve, closed_streams, a_closed_input,
    progress_in_the_middle, an_input_of_another, words_that_are_no_text, a_limit_on_memory, workers, workers_by_processors, reasons_on_a_terminal, reasons_with_hints,
    hints_on_a_terminal, what_is_awaited_on_a_terminal, what_is_listed_on_a_terminal, names_of_standard_input,
)


def main():
    parser = argparse.ArgumentParser(description=__doc__, formatter_class=argparse.RawDescriptionHelpFormatter)
    parser.add_argument("program", type=program_at, metavar="PROGRAM")
    program, failed = parser.parse_args().program, 0
    # Where it is ignored, as in what runs behind a shell, the program would ignore it too.
    signal.signal(signal.SIGINT, signal.default_int_handler)
    for tried in TRIALS:
        with tempfile.TemporaryDirectory() as folder:
            trial = Trial(program, folder)
            try:
                tried(trial)
            except (OSError, subprocess.TimeoutExpired) as error:
                trial.differences.append(str(error))
            except (LookupError, AttributeError) as error:
                trial.differences.append(f"what it told isn't of the form: {error}")
            for difference in trial.differences:
                print(f"{tried.__name__}: {difference}")
            if trial.untried:
                print(f"{tried.__name__}: not tried in whole: {trial.untried}")
            failed += bool(trial.differences)
    print(f"{len(TRIALS) - failed} passed, {failed} failed")
    sys.exit(failed > 0)


if __name__ == "__main__":
    main()
