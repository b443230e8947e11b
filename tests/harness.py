"""What the scripts in Python share: they find a program, run it, compare what it did with what is right, and run their tests
one after another.

A script imports this from the folder above its own. Python looks in the script's own folder first, so each script begins with
`sys.path.insert(0, sys.path[0] + "/..")`.
"""
import concurrent.futures
import functools
import itertools
import multiprocessing
import os
import resource
import subprocess
import sys
import tempfile
import threading

ROOT = os.path.dirname(os.path.dirname(os.path.abspath(__file__)))
SECONDS = 60  # a run that takes longer is ended, and its test fails

# The exit statuses of both programs: a pattern or a definition has a fault, the words of the command line are wrong, or reading,
# writing or an allocation failed. The last is groklog's with --exit-status: nothing was found.
FAULT, USAGE, FAILURE, NOTHING = 1, 2, 3, 4


class Wrong(Exception):
    """What a program did against the rules."""


building = threading.Lock()


@functools.cache
def found_or_built(name):
    given = os.path.join(os.environ.get("PROGRAMS", ""), name)
    if os.environ.get("PROGRAMS") and os.path.exists(given):
        return os.path.abspath(given)
    made = subprocess.run([f"{ROOT}/tests/built", name], stdout=subprocess.PIPE, check=True)
    return made.stdout.decode().strip()


def built(name):
    """The path of a program of this repository, which is built first if need be, once for all threads. If the variable PROGRAMS
    names a folder that has such a program, it is that one."""
    with building:
        return found_or_built(name)


def run(name, words, stack=None, **how):
    """Runs a program to its end, without input if none is given, and returns how it ended. `stack` limits its native stack, in
    bytes."""
    if stack:
        most = resource.getrlimit(resource.RLIMIT_STACK)[1]
        how["preexec_fn"] = lambda: resource.setrlimit(resource.RLIMIT_STACK, (stack, most))
    how = {"stdout": subprocess.PIPE, "timeout": SECONDS, **({} if "stdin" in how else {"input": b""}), **how}
    return subprocess.run([built(name), *words], stderr=subprocess.PIPE, **how)


def start(name, words, **how):
    """Starts a program whose input and outputs are pipes, unless something else is given."""
    pipes = {"stdin": subprocess.PIPE, "stdout": subprocess.PIPE, "stderr": subprocess.PIPE}
    return subprocess.Popen([built(name), *words], **{**pipes, **how})


def difference(found, right):
    """Where two outputs differ first: the number of that line, and what it is in both."""
    lines = itertools.zip_longest(found.split(b"\n"), right.split(b"\n"), fillvalue=b"missing")
    number, (is_now, should_be) = next((number, pair) for number, pair in enumerate(lines, 1) if pair[0] != pair[1])
    return f"line {number} is {is_now[-300:]}, not {should_be[-300:]}"


def expect(done, status, stdout=None, stderr=b""):
    """Checks how a run ended: its status, its output, which may be given as text, and what it complained. If `stdout` is `None`,
    any output is right."""
    if done.returncode != status:
        raise Wrong(f"status {done.returncode}, not {status}: {done.stderr[-300:]}")
    right = stdout.encode() if isinstance(stdout, str) else stdout
    if right is not None and done.stdout != right:
        raise Wrong(f"it wrote something else: {difference(done.stdout, right)}")
    if done.stderr != stderr:
        raise Wrong(f"it complained otherwise: {difference(done.stderr, stderr)}")


class Cost:
    """A run that has ended: its status, what it complained, the seconds of the processor that it took, and its greatest memory in MB.
    The system counts that of this script too, which the program replaces."""

    def __init__(self, status, complaint, seconds, megabytes):
        self.status, self.complaint, self.seconds, self.megabytes = status, complaint, seconds, megabytes


def cost(name, words, given=b"", **how):
    """Runs a program to its end with this input, and returns what that costs. Its output is dropped."""
    with tempfile.TemporaryFile() as source, tempfile.TemporaryFile() as complaint:
        source.write(given)
        source.seek(0)
        limit = functools.partial(resource.setrlimit, resource.RLIMIT_CPU, (SECONDS, SECONDS))
        program = subprocess.Popen([built(name), *words], stdin=source, stdout=subprocess.DEVNULL, stderr=complaint, preexec_fn=limit, **how)
        _, status, used = os.wait4(program.pid, 0)
        program.returncode = os.waitstatus_to_exitcode(status)
        complaint.seek(0)
        return Cost(program.returncode, complaint.read(), used.ru_utime + used.ru_stime, used.ru_maxrss / 1024)


def children_seconds():
    """The processor time that the ended runs of this script took so far, in seconds."""
    used = resource.getrusage(resource.RUSAGE_CHILDREN)
    return used.ru_utime + used.ru_stime


def named(name, test):
    """This test with a name of its own."""
    call = functools.partial(test)
    call.title = name
    return call


# What a test may raise if the program under test is wrong. Anything else is a fault of the script, and ends it.
FAILURES = (Wrong, OSError, ValueError, LookupError, subprocess.SubprocessError)


def failure(wrong):
    """What to print of one of these."""
    return str(wrong) if isinstance(wrong, Wrong) else repr(wrong)[:1000]


def passing(check, cases):
    """Runs a check on each of these cases, several at a time. Prints the cases that fail, and returns what the check returned for the
    others."""
    def outcome(case):
        try:
            return [check(case)]
        except FAILURES as wrong:
            print(f"FAILED  {case}: {failure(wrong)}", flush=True)
            return []

    with concurrent.futures.ThreadPoolExecutor(os.cpu_count()) as pool:
        return [found for outcomes in pool.map(outcome, cases) for found in outcomes]


def finish(passed, failed, least=1):
    """Prints the last line of a script, which `tests/run` reads, and returns the script's status. Fewer tests than `least` are a
    failure."""
    if passed + failed < least:
        print(f"FAILED: tests that were run: {passed + failed}, and not {least} or more")
        failed += 1
    print(f"{passed} passed, {failed} failed")
    return 1 if failed else 0


def beside(tests):
    """These tests, of which `main` may run several at a time: none of them measures the time or the memory of the machine."""
    for test in tests:
        test.is_beside = True
    return tests


def attempt(test):
    """Runs a test, and returns what it returned, and why it failed, or None."""
    try:
        return test(), None
    except FAILURES as wrong:
        return None, failure(wrong)


def take_neighbours(tests):
    """Begins a process that runs some of these tests."""
    global neighbours
    neighbours = tests


def attempt_neighbour(number):
    return attempt(neighbours[number])


def attempts(tests):
    """Runs these tests, and yields each of them with what `attempt` returns, in their order. Neighbours that are `beside` one another run
    several at a time, in processes of their own, since only one thread of a process runs Python at a time."""
    for is_beside, group in itertools.groupby(tests, lambda test: getattr(test, "is_beside", False)):
        group = list(group)
        if is_beside:
            with multiprocessing.get_context("fork").Pool(os.cpu_count(), take_neighbours, (group,)) as pool:
                yield from zip(group, pool.imap(attempt_neighbour, range(len(group))))
        else:
            yield from ((test, attempt(test)) for test in group)


def name_of(test):
    return getattr(test, "title", None) or test.__name__.replace("_", " ")


def main(tests, least=1):
    """Runs these tests, or those of them that have the script's first word in their names, and returns the script's status. A
    test is a function. Unless it was `named`, its name is that of the function with blanks. What it returns is printed with it.
    A script states by `least` how many tests it has, or more, so that none gets lost unnoticed. A word that is in no name is a
    failure."""
    word = sys.argv[1] if len(sys.argv) > 1 else ""
    passed = failed = 0
    for test, (figures, wrong) in attempts([test for test in tests if word in name_of(test)]):
        if wrong is None:
            passed += 1
            print(f"{name_of(test)}: as it should be" + (f" ({figures})" if figures else ""), flush=True)
        else:
            failed += 1
            print(f"{name_of(test)}: FAILED: {wrong}", flush=True)
    return finish(passed, failed, 1 if word else least)
