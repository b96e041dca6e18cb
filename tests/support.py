"""What the tests share: the tree, a room for files that goes in the end, processes that end with the run, and comparing."""
import os
import pathlib
import shutil
import signal
import subprocess
import tempfile
import threading
import time

ROOT = pathlib.Path(__file__).resolve().parent.parent
PROGRAM = ROOT / 'target' / 'bin' / 'tuhkeliar'


class Failed(Exception):
    """A test does not hold."""


class Ended(BaseException):
    """The run is ended from outside, by a signal."""


class State:
    """What is to be cleared away in the end; whether the main thread is starting a process, and the signal that came."""
    room = None
    running = []
    starting = False
    came = None


def fail(what):
    raise Failed(what)


def signal_all(number):
    """Sends a signal to all that was started and still runs, and to what that started."""
    for process in [one for one in State.running if one.returncode is None]:
        try:
            os.killpg(process.pid, number)
        except ProcessLookupError:
            pass


def signalled(number, _):
    State.came = number
    signal_all(signal.SIGTERM)  # threads that wait for a process come back, and start none
    if not State.starting:
        raise Ended(number)


def set_out():
    """Makes the room, for what the tests and all that they start write, and takes care of being ended early."""
    for number in (signal.SIGHUP, signal.SIGINT, signal.SIGTERM):
        signal.signal(number, signalled)
    State.room = tempfile.mkdtemp(prefix='tuhkeliar-')
    os.chmod(State.room, 0o711)  # rt runs a program as nobody, in a folder of its own in here
    os.environ['TMPDIR'] = State.room


def clear():
    """Ends what still runs, with all that it started, and removes the room."""
    for number in (signal.SIGHUP, signal.SIGINT, signal.SIGTERM):
        signal.signal(number, signal.SIG_IGN)
    for number, patience in ((signal.SIGTERM, 3), (signal.SIGKILL, 3)):
        signal_all(number)
        until = time.monotonic() + patience
        while any(process.poll() is None for process in State.running) and time.monotonic() < until:
            time.sleep(0.05)
    if State.room is not None:
        shutil.rmtree(State.room, ignore_errors=True)


def folder():
    """A new folder in the room."""
    made = pathlib.Path(tempfile.mkdtemp(dir=State.room))
    made.chmod(0o755)
    return made


def start(command, **how):
    """Starts a process in a group of its own, which ends with this run at the latest."""
    if State.came is None:
        State.starting = threading.current_thread() is threading.main_thread()
        try:
            process = subprocess.Popen([str(word) for word in command], start_new_session=True, **how)
            State.running.append(process)
        finally:
            State.starting = False
    if State.came is not None:
        raise Ended(State.came)
    return process


def run(command, given=b'', **how):
    """Runs a process to its end: its status, what it wrote on standard output and what on standard error."""
    how = {'stdin': subprocess.PIPE, 'stdout': subprocess.PIPE, 'stderr': subprocess.PIPE, **how}
    process = start(command, **how)
    wrote, said = process.communicate(given if how['stdin'] == subprocess.PIPE else None)
    State.running.remove(process)
    return process.returncode, wrote, said


def build(names):
    """Proves and builds crates and what they rest on, where that is not done."""
    if names and run([ROOT / 'tools' / 'build', *names], stderr=None)[0] != 0:
        fail('not built: %s' % ' '.join(names))


def played(given, program):
    """What a built program writes on its input."""
    status, wrote, said = run([ROOT / 'tools' / 'start', program], given)
    if status != 0 or said != b'':
        fail('%s ended with status %d and said %r' % (program.name, status, said))
    return wrote


def compare(name, given, expected, program=PROGRAM):
    """Holds a program's output to what it should be, line by line."""
    wrote = played(given, program)
    if wrote == expected:
        return
    ours, theirs = wrote.split(b'\n'), expected.split(b'\n')
    at = next((i for i, (a, b) in enumerate(zip(ours, theirs)) if a != b), min(len(ours), len(theirs)))
    fail('%s: reply %d is %r and should be %r' % (name, at + 1, ours[at:at + 1], theirs[at:at + 1]))
