"""Commands of which nothing is left once the program that started them has ended, interrupted or not.

`rt` proves in the background, where Ctrl-C does not reach. So a command here has a session of its own, and SIGINT, SIGTERM and SIGHUP
end all of that session first, and then the program, with one line and no traceback."""
import contextlib
import os
import signal
import subprocess
import sys
import time

ENDING = (signal.SIGINT, signal.SIGTERM, signal.SIGHUP)
os.environ["PYTHONUNBUFFERED"] = "1"  # so that what a command in Python says is seen at once


def interrupted(number, _):
    for other in ENDING:
        signal.signal(other, signal.SIG_IGN)
    with contextlib.suppress(OSError):
        os.write(2, f"{os.path.relpath(sys.argv[0])}: interrupted\n".encode())
    sys.exit(128 + number)


for each in ENDING:
    signal.signal(each, interrupted)


def end(session):
    """Ends what is left of a session: it is asked to, and made to if it has not after some seconds."""
    with contextlib.suppress(ProcessLookupError):
        for number, looks in ((signal.SIGTERM, 100), (signal.SIGKILL, 5)):
            os.killpg(session.pid, number)
            for _ in range(looks):
                session.poll()
                os.killpg(session.pid, 0)
                time.sleep(0.05)


def unblock():
    signal.pthread_sigmask(signal.SIG_UNBLOCK, ENDING)


@contextlib.contextmanager
def started(command, **options):
    """A command in a session of its own. No signal is heard between its start and the `try`."""
    signal.pthread_sigmask(signal.SIG_BLOCK, ENDING)
    session = subprocess.Popen(command, start_new_session=True, preexec_fn=unblock, **options)
    try:
        unblock()
        yield session
    finally:
        end(session)


def run(command, hear, **options):
    """Runs a command, hands each line that it says to `hear`, at once, and gives its status."""
    said = {"stdout": subprocess.PIPE, "stderr": subprocess.STDOUT, "text": True, "errors": "replace"}
    with started(command, stdin=subprocess.DEVNULL, **said, **options) as session:
        for line in session.stdout:
            hear(line)
        return session.wait()


def program(main):
    """Runs `main`; where nobody reads any more what it says (`make test | head`), it ends, and without a word."""
    try:
        main()
    except BrokenPipeError:
        os.dup2(os.open(os.devnull, os.O_WRONLY), 1)
        sys.exit(1)


def is_progress(line):
    """Of what `rt` says: a crate that it begins to prove, and what it goes on from."""
    return line.startswith("rt: ")


def mark_checked(name, began):
    """A good check of a program began at this time: the file target/checked/NAME has it, and tools/fresh looks."""
    os.makedirs("target/checked", exist_ok=True)
    new = f"target/checked/{name}.{os.getpid()}"
    open(new, "w").close()
    os.utime(new, ns=(began, began))
    os.replace(new, f"target/checked/{name}")


def need(*programs):
    """Ends this program, with the line of tools/needs, where one of these is not on the path."""
    status = subprocess.run(["tools/needs", *programs]).returncode
    if status != 0:
        sys.exit(status)
