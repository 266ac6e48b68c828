"""What ends a command that is run: the processor's time that it takes, and not the clock."""
import signal
import subprocess
import sys

from dev import judging
from dev.judging import Answer, limit_processor, run


def test_a_command_that_works_too_long_is_ended() -> None:
    with subprocess.Popen([sys.executable, "-c", "while True: pass"]) as process:
        limit_processor(process.pid, 1)
        assert process.wait(judging.PATIENCE) == -signal.SIGXCPU


def test_a_command_that_waits_is_not() -> None:
    waiting = "import time; time.sleep(2.5); print('done')"
    with subprocess.Popen([sys.executable, "-c", waiting], stdout=subprocess.PIPE) as process:
        limit_processor(process.pid, 1)
        assert (process.communicate()[0], process.returncode) == (b"done\n", 0)


def test_a_command_that_has_ended_has_nothing_to_end() -> None:
    with subprocess.Popen([sys.executable, "-c", ""]) as process:
        process.wait()
        limit_processor(process.pid)
    assert process.returncode == 0


def test_an_answer_that_comes_too_late_has_no_status() -> None:
    late = "import os, signal; os.write(1, b'so far'); os.kill(os.getpid(), signal.SIGXCPU)"
    assert run([sys.executable, "-c", late]) == Answer(judging.LATE, b"so far")
    assert run([sys.executable, "-c", "print('in time')"]) == Answer(0, b"in time\n")
