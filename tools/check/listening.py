"""A docd that serves many connections at a free port, and what it prints; and what Linux says of a process's memory."""
import atexit
import re
import resource
import subprocess
import threading
import time

from served import free_port

LINE = re.compile(r"connection (\d+) (.*)\n")
PATIENCE = 20  # seconds to wait for lines at most


def let_open_many():
    """Lets this process, and those that it starts from now on, open as many files as are allowed."""
    _, most = resource.getrlimit(resource.RLIMIT_NOFILE)
    resource.setrlimit(resource.RLIMIT_NOFILE, (most, most))


def memory_of(process, word="VmRSS"):
    """How many bytes of a running process are resident, or what else Linux says of its memory under this word."""
    with open("/proc/%d/status" % process.pid) as lines:
        said = dict(line.split(":", 1) for line in lines)
    return int(said[word].split()[0]) << 10


class Listening:
    """A running docd. Its lines are read as they are printed, so that it never waits for a reader. It ends with this process, if
    it isn't ended before."""

    def __init__(self, program, *words, **how):
        self.port, self.fates = free_port(), {}
        self.process = subprocess.Popen([program, "listen", "--port", str(self.port), *words], stdout=subprocess.PIPE, text=True,
                                        **how)
        atexit.register(self.process.kill)
        if self.process.stdout.readline() != "serving 127.0.0.1:%d\n" % self.port:
            raise ConnectionError("docd doesn't listen")
        self.reading = threading.Thread(target=self.read, daemon=True)
        self.reading.start()

    def __enter__(self):
        return self

    def __exit__(self, *fault):
        self.end()

    def read(self):
        for line in self.process.stdout:
            number, fate = LINE.fullmatch(line).groups()
            self.fates[int(number)] = fate

    def fates_of(self, count):
        """How connections ended, in the order in which they arrived, once this many did; fewer if they don't end soon."""
        end = time.monotonic() + PATIENCE
        while len(self.fates) < count and time.monotonic() < end:
            time.sleep(0.01)
        return [fate for _, fate in sorted(self.fates.items())]

    def status(self):
        """The exit status with which it has ended, or minus the number of the signal that ended it; None if it runs."""
        return self.process.poll()

    def seconds(self):
        """The processor time that it has taken."""
        return time.clock_gettime(~self.process.pid << 3 | 2)

    def memory(self):
        """How many bytes are resident."""
        return memory_of(self.process)

    def end(self):
        self.process.kill()
        self.process.wait()
        self.reading.join()
        self.process.stdout.close()
