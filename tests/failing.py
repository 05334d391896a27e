"""Programs and commands that are run where reading or writing fails, and what is wrong with how they ended. `failing.c` makes reads and writes
short and lets any of them fail."""
import collections, contextlib, fcntl, os, resource, subprocess, time

SHIM = os.path.abspath('target/failing.so')
DONE, REFUSED, UNREAD, UNWRITTEN = '0123'       # what a program tells to descriptor 3
INPUT, OUTPUT = 'standard input', 'standard output'
LIMIT = 60                                      # seconds that no run takes
IDLE = 0.6                                      # seconds in which nothing moves

# What a run prints, says on standard error and tells where nothing fails.
Due = collections.namedtuple('Due', 'out err told')


class Program:
    """A program, the arguments by which it tells its status, the command over it with its words, and what is due for an input."""

    def __init__(self, name, crate, args, words, due):
        self.name, self.crate, self.path, self.args, self.words, self.due = name, crate, f'target/bin/{crate}', args, words, due
        self.command = os.path.abspath(name)

    def __str__(self):
        return ' '.join(['./' + self.name, *self.words])

    def said(self, what, number):
        """The line on standard error where this fails with such an error; 0 is a write that took nothing."""
        return f'{self.name}: {what}: {os.strerror(number) if number else "a write took nothing"}\n'

    def unwritten(self, data, number):
        """The message and the status where output fails with such an error: of a refused input there may be nothing to write."""
        due = self.due(data)
        return (self.said(OUTPUT, number), UNWRITTEN) if due.out else (due.err, due.told)


def faults(due, out, err, status, message='', told=DONE):
    """What is wrong with a run that should have ended like this: nothing is missing but at the end, and what is missing is said."""
    found = []
    if not due.startswith(out):
        found.append('the output is no front of the right one')
    if told == UNREAD and out:
        found.append('something is printed of an input that was not read')
    if told not in (UNREAD, UNWRITTEN) and out != due:
        found.append('the output is not whole')
    if told == UNWRITTEN and out == due:
        found.append('the whole output is there')
    if err != message:
        found.append(f'standard error has {err!r} and not {message!r}')
    if status != told:
        found.append(f'the status is {status!r} and not {told!r}')
    return found


def environment(shim, **more):
    """The variables of a run, with what the shim is to do."""
    preload = {'LD_PRELOAD': SHIM} if shim else {}
    return {**os.environ, 'LC_ALL': 'C', **preload, **{key: str(value) for key, value in shim.items()}, **more}


def set_up(close, limit):
    """In a new process: descriptors to close, and the most bytes of a file."""
    for descriptor in close:
        os.close(descriptor)
    if limit is not None:
        resource.setrlimit(resource.RLIMIT_FSIZE, (limit, limit))


class Run:
    """A program, with its status on descriptor 3. SIGPIPE and SIGXFSZ are ignored, as the commands have it."""

    def __init__(self, program, stdin, stdout=subprocess.PIPE, close=(), limit=None, args=None, **shim):
        def prepare():
            os.dup2(told, 3)
            set_up(close, limit)
        self.status, mouth = os.pipe()
        told = fcntl.fcntl(mouth, fcntl.F_DUPFD_CLOEXEC, 10)
        os.close(mouth)
        self.data = stdin if isinstance(stdin, bytes) else None
        self.process = subprocess.Popen([program.path, *(program.args if args is None else args)],
                                        stdin=subprocess.PIPE if self.data is not None else stdin, stdout=stdout, stderr=subprocess.PIPE,
                                        env=environment(shim), preexec_fn=prepare, close_fds=False, restore_signals=False)
        os.close(told)

    def end(self, out=b''):
        """Output, standard error and status; `out` is the output, or its file, where it does not come by a pipe of ours."""
        came, err = self.process.communicate(self.data, timeout=LIMIT)
        if came is not None:
            out = came
        elif not isinstance(out, bytes):
            out.seek(0)
            out = out.read()
        with open(self.status) as status:
            return out, err.decode(), status.read()


def command(name, *words, stdin=subprocess.DEVNULL, stdout=subprocess.PIPE, close=(), limit=None, at=None, path=os.environ['PATH'], **shim):
    """What a command prints, says and ends with. Its standard input may be the name of a file."""
    def prepare():
        set_up(close, limit)
    with open(stdin, 'rb') if isinstance(stdin, str) else contextlib.nullcontext(stdin) as opened:
        done = subprocess.run([name, *words], stdin=opened, stdout=stdout, stderr=subprocess.PIPE, cwd=at, env=environment(shim, PATH=path),
                              preexec_fn=prepare, timeout=LIMIT)
    return done.stdout, done.stderr.decode(), done.returncode


def nonblocking(descriptor):
    fcntl.fcntl(descriptor, fcntl.F_SETFL, fcntl.fcntl(descriptor, fcntl.F_GETFL) | os.O_NONBLOCK)
    return descriptor


def feed(mouth, data):
    with open(mouth, 'wb', buffering=0) as pipe, contextlib.suppress(BrokenPipeError):
        for at in range(0, len(data), 100):
            pipe.write(data[at:at + 100])
            time.sleep(0.005)


def processor_time():
    """The seconds that the runs so far have taken of a processor."""
    used = resource.getrusage(resource.RUSAGE_CHILDREN)
    return used.ru_utime + used.ru_stime


def slowly(hearing):
    """All that comes from a pipe that is read slowly."""
    came = []
    time.sleep(IDLE)
    while piece := os.read(hearing, 16384):
        came.append(piece)
        time.sleep(0.002)
    os.close(hearing)
    return b''.join(came)
