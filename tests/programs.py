"""How programs are built and run."""
import contextlib, fcntl, os, subprocess

COMPILER = 'x86_64-linux-gnu-gcc'


def run(name, data):
    """What the program prints for these bytes on its standard input."""
    done = subprocess.run([f'target/bin/{name}'], input=data, capture_output=True, timeout=60)
    assert done.returncode == 0, f'{name} ended with {done.returncode}'
    return done.stdout


def written(path):
    return os.path.getmtime(path) if os.path.exists(path) else 0


def newest():
    """When a file of a crate was last written; what rt makes in its out/ is none."""
    last = 0
    for folder, folders, names in os.walk('crates'):
        folders[:] = [one for one in folders if (folder.count('/'), one) != (1, 'out')]
        last = max([last, *(written(f'{folder}/{name}') for name in names)])
    return last


@contextlib.contextmanager
def alone(what):
    """Tests run side by side, and no two do this at a time."""
    with open(f'target/{what}.lock', 'w') as lock:
        fcntl.flock(lock, fcntl.LOCK_EX)
        yield


def compiler():
    """The compiler, installed where that is needed and can be done."""
    with alone('compiler'):
        subprocess.run(['bash', '-euc', f'. tests/need; need {COMPILER} "" gcc'], check=True)
    return COMPILER


def archive(name):
    """The static library of a crate's calls, made unless it is newer than every file of a crate, and a compiler to link with it. What the prover
    says is in target/."""
    compiler()
    library = f'target/staticlib/lib{name}.a'
    with alone(name):
        if written(library) <= newest():
            with open(f'target/{name}.log', 'w') as log:
                subprocess.run(['./build', name], check=True, stdout=log, stderr=log)
    return library


def driver(name, *flags, crate='trial'):
    """A C program of tests/ that calls a crate; the command that runs it."""
    library, program = archive(crate), f'target/{name}'
    subprocess.run([compiler(), '-O2', '-Wall', '-Wextra', *flags, '-static', f'tests/{name}.c', library, '-o', program], check=True)
    return [program]
