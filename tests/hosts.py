"""Builds and runs hosts of the static libraries `seam` and `host`. Used by tests/link, tests/compare and tests/cost.py.

    python3 tests/hosts.py NAME ..     proves and builds the archive target/staticlib/libNAME.a of each: seam, or host

An archive is x86-64, and so is the kit that builds it: hosts are built by the machine's own cc and rustc and run as they are, on x86-64 alone.
"""
import hashlib, os, platform, shutil, subprocess, sys

TESTS = os.path.dirname(os.path.abspath(__file__))
ROOT = os.path.dirname(TESTS)
TARGET = os.path.join(ROOT, 'target')
BUILD = os.path.join(TARGET, 'hosts')
TRIPLE = 'x86_64-unknown-linux-gnu'
CRATE_OF = {'seam': 'seam', 'host': 'host_c'}       # the static library that each archive is


class Failed(Exception):
    """A command that had to succeed did not; its words and what it said."""


def run(words, **more):
    done = subprocess.run(words, stdout=subprocess.PIPE, stderr=subprocess.STDOUT, text=True, **more)
    if done.returncode:
        raise Failed('%s\n%s' % (' '.join(words), done.stdout[-4000:]))
    return done.stdout


# ---- the archives

def archive(name='seam', say=print):
    """Proves the crate and builds its archive; not again where no file of any crate, nor the kit, has changed since."""
    if not shutil.which('rt'):
        raise Failed('there is no rt here: the Rattle kit is needed to prove and build the archive')
    crate = CRATE_OF[name]
    folder, out = os.path.join(ROOT, 'crates', crate), os.path.join(TARGET, 'staticlib', 'lib%s.a' % name)
    stamp, now = out + '.from', sources()
    if not (os.path.exists(out) and os.path.exists(stamp) and open(stamp).read() == now):
        say('proving and building the archive: rt lib in crates/%s (some minutes)' % crate, flush=True)
        run(['rt', 'lib'], cwd=folder)
        os.makedirs(os.path.dirname(out), exist_ok=True)
        shutil.copyfile(os.path.join(folder, 'out', 'lib%s.a' % crate), out)
        with open(stamp, 'w') as f:
            f.write(now)
    return out


def sources():
    """A sum over the kit's identity and every file that `rt lib` may read."""
    sum = hashlib.sha256(run(['rt', 'version']).encode())
    for folder, inner, files in os.walk(os.path.join(ROOT, 'crates')):
        inner[:] = sorted(d for d in inner if d != 'out')
        for file in sorted(f for f in files if f.endswith(('.rt', '.antt'))):
            path = os.path.join(folder, file)
            with open(path, 'rb') as f:
                sum.update(os.path.relpath(path, ROOT).encode() + hashlib.sha256(f.read()).digest())
    with open(os.path.join(ROOT, 'crates.txt'), 'rb') as f:
        sum.update(f.read())
    return sum.hexdigest() + '\n'


def unrunnable():
    """Why no program for x86-64 can be run here, or ''."""
    return '' if platform.machine() == 'x86_64' else 'no x86-64 processor here'


# ---- C

def cc():
    own = shutil.which(os.environ.get('CC', 'cc'))
    if not own:
        raise Failed('no C compiler here')
    return own


def c_object(source, name, *words):
    """Compiles a C file; `words` are options as -DNAME."""
    os.makedirs(BUILD, exist_ok=True)
    out = os.path.join(BUILD, name + '.o')
    run([cc(), '-std=c11', '-Wall', '-Wextra', '-O2', '-fPIC', *words, '-c', source, '-o', out])
    return out


def linked(name, files):
    """Links objects and archives with the C library."""
    os.makedirs(BUILD, exist_ok=True)
    out = os.path.join(BUILD, name)
    run([cc(), '-o', out] + files + ['-lpthread', '-ldl', '-lm'])
    return out


# ---- Rust

class Rust:
    """A rustc, by its path."""

    def __init__(self, rustc):
        self.rustc = rustc

    def archive(self, source, name, *words):
        """A Rust file with its own C `main`, and std with it, as an archive: any linker can then link it."""
        os.makedirs(BUILD, exist_ok=True)
        out = os.path.join(BUILD, 'lib%s.a' % name)
        options = ['--edition', '2021', '--target', TRIPLE, '--crate-type', 'staticlib', '-C', 'panic=abort', '-O']
        run([self.rustc] + options + [*words, source, '-o', out])
        return out

    def package(self, folder, name, target):
        """A package of the cargo workspace in `folder` as such an archive; cargo builds in `target`, and fetches nothing."""
        words = ['cargo', 'build', '--offline', '--release', '--quiet', '-j1', '-p', name, '--target', TRIPLE]
        run(words, cwd=folder, env=dict(os.environ, RUSTC=self.rustc, CARGO_TARGET_DIR=target))
        return os.path.join(target, TRIPLE, 'release', 'lib%s.a' % name)


def rust():
    """A Rust, or (None, why there is none)."""
    own = shutil.which('rustc')
    if own:
        asked = subprocess.run([own, '--print', 'target-libdir', '--target', TRIPLE], capture_output=True, text=True)
        folder = asked.stdout.strip()
        if asked.returncode == 0 and os.path.isdir(folder) and any(f.startswith('libstd-') for f in os.listdir(folder)):
            return Rust(own), ''
    return None, 'no rustc with its standard library here'


def rust_with_cargo():
    """A Rust, where cargo is here too, or (None, why there is none)."""
    return rust() if shutil.which('cargo') else (None, 'no cargo here')


# ---- hosts of crate `host_c`

class Lists:
    """A running host with the archive of `host_c` in it, which takes lists of calls as lines: tests/host/lists.c, or the harness of tests/cfdp-rs."""

    def __init__(self, name, file):
        self.process = subprocess.Popen([linked(name, [file, archive('host')])], stdin=subprocess.PIPE, stdout=subprocess.PIPE, text=True)

    def say(self, line):
        self.process.stdin.write(line + '\n')

    def heard(self):
        """The next line that it prints."""
        self.process.stdin.flush()
        line = self.process.stdout.readline()
        if not line:
            raise Failed('the host ended: status %d' % self.process.wait())
        return line.rstrip('\n')

    def answers(self, calls, file):
        """Our handler's answers to a list of calls over a file, all three as docs/HOST.md has them."""
        self.say('ours %s %s' % (calls.hex(), file.hex()))
        return bytes.fromhex(self.heard())


def c_lists():
    return Lists('lists', c_object(os.path.join(TESTS, 'host', 'lists.c'), 'lists'))


if __name__ == '__main__':
    if not sys.argv[1:] or set(sys.argv[1:]) - set(CRATE_OF):
        raise SystemExit(__doc__)
    try:
        for name in sys.argv[1:]:
            print(os.path.relpath(archive(name)))
    except Failed as e:
        sys.exit('FAILED: %s' % e)
