"""What the commands run: found built, or proved and built by the Rattle kit's rt, whenever a source has changed."""
import collections
import contextlib
import fcntl
import glob
import hashlib
import json
import os
import re
import shutil
import signal
import subprocess
import tempfile
import threading
import time

from .command import ROOT, first_line, in_utf8
from .errors import Failure

TARGET = os.path.join(ROOT, 'target')
STAMPS = os.path.join(TARGET, 'tools')
TIMES = os.path.join(STAMPS, 'times.json')  # the seconds that each crate took when it was last proved here
MANIFEST = 'build.json'  # of a release: which sources its products were built from, and their digests
SONAME = 'liblane.so.1'
Product = collections.namedtuple('Product', 'crate built released')  # the file below target/, and the one of a release, from its lib/lane on
LIBRARY = Product('lane_exports_c', 'staticlib/liblane_exports.so', f'../{SONAME}')
ARCHIVE = Product('lane_exports_c', 'staticlib/liblane_exports.a', '../liblane.a')
PROGRAM = Product('lane_run', 'bin/lane_run', 'lane_run')
PRODUCTS = LIBRARY, ARCHIVE, PROGRAM
GUESS = 30  # seconds of a crate that was never timed here
QUIET = 1.5  # seconds that rt may take before anything is said of it
PATIENCE = 2  # seconds that rt gets to end by itself
PAUSE = 0.05  # seconds between two looks at what rt has done
PROVED = re.compile(rb'^logic=proved', re.MULTILINE)  # what rt prints of a crate that it proves; of one that is as it was it prints nothing
NO_KIT = ("rt, the Rattle kit's command, is not on PATH, and there is something to prove and build: unpack a release of these sources into "
          'target/, or see README.md, Requirements')


# ---- sources


def dependencies():
    """crates.txt: each crate with what it needs."""
    with open(os.path.join(ROOT, 'crates.txt'), encoding='utf-8') as file:
        lines = [line.split('#')[0].split(':') for line in file]
    return {line[0].split()[0]: line[1].split() for line in lines if len(line) == 2}


def levels(name):
    """The crates that rt proves for a crate, in its order: each level needs only those before it."""
    needs = dependencies()
    level = {}

    def visit(crate):
        if crate in needs and crate not in level:
            level[crate] = 1 + max((visit(need) for need in needs[crate]), default=0)
        return level.get(crate, 0)

    visit(name)
    return [[crate for crate in needs if level.get(crate) == k] for k in range(1, max(level.values(), default=0) + 1)]


def plan(name):
    return [crate for level in levels(name) for crate in level]


def sources(name):
    """The files that the crate's proof and program are made of."""
    for crate in sorted(plan(name)):
        for folder, below, files in os.walk(os.path.join(ROOT, 'crates', crate)):
            below[:] = sorted(part for part in below if part not in ('must-fail', 'out'))
            yield from (os.path.join(folder, file) for file in sorted(files))


def file_digest(path):
    with open(path, 'rb') as file:
        return hashlib.sha256(file.read()).hexdigest()


def digest(name):
    """One number of all sources, with their names, and of what crates.txt says of the crates that they belong to."""
    needs = dependencies()
    lines = [f'{crate}: {" ".join(needs[crate])}\n' for crate in sorted(plan(name))]
    lines += [f'{os.path.relpath(path, ROOT)} {file_digest(path)}\n' for path in sources(name)]
    return hashlib.sha256(''.join(lines).encode()).hexdigest()


# ---- what is built


def built(product):
    return os.path.join(TARGET, product.built)


def stamp(product):
    return os.path.join(STAMPS, os.path.basename(product.built))


def stamped(product):
    """What is noted of a product: its sources' digest, its own, and the kit; three times None where nothing is."""
    try:
        with open(stamp(product), encoding='utf-8') as file:
            source, made, kit = file.read().splitlines()
        return source, made, kit
    except (FileNotFoundError, ValueError):
        return None, None, None


def current(product):
    """Whether a product is the one that was built from the sources as they are, by the kit that is there."""
    source, made, kit = stamped(product)
    return bool(source and os.path.exists(built(product)) and made == file_digest(built(product)) and source == digest(product.crate)
                and first_line('rt', 'version') in (None, kit))


def mark(product, source):
    with open(stamp(product), 'w', encoding='utf-8') as file:
        file.write(f'{source}\n{file_digest(built(product))}\n{first_line("rt", "version")}\n')


def manifest(home):
    """What a release says of itself: commit, kit, and of each file its sources' digest and its own. None where there is none."""
    try:
        with open(os.path.join(home, MANIFEST), encoding='utf-8') as file:
            told = json.load(file)
        files = {product.released: {key: str(told['files'][product.released][key]) for key in ('source', 'sha256')} for product in PRODUCTS}
        return {'commit': str(told['commit']), 'kit': str(told['kit']), 'files': files}
    except (OSError, ValueError, KeyError, TypeError):
        return None


def whole(home, told, product):
    """The path of a release's file, or None where it is not the one that was put there."""
    path = os.path.realpath(os.path.join(home, product.released))
    return path if os.path.exists(path) and file_digest(path) == told['files'][product.released]['sha256'] else None


def released(product):
    """A product of the release that this package is a part of, or None where it is part of a clone."""
    told = manifest(ROOT)
    if told is None:
        return None
    path = whole(ROOT, told, product)
    if path is None:
        raise Failure(f'{os.path.realpath(os.path.join(ROOT, product.released))} is missing or is not what was installed: install it again')
    return path


def releases():
    """Those that are unpacked into target/ or a folder of LANE_RELEASES: home and what each says of itself."""
    folders = [TARGET, *filter(None, os.environ.get('LANE_RELEASES', '').split(os.pathsep))]
    homes = sorted(home for folder in folders for home in glob.glob(os.path.join(glob.escape(folder), 'lane-*', 'lib', 'lane')))
    return [(home, told) for home, told in zip(homes, map(manifest, homes)) if told]


def found(product):
    """A product of the sources as they are, by the kit that is there, if any: its path and its kit. None twice where it has to be built."""
    if current(product):
        return built(product), stamped(product)[2]
    for home, told in releases():
        if told['files'][product.released]['source'] == digest(product.crate) and first_line('rt', 'version') in (None, told['kit']):
            path = whole(home, told, product)
            if path:
                return path, told['kit']
    return None, None


# ---- rt


@contextlib.contextmanager
def alone(tell):
    """One build at a time: two commands may both find something to do."""
    os.makedirs(STAMPS, exist_ok=True)
    with open(os.path.join(STAMPS, 'lock'), 'wb') as lock:
        try:
            fcntl.flock(lock, fcntl.LOCK_EX | fcntl.LOCK_NB)
        except BlockingIOError:
            tell('another command is building: waiting for it')
            fcntl.flock(lock, fcntl.LOCK_EX)
        yield


def duration(seconds):
    return f'{seconds:.0f} s' if seconds < 100 else f'{seconds / 60:.0f} minutes'


def times():
    """The seconds of each crate that was timed here."""
    try:
        with open(TIMES, encoding='utf-8') as file:
            return {crate: float(seconds) for crate, seconds in json.load(file).items()}
    except (OSError, ValueError, TypeError, AttributeError):
        return {}


def jobs():
    """How many crates rt proves at once."""
    told = os.environ.get('RT_JOBS', '')
    return int(told) if told.isdigit() and int(told) else min(len(os.sched_getaffinity(0)), 4)


class Progress:
    """Says what rt has proved, and how long the rest takes, by the times that were seen here before. Silent where rt finds nothing to do."""

    def __init__(self, name, tell):
        self.name, self.tell, self.began, self.seconds = name, tell, time.time(), times()
        self.levels, self.done = levels(name), set()
        self.opening = threading.Timer(QUIET, self.open)

    def left(self):
        """Seconds until all is proved, as if each level waited for the one before it."""
        batches = [level[k:k + jobs()] for level in self.levels for k in range(0, len(level), jobs())]
        return sum(max((self.seconds.get(crate, GUESS) for crate in batch if crate not in self.done), default=0) for batch in batches)

    def rest(self):
        waiting = [crate for level in self.levels for crate in level if crate not in self.done]
        guess = '' if all(crate in self.seconds for crate in waiting) else ', a guess'
        return f'about {duration(self.left())} to go{guess}' if waiting else 'linking'

    def open(self):
        self.tell(f'proving and building {self.name}, {sum(map(len, self.levels))} crates: {self.rest()}')

    def __enter__(self):
        self.opening.start()
        return self

    def __exit__(self, *what):
        self.opening.cancel()
        if what[0] is None and time.time() - self.began > QUIET:
            self.tell(f'done in {duration(time.time() - self.began)}')

    def note(self, crate, seconds):
        """A crate is proved, in so many seconds or at an earlier time."""
        if crate in self.done:
            return
        self.done.add(crate)
        if seconds is not None:
            self.seconds[crate] = seconds
            with open(TIMES, 'w', encoding='utf-8') as file:
                json.dump(self.seconds, file)
            self.tell(f'{len(self.done):2} of {sum(map(len, self.levels))}: {crate} proved in {seconds:.0f} s; {self.rest()}')


def end_group(run):
    """Ends a process with all that it started."""
    with contextlib.suppress(ProcessLookupError):
        os.killpg(run.pid, signal.SIGTERM)
        for _ in range(10 * PATIENCE):
            run.poll()
            os.killpg(run.pid, 0)
            time.sleep(0.1)
        os.killpg(run.pid, signal.SIGKILL)


@contextlib.contextmanager
def told_to_end():
    """SIGTERM and SIGHUP raise, as SIGINT does, so that what was started can be ended first; a thread is not told of them."""
    def leave(number, frame):
        raise SystemExit(128 + number)

    if threading.current_thread() is not threading.main_thread():
        yield
        return
    before = {number: signal.signal(number, leave) for number in (signal.SIGTERM, signal.SIGHUP) if signal.getsignal(number) is not signal.SIG_IGN}
    try:
        yield
    finally:
        for number, handler in before.items():
            signal.signal(number, handler)


class Run:
    """A run of rt in a crate's folder. It has a process group of its own; what it prints is kept in a file."""

    def __init__(self, word, crate):
        self.word, self.crate, self.began, self.printed = word, crate, time.time(), tempfile.TemporaryFile()
        self.process = subprocess.Popen(['rt', word], cwd=os.path.join(ROOT, 'crates', crate), stdin=subprocess.DEVNULL, stdout=self.printed,
                                        stderr=subprocess.STDOUT, start_new_session=True, env=in_utf8())

    def over(self):
        return self.process.poll() is not None

    def close(self, progress):
        """Notes how long it took; what it printed is shown where it failed."""
        with self.printed:
            self.printed.seek(0)
            printed = self.printed.read()
        if self.process.returncode:
            raise Failure(f'rt {self.word} in crates/{self.crate} failed with status {self.process.returncode}:\n'
                          + printed.decode(errors='replace').rstrip())
        progress.note(self.crate, time.time() - self.began if PROVED.search(printed) else None)


def rt(word, name, progress):
    """Proves the crates that one needs, as many at once as there are cores, each after those below it, and then it, with this word of rt's.
    No run of rt outlives this process."""
    if shutil.which('rt') is None:
        raise Failure(NO_KIT)
    needs, waiting, running = dependencies(), plan(name), []
    with told_to_end():
        try:
            while waiting or running:
                for crate in [one for one in waiting if not set(needs[one]) & set(waiting + [run.crate for run in running])]:
                    if len(running) < jobs():
                        waiting.remove(crate)
                        running.append(Run(word if crate == name else 'lib', crate))
                for run in [run for run in running if run.over()]:
                    running.remove(run)
                    run.close(progress)
                time.sleep(PAUSE)
        except BaseException:
            for run in running:
                end_group(run.process)
            raise


# ---- building


def bring(product, tell, make):
    """The path of a product, which is made unless it is there."""
    try:
        path, _ = found(product)
        if path:
            return path
        with alone(tell):
            if not current(product):
                source = digest(product.crate)
                with Progress(product.crate, tell) as progress:
                    make(progress)
                mark(product, source)
    except OSError as why:
        raise Failure(f'cannot build {product.crate}: {why.filename or "rt"}: {why.strerror}') from None
    return built(product)


def program(name, tell):
    """The path of a program's binary."""
    product, = (one for one in PRODUCTS if one.crate == name)
    return released(product) or bring(product, tell, lambda progress: make_program(product, progress))


def shared_object(tell):
    """The path of the library as a shared object."""
    return released(LIBRARY) or bring(LIBRARY, tell, make_shared)


@contextlib.contextmanager
def held(tell):
    """Archive and program, each with the kit that built it, while no build replaces them."""
    while True:
        bring(ARCHIVE, tell, make_archive)
        program(PROGRAM.crate, tell)
        with alone(tell):
            both = found(ARCHIVE), found(PROGRAM)
            if all(path for path, _ in both):
                yield both
                return


def copy(product, name):
    """What rt made in the folder of the product's crate, put in the product's place."""
    os.makedirs(os.path.dirname(built(product)), exist_ok=True)
    with tempfile.TemporaryDirectory(dir=os.path.dirname(built(product))) as room:
        made = os.path.join(room, 'made')
        shutil.copy(os.path.join(ROOT, 'crates', product.crate, 'out', name), made)
        os.replace(made, built(product))


def make_program(product, progress):
    """rt run leaves the program that it runs; here it has no input."""
    rt('run', product.crate, progress)
    copy(product, product.crate)


def make_archive(progress):
    rt('lib', ARCHIVE.crate, progress)
    copy(ARCHIVE, f'lib{ARCHIVE.crate}.a')


def make_shared(progress):
    if not current(ARCHIVE):
        source = digest(ARCHIVE.crate)
        make_archive(progress)
        mark(ARCHIVE, source)
    with tempfile.TemporaryDirectory(dir=os.path.dirname(built(LIBRARY))) as room:
        made = os.path.join(room, 'made')
        linked = subprocess.run([*linker(), '-soname', SONAME, '-o', made, *whole_archive(built(ARCHIVE))], stdout=subprocess.PIPE,
                                stderr=subprocess.STDOUT, stdin=subprocess.DEVNULL)
        if linked.returncode:
            raise Failure(f'cannot link {built(LIBRARY)}: {linked.stdout.decode(errors="replace").strip()}')
        os.replace(made, built(LIBRARY))


def kit_linker():
    """The linker that comes with the kit, or None."""
    rt_path = shutil.which('rt')
    home = os.environ.get('RATTLE_HOME') or rt_path and os.path.dirname(os.path.dirname(os.path.realpath(rt_path)))
    path = home and os.path.join(home, 'toolchain', 'bin', 'ld.lld')
    return path if path and os.access(path, os.X_OK) else None


def linker():
    """The command that makes a shared object."""
    for command in (kit_linker(), shutil.which('ld')):
        if command:
            return [command, '-shared']
    raise Failure("no linker: neither the Rattle kit's nor ld on PATH")


def whole_archive(archive):
    return ['--whole-archive', archive, '--no-whole-archive']
