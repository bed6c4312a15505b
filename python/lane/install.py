"""install and release: the library, the commands and this package under a prefix, or as an archive of one."""
import functools
import gzip
import io
import json
import os
import re
import shlex
import shutil
import subprocess
import sys
import tarfile
import tempfile

from . import build
from .__main__ import VERBS
from .command import ROOT, first_line
from .errors import Failure

COMMANDS = 'lane', 'lane-check', 'lane-run', 'record-text', 'tools/pack-firmware'
HOME = 'lib/lane'  # below the prefix: laid out as a clone, so that the commands find the package
DOCUMENTS = 'LICENSE', 'NOTICE', 'docs/GUARANTEE.md', 'docs/RECORD.md', 'docs/REFUSALS.md', 'docs/lane-check.schema.json', 'examples/firmware/alike.elf', 'examples/firmware/unlike.elf'
PACKAGE_CONFIG = '''\
prefix={prefix}
includedir=${{prefix}}/include
libdir=${{prefix}}/lib

Name: lane
Description: The lane run of RV32IMC images, and its record
Version: {version}
Cflags: -I"${{includedir}}"
Libs: -L"${{libdir}}" -llane
'''
RELEASE_NOTE = '''\
The lane run, version {version}, commit {commit}: see share/doc/lane and `man -l share/man/man1/lane.1`.

    bin/lane check share/doc/lane/alike.elf share/doc/lane/unlike.elf

It needs Linux on x86-64 with glibc 2.34 or newer, and Python 3.8 or later. No
Rattle kit is needed, and nothing is proved here: lib/liblane.so was proved and
built elsewhere, by the kit {kit},
from sources whose digest is
{source}.
Who wants to rely on nobody else's proof checks a clone with the kit (rt ci).
In a clone of the same sources, `tar -xzf ARCHIVE -C target` spares the building:
the commands take what has the digest of the clone's sources, and nothing else.
'''
COMPLETION = '''\
# bash completion of lane and its other names; zsh reads it after `bashcompinit`.
_lane() {{
    local word=${{COMP_WORDS[COMP_CWORD]}} verb=${{COMP_WORDS[1]}} words=
    case ${{COMP_WORDS[0]##*/}} in
        lane-check) verb=check ;;
        lane-run) verb=lane-run ;;
        record-text) verb=show ;;
        *) [ "$COMP_CWORD" -gt 1 ] || {{ COMPREPLY=($(compgen -W '{verbs} --help --version' -- "$word")); return; }} ;;
    esac
    case $verb in
{cases}
    esac
    COMPREPLY=()
    case $word in -*) COMPREPLY=($(compgen -W "$words" -- "$word")) ;; esac
}}
complete -o default -F _lane lane lane-check lane-run record-text
'''


# ---- what is made here


@functools.lru_cache(None)
def help_of(*words):
    """What a command of this clone prints for --help."""
    shown = subprocess.run([sys.executable, os.path.join(ROOT, words[0]), *words[1:], '--help'], stdin=subprocess.DEVNULL, stdout=subprocess.PIPE,
                           env={**os.environ, 'COLUMNS': '80'}, check=True)
    return shown.stdout.decode()


def completion():
    """The options of each verb, as its --help has them."""
    told = {verb: help_of('lane', verb) for verb in VERBS}
    told['lane-run'] = help_of('lane-run')
    cases = [f"        {verb}) words='{' '.join(sorted(set(re.findall(r'(?<![^ ,[|(])--?[a-z][a-z-]*', text))))}' ;;" for verb, text in told.items()]
    return COMPLETION.format(verbs=' '.join(VERBS), cases='\n'.join(cases))


def man_page(version):
    def literal(text):
        lines = (re.sub(r"^([.'])", r'\\&\1', line.replace('\\', '\\e').replace('-', '\\-')) for line in text.splitlines())
        return '.nf\n' + '\n'.join(lines) + '\n.fi\n'

    sections = [('SYNOPSIS', help_of('lane'))] + [(f'LANE {verb.upper()}', help_of('lane', verb)) for verb in VERBS]
    sections += [('LANE-RUN', help_of('lane-run')), ('PACK-FIRMWARE', help_of('tools/pack-firmware'))]
    return (f'.TH LANE 1 "{version}" "lane {version}" "Lane run"\n.SH NAME\nlane \\- whether hook firmware treats all invalid channels alike\n'
            '.SH DESCRIPTION\n.B lane\\-check\nis\n.BR "lane check" ,\nand\n.B record\\-text\nis\n.BR "lane show" .\n'
            + ''.join(f'.SH {name}\n{literal(text)}' for name, text in sections))


def link(archive, made):
    """The shared object, by a C compiler, so that it names the C library that it needs."""
    compiler = shlex.split(os.environ.get('CC') or 'cc')
    run = subprocess.run([*compiler, '-shared', f'-Wl,-soname,{build.SONAME}', '-Wl,-z,now', '-Wl,--no-undefined', '-o', made,
                          '-Wl,--whole-archive', archive, '-Wl,--no-whole-archive'], stdin=subprocess.DEVNULL, stderr=subprocess.PIPE)
    if run.returncode:
        raise Failure(f'the shared object could not be linked: {run.stderr.decode(errors="replace").strip()}')


# ---- files


class Prefix:
    """A folder that files are put into, each under another name first, so that one that is in use is replaced and not changed."""

    def __init__(self, path):
        os.makedirs(path, exist_ok=True)
        self.path, self.put = os.path.realpath(path), []

    def place(self, name):
        path = os.path.join(self.path, name)
        os.makedirs(os.path.dirname(path), exist_ok=True)
        self.put.append(path)
        return path

    def write(self, name, contents, mode=0o644):
        path = self.place(name)
        with tempfile.NamedTemporaryFile(dir=os.path.dirname(path), delete=False) as file:
            file.write(contents)
        os.chmod(file.name, mode)
        os.replace(file.name, path)

    def copy(self, source, name, mode=0o644):
        with open(source, 'rb') as file:
            self.write(name, file.read(), mode)

    def link(self, name, target):
        path = self.place(name)
        with tempfile.TemporaryDirectory(dir=os.path.dirname(path)) as room:
            os.symlink(target, os.path.join(room, 'link'))
            os.replace(os.path.join(room, 'link'), path)


def version():
    """The day of the last commit."""
    return first_line('git', '-C', ROOT, 'log', '-1', '--format=%cd', '--date=format:%Y.%m.%d') or '0'


def commit():
    return first_line('git', '-C', ROOT, 'describe', '--always', '--dirty', '--abbrev=12') or 'unknown'


def put_library(prefix, archive, shown_prefix):
    prefix.copy(os.path.join(ROOT, 'include', 'lane.h'), 'include/lane.h')
    prefix.copy(archive, 'lib/liblane.a')
    with tempfile.TemporaryDirectory() as room:
        link(archive, os.path.join(room, 'made'))
        prefix.copy(os.path.join(room, 'made'), f'lib/{build.SONAME}', 0o755)
    prefix.link('lib/liblane.so', build.SONAME)
    prefix.write('lib/pkgconfig/lane.pc', PACKAGE_CONFIG.format(prefix=shown_prefix, version=version()).encode())


def put_commands(prefix, program, kit):
    """The commands, the package, and what they run, with its digests."""
    prefix.copy(program, f'{HOME}/{build.PROGRAM.released}', 0o755)
    for name in sorted(os.listdir(os.path.join(ROOT, 'python', 'lane'))):
        if name.endswith('.py') and name != os.path.basename(__file__):
            prefix.copy(os.path.join(ROOT, 'python', 'lane', name), f'{HOME}/python/lane/{name}')
    for name in COMMANDS:
        prefix.copy(os.path.join(ROOT, name), f'{HOME}/{name}', 0o755)
        prefix.link(f'bin/{os.path.basename(name)}', f'../{HOME}/{name}')
    files = {product.released: {'source': build.digest(product.crate), 'sha256': build.file_digest(os.path.join(prefix.path, HOME, product.released))}
             for product in build.PRODUCTS}
    told = {'commit': commit(), 'kit': kit, 'files': files}
    prefix.write(f'{HOME}/{build.MANIFEST}', json.dumps(told, indent=1).encode() + b'\n')
    return told


def put_documents(prefix):
    prefix.write('share/man/man1/lane.1', man_page(version()).encode())
    prefix.write('share/bash-completion/completions/lane', completion().encode())
    for name in COMMANDS[1:4]:
        prefix.link(f'share/bash-completion/completions/{name}', 'lane')
    for name in DOCUMENTS:
        prefix.copy(os.path.join(ROOT, name), f'share/doc/lane/{os.path.basename(name)}')


def put(path, tell, shown_prefix=None):
    """All of it under a prefix, which lane.pc names as it is shown; what is not built is proved and built first."""
    try:
        prefix = Prefix(path)
        with build.held(tell) as ((archive, kit), (program, _)):
            put_library(prefix, archive, shown_prefix or prefix.path)
            told = put_commands(prefix, program, kit)
        put_documents(prefix)
    except OSError as why:
        raise Failure(f'cannot write {why.filename or path}: {why.strerror}') from None
    return prefix, told


# ---- a release


def packed(folder, name):
    """A folder as a compressed archive; the same files make the same bytes."""
    def plain(entry):
        entry.uid = entry.gid = 0
        entry.uname = entry.gname = ''
        entry.mtime = 0
        return entry

    made = io.BytesIO()
    with gzip.GzipFile(fileobj=made, mode='wb', mtime=0) as compressed, tarfile.open(fileobj=compressed, mode='w', format=tarfile.GNU_FORMAT) as archive:
        archive.add(folder, name, filter=plain)
    return made.getvalue()


def release(folder, tell):
    """The path of an archive of all that is installed, which runs where no kit is."""
    with tempfile.TemporaryDirectory() as room:
        prefix, told = put(os.path.join(room, 'lane'), tell, '${pcfiledir}/../..')
        source = told['files'][build.LIBRARY.released]['source']
        name = f'lane-{version()}-{source[:12]}'
        prefix.write('README', RELEASE_NOTE.format(version=version(), source=source, **told).encode())
        contents = packed(prefix.path, name)
    kept = Prefix(folder)
    kept.write(f'{name}-linux-x86_64.tar.gz', contents)
    return kept.put[0]


def compiler_is_there():
    compiler = os.environ.get('CC') or 'cc'
    if not shlex.split(compiler) or shutil.which(shlex.split(compiler)[0]) is None:
        raise Failure(f'no C compiler {compiler}')
