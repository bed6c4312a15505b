"""What the tests of the commands share."""
import importlib.machinery
import importlib.util
import os
import struct
import subprocess
import sys
import tempfile
import unittest

ROOT = os.path.dirname(os.path.dirname(os.path.abspath(__file__)))
sys.path.insert(0, os.path.join(ROOT, 'python'))
EXAMPLES = os.path.join(ROOT, 'examples')
DOCUMENT = os.path.join(EXAMPLES, 'document-01.input')
ALIKE, UNLIKE, TWELVE = (os.path.join(EXAMPLES, 'firmware', name) for name in ('alike.elf', 'unlike.elf', 'twelve.elf'))
SYMBOLS = struct.pack('<3I', 0x80000000, 0x80001000, 0x80001004)


def example(name):
    return os.path.join(EXAMPLES, 'firmware', name + '.input')


def contents(path):
    with open(path, 'rb') as file:
        return file.read()


def script(name):
    """A script of this folder as a module."""
    loader = importlib.machinery.SourceFileLoader(name.replace('-', '_'), os.path.join(ROOT, 'tools', name))
    module = importlib.util.module_from_spec(importlib.util.spec_from_loader(loader.name, loader))
    loader.exec_module(module)
    return module


def told(run):
    return run.stdout.decode(), run.stderr.decode()


class Case(unittest.TestCase):
    maxDiff = None

    def setUp(self):
        room = tempfile.TemporaryDirectory()
        self.addCleanup(room.cleanup)
        self.room = room.name

    def run_tool(self, name, *words, data=b'', status=0, **more):
        """Runs a command, which ends with the status and never with a traceback."""
        more.setdefault('stdout', subprocess.PIPE)
        source = {} if 'stdin' in more else {'input': data}
        run = subprocess.run([sys.executable, os.path.join(ROOT, name), *words], stderr=subprocess.PIPE, **source, **more)
        self.assertNotIn('Traceback', run.stderr.decode())
        self.assertEqual(run.returncode, status, run.stderr.decode())
        return run

    def fails(self, name, *words, part, data=b'', **more):
        """A run that ends with status 2 and one line that has the part."""
        run = self.run_tool(name, *words, data=data, status=2, **more)
        text = run.stderr.decode()
        self.assertTrue(text.startswith(f'{name}: ') and text.count('\n') == 1, text)
        self.assertIn(part, text)
        return run

    def write(self, name, data):
        path = os.path.join(self.room, name)
        with open(path, 'wb') as file:
            file.write(data)
        return path

    def record_of(self, path):
        return self.run_tool('lane-run', path).stdout
