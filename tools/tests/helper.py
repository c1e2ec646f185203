"""What the tests of the tools share: the tools as commands, and a folder of files for each test."""
import os
import subprocess
import sys
import tempfile
import unittest

TOP = os.path.dirname(os.path.dirname(os.path.dirname(os.path.abspath(__file__))))
PROGRAM = os.environ['XSV']
XS = 'xmlns:xs="http://www.w3.org/2001/XMLSchema"'


class Case(unittest.TestCase):
    """A test with a folder of its own, in which the tools run."""

    maxDiff = None

    def setUp(self):
        self._room = tempfile.TemporaryDirectory()
        self.addCleanup(self._room.cleanup)
        self.folder = self._room.name

    def put(self, name, text):
        """A file of the folder; its path."""
        path = os.path.join(self.folder, name)
        os.makedirs(os.path.dirname(path), exist_ok=True)
        with open(path, 'wb') as file:
            file.write(text if isinstance(text, bytes) else text.encode())
        return name

    def schema(self, name, declarations, attributes=''):
        """A schema document of the folder."""
        return self.put(name, f'<xs:schema {XS} {attributes}>\n{declarations}\n</xs:schema>\n')

    def tool(self, name, *words, stream=None, top=None, **environment):
        """The status, what is written, and what is said on standard error."""
        path = os.path.join(top or TOP, 'tools', name)
        ran = subprocess.run([path, *words], input=stream, capture_output=True, cwd=self.folder, timeout=120, check=False,
                             env={**os.environ, 'LC_ALL': 'C.UTF-8', **environment})
        return ran.returncode, ran.stdout.decode(), ran.stderr.decode()

    def says(self, name, *words, status, error, **more):
        """The tool ends with the status, and with words on standard error that begin with its name, without a trace."""
        ended, written, said = self.tool(name, *words, **more)
        self.assertEqual(ended, status, said)
        self.assertIn(error, said)
        self.assertNotIn('Traceback', said)
        return written


def example(name):
    return os.path.join(TOP, 'examples', name)


def read(*parts):
    with open(os.path.join(TOP, *parts), encoding='utf-8') as file:
        return file.read()


def answered(word, stream):
    """What the program answers."""
    ran = subprocess.run([PROGRAM, word], input=stream.encode(), capture_output=True, timeout=60, check=False)
    return ran.returncode, ran.stdout.decode()


sys.path.insert(0, os.path.join(TOP, 'tools'))
