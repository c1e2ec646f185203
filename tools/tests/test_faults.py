"""Reads and writes that fail one after another, and a stream that is cut behind each byte."""
import tempfile
import unittest

from xsvtools.faults import Runs, compiler, row
from xsvtools.program import find


@unittest.skipUnless(compiler(), 'there is no compiler of C')
class Faults(unittest.TestCase):
    def setUp(self):
        folder = tempfile.TemporaryDirectory()
        self.addCleanup(folder.cleanup)
        self.runs = Runs(find(), folder.name)

    def tearDown(self):
        self.assertEqual([], self.runs.wrong)
        self.assertLess(0, self.runs.done)

    def test_reads(self):
        stream = row('one_string')
        self.runs.reads('one_string', stream, *self.runs.run(stream))

    def test_rooms(self):
        stream = row('one_string')
        self.runs.rooms('one_string', stream, *self.runs.run(stream))

    def test_cuts(self):
        stream = row('purchase_order')
        self.runs.cuts('purchase_order', stream, self.runs.run(stream)[1])
