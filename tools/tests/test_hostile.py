"""The streams that are made to take long, and what is told of them."""
import hashlib

from helper import PROGRAM, Case
from xsvtools.hostile import STREAMS

# Of the bytes of all streams, one behind the other.
MADE = '810f60a8014c061b19927cbc4d01beae2f79688d8063c86c3fe7eb013051a15c'


class Hostile(Case):
    def test_the_bytes_are_the_ones_that_were_measured(self):
        bytes_of_all = b''.join(stream.written(stream.once) for stream in STREAMS.values())
        self.assertEqual(hashlib.sha256(bytes_of_all).hexdigest(), MADE)

    def test_each_is_compared_with_twice_or_half(self):
        for name, stream in STREAMS.items():
            own, other = (len(stream.written(numbers)) for numbers in (stream.once, stream.compared))
            self.assertEqual(stream.is_half(), other < own, name)
            self.assertLessEqual(set(stream.other), set(stream.once), name)

    def test_one_stream(self):
        status, written, said = self.tool('hostile', PROGRAM, 'union_inherited')
        lines = written.split('\n')
        self.assertEqual((status, said, len(lines)), (0, '', 4), written)
        self.assertRegex(lines[1], r'^union_inherited +\d\.\d\d .* within; types 1,400 to 2,800, members 1,400 to 2,800$')
        self.assertEqual(lines[2], '1 of 1 streams are within their bars')

    def test_the_stream_itself(self):
        stream = STREAMS['union_doubling']
        for words, numbers in ((), stream.once), (('other',), stream.compared):
            self.assertEqual(self.tool('hostile', '--stream', 'union_doubling', *words), (0, stream.written(numbers).decode(), ''))

    def test_one_that_is_over(self):
        status, written, _ = self.tool('hostile', PROGRAM, 'enum_inherited', ROOM='4')
        self.assertEqual(status, 1)
        self.assertIn('STATUS', written)

    def test_words(self):
        self.says('hostile', PROGRAM, 'no_such', status=64, error='hostile: no_such: neither')
        self.says('hostile', '--stream', status=64, error='hostile: --stream NAME')
        self.says('hostile', 'union', status=64, error='RUNS=0: no number', RUNS='0')
        self.says('hostile', 'no_such', 'union', status=69, error='no program')
