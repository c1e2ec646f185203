"""tools/streams cannot pass by running nothing."""
import os
import shutil

from helper import PROGRAM, TOP, Case


class Streams(Case):
    def copy(self):
        """The top of a repository with tools and no streams."""
        top = os.path.join(self.folder, 'top')
        shutil.copytree(os.path.join(TOP, 'tools'), os.path.join(top, 'tools'))
        os.makedirs(os.path.join(top, 'examples', 'streams'))
        return top

    def test_a_file(self):
        status, written, _ = self.tool('streams', PROGRAM, 'ids.txt')
        self.assertEqual(status, 0)
        self.assertRegex(written, r'^examples/streams: (\d+) of \1 streams are answered as they must be\n$')

    def test_nothing_run(self):
        top = self.copy()
        for words, error in (['nowhere'], 'no program'), ([], 'no program'), ([PROGRAM, 'none.txt'], 'no none.txt'), (['-z'], 'unknown option'):
            self.says('streams', *words, status=2, error=error, top=top, XSV='')
        self.says('streams', PROGRAM, 'ids.txt', status=2, error='is no number', SECONDS_A_STREAM='x')

    def test_files_that_are_no_streams(self):
        top = self.copy()
        for name, text in ('a.txt', ''), ('b.txt', '# words\n'), ('c.txt', '\n(xs:element\n'), ('d.txt', '= x\n+ y\n0 \n'), ('types.txt', 'nonsense\n'):
            path = os.path.join('top', 'examples', 'streams', name)
            self.put(path, text)
            self.says('streams', PROGRAM, name, status=2, error=f'streams: examples/streams/{name}', top=top)

    def test_other_answers(self):
        top = self.copy()
        self.put(os.path.join('top', 'examples', 'streams', 'a.txt'), '== check: end\n0 schema ok\n')
        status, written, _ = self.tool('streams', PROGRAM, 'a.txt', top=top)
        self.assertEqual(status, 1)
        self.assertIn('a.txt: == check: end\n  3 listing 1 BadSection\n  wanted 0 schema ok\n', written)
        self.assertIn('10 of 11 streams', written)

    def test_another_program(self):
        for program in '/bin/true', '/bin/cat':
            status, written, _ = self.tool('streams', program, 'ids.txt')
            self.assertEqual(status, 1)
            self.assertIn('examples/streams: 0 of ', written)

    def test_a_program_that_does_not_end(self):
        slow = self.put('slow', '#!/bin/sh\nexec sleep 9\n')
        os.chmod(os.path.join(self.folder, slow), 0o755)
        top = self.copy()
        self.put(os.path.join('top', 'examples', 'streams', 'a.txt'), '== check: end\n0 schema ok\n')
        status, written, _ = self.tool('streams', os.path.join(self.folder, slow), 'a.txt', top=top, SECONDS_A_STREAM='1')
        self.assertEqual(status, 1)
        self.assertIn('no answer within 1 seconds', written)
