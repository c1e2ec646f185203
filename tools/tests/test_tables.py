"""tools/rules, paths, chain and explain."""
import os
import re
import shutil

from helper import TOP, Case, answered, example, read


class Rules(Case):
    def copy(self):
        """The top of a repository whose pages can be changed."""
        top = os.path.join(self.folder, 'top')
        for name in 'tools', 'docs':
            shutil.copytree(os.path.join(TOP, name), os.path.join(top, name))
        for name in 'crates', 'examples':
            os.symlink(os.path.join(TOP, name), os.path.join(top, name))
        return top

    def change(self, top, name, old, new):
        path = os.path.join(top, 'docs', name)
        with open(path, encoding='utf-8') as file:
            text = file.read()
        self.assertIn(old, text)
        with open(path, 'w', encoding='utf-8') as file:
            file.write(text.replace(old, new, 1))

    def test_they_agree(self):
        status, written, _ = self.tool('rules')
        self.assertEqual(status, 0, written)

    def test_each_code_has_words(self):
        words = next(line for line in read('docs', 'codes.tsv').split('\n') if line.startswith('code\tcvc-id.2\t'))
        for new, error in ('', 'cvc-id.2 has no words'), (words.rsplit('\t', 1)[0] + '\t \n', 'cvc-id.2 has no words'), \
                (words.replace('Structures', 'Datatypes') + '\n', 'cvc-id.2 is of Datatypes'), (f'{words}\n{words}\n', 'stands twice'), \
                (words + '\n' + words.replace('cvc-id.2', 'cvc-id.9') + '\n', 'cvc-id.9 has no row'):
            top = self.copy()
            self.change(top, 'codes.tsv', words + '\n', new)
            status, written, _ = self.tool('rules', top=top)
            self.assertEqual(status, 1)
            self.assertIn(error, written)
            shutil.rmtree(top)

    def test_rows_that_are_wrong(self):
        for old, new, error in ('| `cvc-id.2` |', '| `cvc-id.3` |', 'cvc-id.2 has 0 rows'), ('`ids.txt` |', '`idz.txt` |', 'not in examples/streams/idz.txt'), \
                ('| `cvc-id.2` | ', '| `cvc-id.2` |\n| ', 'too few cells'):
            top = self.copy()
            self.change(top, 'RULES.md', old, new)
            status, written, said = self.tool('rules', top=top)
            self.assertEqual((status, said), (1, ''))
            self.assertIn(error, written)
            shutil.rmtree(top)

    def test_missing(self):
        self.says('rules', 'x', status=64, error='rules: no word is expected')
        top = self.copy()
        os.remove(os.path.join(top, 'docs', 'codes.tsv'))
        self.says('rules', status=66, error='codes.tsv', top=top)
        os.remove(os.path.join(top, 'docs', 'RULES.md'))
        self.says('rules', status=66, error='RULES.md', top=top)


class Paths(Case):
    def copy(self, text):
        top = os.path.join(self.folder, 'top')
        shutil.copytree(os.path.join(TOP, 'tools'), os.path.join(top, 'tools'))
        if text is not None:
            self.put('top/crates.txt', text)
        return top

    def test_counts(self):
        top = self.copy('# a comment: x\na:\nb: a std\nc: a b\n\n')
        self.assertEqual(self.tool('paths', 'c', 'a', top=top), (0, '7 paths from 3 crates\n       4 c\n       1 a\n', ''))

    def test_those_of_the_repository(self):
        self.assertEqual(self.tool('paths')[0], 0)

    def test_words(self):
        self.says('paths', 'no_such_crate', status=64, error='paths: no_such_crate: no crate')
        self.says('paths', status=1, error='stands on itself', top=self.copy('a: b\nb: a\n'))
        shutil.rmtree(os.path.join(self.folder, 'top'))
        self.says('paths', status=66, error='crates.txt: no such file', top=self.copy(None))


class Chain(Case):
    def test_a_chain_is_accepted(self):
        status, written, _ = self.tool('chain', '12')
        self.assertEqual((status, answered('check', written)), (0, (0, 'schema ok\n')))

    def test_the_same_as_a_file(self):
        self.put('c.xsd', self.tool('chain', '-x', '12')[1])
        self.assertEqual(self.tool('chain', 'c.xsd')[1], self.tool('chain', '12')[1].replace('schema\tchain', 'schema\tc.xsd'))
        self.assertEqual(answered('check', self.tool('chain', example('loans.xsd'))[1]), (0, 'schema ok\n'))

    def test_words(self):
        for words in [], ['0'], ['-x'], ['-x', 'y'], ['-x', '0'], ['-q'], ['9999999999']:
            self.assertEqual(self.says('chain', *words, status=64, error='chain: '), '')
        self.says('chain', 'none.xsd', status=66, error='chain: none.xsd: no such file')
        self.put('a.xsd', '<a>')
        self.says('chain', 'a.xsd', status=65, error='chain: a.xsd:1:4: no well-formed XML')


class Explain(Case):
    def test_codes(self):
        status, written, _ = self.tool('explain', 'cvc-complex-type.2.4@3', 'BadName')
        self.assertEqual(status, 0)
        self.assertTrue(written.startswith('cvc-complex-type.2.4 (Structures 3.4.4)\n    the child elements are not those'))
        self.assertEqual(len(re.findall('^BadName$', written, re.M)), 2)
        self.assertRegex(written, r'decided by stuck_codes in crates/\w+/specs/\w+\.antt:\n        cvc-complex-type\.2\.4')

    def test_all(self):
        status, written, _ = self.tool('explain', '--list')
        self.assertEqual((status, written.count('\n')), (0, read('docs', 'codes.tsv').count('\n') - 1))

    def test_words(self):
        self.says('explain', 'cvc-nothing', status=1, error='explain: cvc-nothing: no such code')
        self.says('explain', 'minincl', status=1, error='there are minInclusive-minExclusive')
        self.says('explain', status=64, error='explain: no code is named')
        self.says('explain', '-z', status=64, error='explain: unknown option -z')
