"""tools/sizes, rooms, compare and build, and what the pages say of commands."""
import os
import re
import shutil

from helper import PROGRAM, TOP, Case, answered, example, read


class Sizes(Case):
    def copy(self, times=''):
        top = os.path.join(self.folder, 'top')
        shutil.copytree(os.path.join(TOP, 'tools'), os.path.join(top, 'tools'))
        self.put('top/crates.txt', '# Ground.\na: std\nb: a\n')
        self.put('top/crates/a/src/lib.rt', 'fn one() {}\n\n#[test]\nfn two() {}\n')
        self.put('top/crates/a/specs/Lib.antt', 'x\n')
        self.put('top/crates/a/must-fail/c.edit', '')
        self.put('top/crates/b/src/deep/lib.rt', '//\n')
        self.put('top/crates/b/out/lib.rt', '//\n')
        self.put('top/edits/b/d.edit', '')
        self.put('top/docs/MAP.md', 'front\n<!-- sizes -->\nold\n<!-- sizes end -->\nbehind\n')
        if times:
            self.put('top/docs/times.txt', times)
        return top

    def test_a_table(self):
        top = self.copy('# words\na 7\nb 3.6 - 20\n')
        rows = ['| `a` | 4 | 1 | 0 | 1 | 0 | 1 | 7 |  |  |', '| `b` | 1 | 0 | 0 | 0 | 1 | 0 | 4 |  | 20 |', '| all | 5 | 1 | 0 | 1 | 1 | 1 | 11 |  | 20 |']
        self.assertEqual(self.tool('sizes', top=top)[1].split('\n')[2:-1], rows)
        self.assertEqual(self.tool('sizes', '--check', top=top)[0], 1)
        self.assertEqual(self.tool('sizes', '--write', top=top)[0], 0)
        self.assertEqual(self.tool('sizes', '--check', top=top)[0], 0)
        with open(os.path.join(top, 'docs', 'MAP.md'), encoding='utf-8') as file:
            page = file.read()
        self.assertTrue(page.startswith('front\n<!-- sizes -->\n| crate | code |') and page.endswith(f'{rows[-1]}\n<!-- sizes end -->\nbehind\n'))

    def test_words(self):
        self.says('sizes', 'x', status=64, error='sizes: unknown words x')
        for times, error in ('c 1\n', 'docs/times.txt: c is no crate'), ('a\n', 'docs/times.txt:1: '), ('a x\n', 'docs/times.txt:1: '):
            top = self.copy(times)
            self.says('sizes', status=66, error=error, top=top)
            shutil.rmtree(top)
        top = self.copy()
        self.put('top/docs/MAP.md', 'none\n')
        self.says('sizes', '--write', status=66, error='docs/MAP.md: the lines', top=top)

    def test_those_of_the_repository(self):
        self.assertEqual(self.tool('sizes')[0], 0)


class Rooms(Case):
    def copy(self):
        top = os.path.join(self.folder, 'top')
        shutil.copytree(os.path.join(TOP, 'tools'), os.path.join(top, 'tools'))
        self.put('top/crates.txt', '# Ground.\n# The first.\na: std\n# The second.\nb: a\n')
        self.put('top/crates/a/README.md', '# a\n\nWords.\n')
        self.put('top/crates/a/specs/Lib.antt', 'pub mod Z\n')
        self.put('top/crates/a/specs/Z.antt', '')
        self.put('top/crates/b/README.md', '# b\n\n## Callers and definitions\n\nOld.\n')
        self.put('top/crates/README.md', '# Plan\n\n- **`a`**: old\n- **`gone`**: old\n\nBehind.\n')
        return top

    def test_pages(self):
        top = self.copy()
        self.assertEqual(self.tool('rooms', '--check', top=top)[0], 1)
        self.assertEqual(self.tool('rooms', '--write', top=top)[0], 0)
        self.assertEqual(self.tool('rooms', '--check', top=top)[0], 0)
        rows = ['- **`a`**: The first. Named by `b`. Definitions: `Z`.', '- **`b`**: The second. Nothing names it.']
        self.assertEqual(self.tool('rooms', top=top)[1], '\n'.join(['# Plan', '', *rows, '', 'Behind.', '']))
        for crate, text in ('a', '# a\n\nWords.\n\n## Callers and definitions\n\nNamed by `b`. Its definitions, which a reader of contracts trusts, are in `specs/`: `Z`.\n'), ('b', '# b\n\n## Callers and definitions\n\nNo crate names it. It has no definitions of its own.\n'):
            with open(os.path.join(top, 'crates', crate, 'README.md'), encoding='utf-8') as file:
                self.assertEqual(file.read(), text)

    def test_words(self):
        self.says('rooms', 'x', status=64, error='rooms: the words are')
        top = self.copy()
        os.remove(os.path.join(top, 'crates', 'b', 'README.md'))
        self.says('rooms', status=66, error='crates/b/README.md: ', top=top)

    def test_those_of_the_repository(self):
        self.assertEqual(self.tool('rooms', '--check')[0], 0)


class Compare(Case):
    def test_words(self):
        for words in [], ['a.xsd'], ['-z', 'a.xsd', 'a.xml'], ['--changed', 'x', 'a.xsd', 'a.xml']:
            self.says('compare', *words, status=64, error='compare: ')
        self.says('compare', 'a.xsd', 'a.xml', status=66, error='no such file')
        # Without xmllint it says what is missing.
        os.symlink(shutil.which('python3'), os.path.join(self.folder, 'python3'))
        os.symlink(shutil.which('env'), os.path.join(self.folder, 'env'))
        self.says('compare', example('order.xsd'), example('order.xml'), status=69, error='xmllint is missing', PATH=self.folder)


class Build(Case):
    def test_words(self):
        self.says('build', '-z', status=2, error='build: unknown option -z')
        self.says('build', 'a', 'b', status=2, error='build: one program at most')
        self.says('build', '.', status=2, error='is a folder')
        self.assertIn('WITHOUT proof', self.tool('build', '--help')[1])

    def test_no_kit(self):
        for name in 'sh', 'dirname', 'realpath', 'python3', 'git', 'tar':
            os.symlink(shutil.which(name), os.path.join(self.folder, name))
        self.says('build', 'a', status=3, error='build: rt is missing', PATH=self.folder)


class Pages(Case):
    def test_the_readme_names_what_is_there(self):
        for page in ['README.md'] + [os.path.join('docs', it) for it in os.listdir(os.path.join(TOP, 'docs')) if it.endswith('.md')]:
            text = read(page)
            for tool in re.findall(r'\btools/(\w+)', text):
                self.assertTrue(os.path.exists(os.path.join(TOP, 'tools', tool)) or os.path.exists(os.path.join(TOP, 'tools', tool + '.py')), f'{page}: tools/{tool}')
            for place in re.findall(r'\]\(([\w/.]+\.(?:md|tsv|txt))\)', text):
                self.assertTrue(os.path.exists(os.path.join(TOP, os.path.dirname(page), place)), f'{page}: {place}')

    def test_the_order_of_the_readme(self):
        stream = self.tool('stream', example('order.xsd'), example('order.xml'))[1]
        self.assertIn('\n'.join('    ' + line for line in answered('assess', stream)[1].split('\n')[:-1]), read('README.md'))

    def test_the_errors_of_the_readme(self):
        text = read('README.md')
        shown = re.findall(r'^    loans\.xml:\d+:\d+: error: .*$', text, re.M)
        self.assertTrue(shown)
        changed = read('examples', 'loans.xml').replace('<value>48000<', '<value>-1<').replace('<number>RV-1950-12</number>', '')
        self.put('loans.xml', changed)
        written = self.tool('validate', example('loans.xsd'), 'loans.xml')[1]
        self.assertEqual(['    ' + line for line in written.split('\n')[:-2]], shown)

    def test_the_program_is_there(self):
        self.assertTrue(os.access(PROGRAM, os.X_OK))


class Chapters(Case):
    def test_pages(self):
        top = os.path.join(self.folder, 'top')
        for name in 'tools', 'docs':
            shutil.copytree(os.path.join(TOP, name), os.path.join(top, name))
        self.assertEqual(self.tool('chapters', '--write', top=top)[0], 0)
        self.assertEqual(self.tool('chapters', '--check', top=top)[0], 0)
        self.put('top/docs/chapters/old.md', 'old\n')
        self.put('top/docs/chapters/own.md', 'old\n')
        status, written, _ = self.tool('chapters', '--check', top=top)
        self.assertEqual((status, written.count('not as it should be')), (1, 2))
        self.assertEqual(self.tool('chapters', '--write', top=top)[0], 0)
        self.assertFalse(os.path.exists(os.path.join(top, 'docs', 'chapters', 'old.md')))
        with open(os.path.join(top, 'docs', 'chapters', 'structures-3.3.md'), encoding='utf-8') as file:
            self.assertIn('| `cvc-elt.1` | no element of this name is declared | [`', file.read())

    def test_words(self):
        self.says('chapters', status=64, error='chapters: --write or --check')
        self.says('chapters', 'x', status=64, error='chapters: unknown words x')
