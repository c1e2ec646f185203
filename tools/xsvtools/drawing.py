"""Drawn sessions: a document of a stream, and edits of every kind of what is in it."""
import importlib.machinery
import importlib.util
import os
import random
import subprocess

from .program import TOP

STREAMS = os.path.join(TOP, 'tools', 'sessions', 'streams')
KINDS = ['insert'] * 4 + ['remove'] * 3 + ['rename'] * 3 + ['set'] * 3 + ['unset'] * 2 + ['addtext', 'text', 'text']
XSI = 'XMLSchema-instance'


def front_of(stream):
    """The lines of a stream up to the end of its document, as text; None where there is no document."""
    lines = stream.decode('utf-8', 'replace').split('\n')
    if 'document' not in lines:
        return None
    start = lines.index('document')
    ends = [at for at in range(start + 1, len(lines)) if lines[at] in ('edits', 'end')]
    return lines[:ends[0]] if ends else None


def examples():
    """The streams of examples/streams, each with its name."""
    loader = importlib.machinery.SourceFileLoader('streams_tool', os.path.join(TOP, 'tools', 'streams'))
    tool = importlib.util.module_from_spec(importlib.util.spec_from_loader('streams_tool', loader))
    loader.exec_module(tool)
    for file in sorted(os.listdir(os.path.join(TOP, tool.FOLDER))):
        for number, (_, _, stream, _) in enumerate(tool.read_cases(file)):
            yield f'{file} {number}', stream


def fronts(files, opens, most=400):
    """The documents of some files, or of this folder's streams and of examples/streams: each with its name, where `opens` says that
    a session over it opens. Those of more lines than `most` are left out."""
    given = [(os.path.basename(name), open(name, 'rb').read()) for name in files]
    if not files:
        own = sorted(os.listdir(STREAMS))
        given = [(name, open(os.path.join(STREAMS, name), 'rb').read()) for name in own] + list(examples())
    for name, stream in given:
        lines = front_of(stream)
        if lines is not None and len(lines) <= most and opens(lines):
            yield name, lines


def written(lines):
    """The bytes of some lines."""
    return '\n'.join([*lines, '']).encode('utf-8', 'surrogateescape')


def nodes_in(lines):
    """How many nodes some lines are: neighbouring texts are one, and an empty one is none."""
    count, said = 0, ''
    for line in [*lines, '!']:
        if line[:1] == '-':
            said += line[1:]
        elif line[:1] != 'A':
            count += (said != '') + (line[:1] == '(')
            said = ''
    return count


class Drawing:
    """What edits of a document are drawn from: the names, values and texts of its stream."""

    def __init__(self, lines, seed):
        self.random = random.Random(seed)
        start = lines.index('document')
        document, schema = lines[start + 1:], lines[:start]
        said = [line.split(' ', 1)[1] for line in schema if line.startswith(('Aname ', 'Aref ')) and ' ' in line]
        local = [name.split(':')[-1] for name in said]
        self.elements = sorted({line[1:] for line in document if line.startswith('(')} | set(local)) + ['zz']
        prefixes = {name.split(':')[0] for name in self.elements if ':' in name}
        self.elements += [f'{p}:{name}' for p in sorted(prefixes) for name in self.elements if ':' not in name][:12]
        given = [line[1:].split(' ', 1) for line in document if line.startswith('A') and ' ' in line]
        self.attributes = sorted({name for name, _ in given if not name.startswith('xmlns')} | set(local))
        self.bindings = [f'A{name} {value}' for name, value in given if name.startswith('xmlns')]
        values = {value for _, value in given} | {line[1:] for line in document if line.startswith('-')}
        values |= {line.split(' ', 1)[1] for line in schema if line.startswith(('Avalue ', 'Afixed ', 'Adefault ')) and ' ' in line}
        self.values = sorted(values) + ['', '1', '2', 'x', ' 3 ', 'a b', 'true', 'b1']
        self.types = sorted(set(local)) + ['xs:integer', 'xs:string']
        self.xsi = next((line[1:].split(' ')[0].split(':')[-1] for line in self.bindings if line.endswith(XSI)), None)
        self.next = nodes_in(document) + 1
        self.live = list(range(1, self.next))

    def one(self, among):
        return self.random.choice(among)

    def attribute(self):
        """The name and the value of an attribute."""
        if self.xsi and self.random.random() < 0.3:
            if self.random.random() < 0.7:
                return f'{self.xsi}:type', self.one(self.types)
            return f'{self.xsi}:nil', self.one(['true', 'false', '1'])
        return self.one(self.attributes or ['a']), self.one(self.values)

    def block(self, depth=0):
        """The lines of an element."""
        name, seen = self.one(self.elements), set()
        lines = ['(' + name]
        if depth == 0:
            lines += [line for line in self.bindings if self.random.random() < 0.5]
        for _ in range(self.one([0, 0, 1, 1, 2])):
            attribute, value = self.attribute()
            if attribute not in seen:
                lines.append(f'A{attribute} {value}')
                seen.add(attribute)
        for _ in range(self.one([0, 0, 1, 1, 2, 3]) if depth < 3 else 0):
            lines += self.block(depth + 1) if self.random.random() < 0.7 else ['-' + self.one(self.values)]
        return [*lines, ')' + name]

    def edit(self):
        """The lines of an edit, most likely of a node that is there, and how many nodes it brings."""
        node = self.one(self.live) if self.random.random() < 0.95 else self.random.randrange(0, self.next + 3)
        kind = self.one(KINDS)
        if kind == 'insert':
            block = self.block()
            return [f'insert {node} {self.one([0, 0, 0, 1, 1, 2, 3])}', *block, '.'], nodes_in(block)
        if kind == 'addtext':
            return [f'addtext {node} {self.one([0, 0, 1, 2])} {self.one(self.values)}'], 1
        if kind == 'set':
            return ['set {} {} {}'.format(node, *self.attribute())], 0
        rest = {'text': self.values, 'rename': self.elements, 'unset': [self.attribute()[0]], 'remove': None}[kind]
        return [f'{kind} {node}' if rest is None else f'{kind} {node} {self.one(rest)}'], 0

    def question(self):
        """A line that asks."""
        return self.one(['errors', 'total', f'assess {self.one(self.live)}', f'assess {self.random.randrange(0, self.next + 2)}'])

    def answered(self, lines, more, answer):
        """Takes in what an edit was answered."""
        if answer.startswith('ok'):
            self.live += range(self.next, self.next + more)
            self.next += more
        if lines[0].startswith('remove') or answer.startswith('no 1 '):
            node = int(lines[0].split(' ')[1])
            self.live = [live for live in self.live if live != node or live == 1]


class Running:
    """A session of the program that is asked line by line."""

    def __init__(self, program, lines):
        self.ran = subprocess.Popen([program, 'session'], stdin=subprocess.PIPE, stdout=subprocess.PIPE)
        self.ran.stdin.write(written([*lines, 'edits']))
        self.ran.stdin.flush()
        for _ in range(2):
            self.ran.stdout.readline()

    def ask(self, lines):
        """The line that answers some lines; none where the program has ended."""
        try:
            self.ran.stdin.write(written(lines))
            self.ran.stdin.flush()
        except BrokenPipeError:
            return ''
        return self.ran.stdout.readline().decode('utf-8', 'replace')

    def close(self):
        self.ran.kill()
        self.ran.communicate()


def draw_edits(program, lines, seed, count):
    """So many edits of a document, each as its lines, with a question. Each is asked of the program first, so that most are of nodes
    that are there."""
    drawing, running = Drawing(lines, seed), Running(program, lines)
    for _ in range(count):
        edit, more = drawing.edit()
        drawing.answered(edit, more, running.ask(edit))
        yield edit, drawing.question()
    running.close()
