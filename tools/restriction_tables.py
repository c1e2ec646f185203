"""The table restriction.txt of examples/streams: content models, each with one that restricts it or fails to.

A line is `BASE > DERIVED => ANSWER: WHY`: two content models in the words of models.txt, `ok` or the code by which `check` refuses the
second one's type, and why. Before the base may stand groups, as in models.txt. More words are

    none        a type without content; `mixed` before a model, or alone, a mixed type
    simple      a type of simple content
    anyType     a type that adds an attribute to anyType by extension, with the content of anyType
    ^h+m        a reference to the global element h, which has the member m in its substitution group

and behind `#`, with commas between them, properties of an element: its type, built in or one that the file declares by
`NAME := DECLARATIONS`, `nillable`, `abstract`, `fixed=TEXT`, `default=TEXT`, `block=METHOD&METHOD`, `unique=NAME`.

Each line is a stream, in which the type B has the base and the type D restricts it. Where both models are groups with bounds 1 it is
another one too, in which a group redefines that of the base without a reference to itself."""
import re

from stream_tables import KINDS, SCHEMA, Document, Model, bounds_of, refused, stream

BUILTIN = set('anyType anySimpleType string boolean decimal integer short int nonNegativeInteger token NMTOKEN NMTOKENS date ID'.split())
WORDS = ('none', 'mixed', 'simple', 'anyType')
FLAGS = {'nillable', 'abstract'}
TEXTS = ('fixed', 'default', 'block', 'final', 'unique')


class Pair(Model):
    """A base and what is derived from it; the schema's global elements and types stand behind them."""

    def __init__(self, text, declared):
        *groups, pair = [it.strip() for it in text.split(';')]
        self.base, self.derived = pair.split(' > ')
        self.groups = dict(re.split(r'\s*=\s*', group, maxsplit=1) for group in groups)
        self.declared, self.globals, self.heads = declared, {}, {}
        self.has_target = bool(re.search(r't:|##', text)) and '##qualified' not in text
        self.schema = None

    def begin(self, bindings=()):
        """Begins a schema document."""
        target = ['AtargetNamespace urn:t', 'Axmlns urn:t'] if self.has_target else []
        self.schema = Document(SCHEMA + target + list(bindings), 1)

    def leaf(self, head, bounds):
        if not head.startswith('^'):
            super().leaf(head, bounds) if head.startswith('##') or head in self.groups else self.local(head, bounds)
            return
        head, *members = head[1:].split('+')
        self.refer(head, None)
        for member in members:
            self.refer(member, head.partition('#')[0])
        self.schema.begin('xs:element', ref=head.partition('#')[0], **bounds_of(bounds))
        self.schema.end()

    def local(self, text, bounds):
        name = text.partition('#')[0]
        form = {'form': 'qualified'} if name.startswith('t:') else {}
        self.element(text, name=name.removeprefix('t:'), **form, **bounds_of(bounds))

    def refer(self, text, head):
        """Keeps the properties of a global element, and of which one it is a member."""
        name, _, properties = text.partition('#')
        known = self.globals.get(name, ('', None))
        self.globals[name] = properties or known[0], head or known[1]

    def element(self, text, **attributes):
        """An element with the properties behind its name."""
        unique = None
        for part in filter(None, text.partition('#')[2].split(',')):
            key, _, value = part.partition('=')
            if key == 'unique':
                unique = value
            elif key in FLAGS or key in TEXTS:
                attributes[key] = value.replace('&', ' ') if value else 'true'
            else:
                attributes['type'] = ('xs:' if part in BUILTIN else '') + part
        self.schema.begin('xs:element', **attributes)
        if unique:
            self.schema.begin('xs:unique', name=unique)
            for tag, path in ('selector', '*'), ('field', '.'):
                self.schema.begin('xs:' + tag, xpath=path)
                self.schema.end()
            self.schema.end()
        self.schema.end()

    def content(self, text):
        """Writes the content of a type below its element, or below the restriction."""
        if text not in ('none', 'mixed'):
            self.particles(text.removeprefix('mixed '))

    def base_type(self):
        mixed = 'true' if self.base.startswith('mixed') or self.base == 'anyType' else None
        self.schema.begin('xs:complexType', name='B', mixed=mixed)
        if self.base in ('simple', 'anyType'):
            self.schema.begin('xs:simpleContent' if self.base == 'simple' else 'xs:complexContent')
            self.schema.begin('xs:extension', base='xs:string' if self.base == 'simple' else 'xs:anyType')
            self.schema.begin('xs:attribute', name='extra')
            self.schema.end(3)
        else:
            self.content(self.base)
        self.schema.end()

    def derived_type(self):
        """The number of the type."""
        number = self.schema.begin('xs:complexType', name='D', mixed='true' if self.derived.startswith('mixed') else None)
        self.schema.begin('xs:complexContent')
        self.schema.begin('xs:restriction', base='B')
        self.content(self.derived)
        self.schema.end(3)
        return number

    def group(self, name, text):
        self.schema.begin('xs:group', name=name)
        self.particles(text)
        self.schema.end()

    def others(self, elsewhere=()):
        """The groups, global elements and types, as far as they are named here, or in these lines."""
        for name, text in self.groups.items():
            self.group(name, text)
        for name, (properties, head) in self.globals.items():
            self.element(f'{name}#{properties}', name=name, substitutionGroup=head)
        wanted, lines = [], '\n'.join([*self.schema.lines, *elsewhere])
        for name, text in reversed(self.declared.items()):
            if re.search(rf' {name}\b', lines):
                wanted.insert(0, text)
                lines += text.replace('|', '\n')
        for text in wanted:
            self.raw(text)

    def raw(self, text):
        """Declarations as lines, in which `)` ends the element that is open."""
        for line in text.split('|'):
            if line.startswith('('):
                self.schema.begin(line[1:])
            elif line == ')':
                self.schema.end()
            else:
                self.schema.lines.append(line)

    def types(self):
        """The stream of two types, and the number of the second."""
        self.begin()
        self.base_type()
        number = self.derived_type()
        self.others()
        self.schema.lines.append(')xs:schema')
        return self.schema, number

    def is_group(self, text):
        """Whether the model is a group with bounds 1; what is no group stands in a sequence."""
        first, last = text.split()[0], text.split()[-1]
        if first in WORDS:
            return False
        return last == ')' if first in KINDS else re.match(r'\w*', first)[0] not in self.groups

    def redefined(self):
        """The stream of a group that redefines that of the base. What the base names is declared first, as in the stream of types."""
        self.begin()
        self.group('M', self.base)
        original = self.schema
        self.begin()
        self.schema.begin('xs:redefine', schemaLocation='g')
        self.group('M', self.derived)
        self.schema.end()
        redefining = self.schema.lines + [')xs:schema']
        self.schema = original
        self.others(redefining)
        self.schema.lines[0] = 'schema\tg'
        self.schema.lines = redefining + self.schema.lines + [')xs:schema']
        return self.schema


def wanted(number, answer):
    return '0 schema ok' if answer == 'ok' else refused(number, answer)


def restrictions(lines):
    """The streams of the table of restrictions."""
    declared = {}
    for line in lines:
        name, gives, text = line.partition(' := ')
        if gives:
            declared[name] = text
            continue
        text, _, answer = line.partition(' => ')
        answer = answer.partition(':')[0]
        schema, number = Pair(text, declared).types()
        yield line, 'check', stream(schema, None), wanted(number, answer)
        pair = Pair(text, declared)
        if pair.is_group(pair.base) and pair.is_group(pair.derived):
            yield 'redefined: ' + line, 'check', stream(pair.redefined(), None), wanted(3, 'ok' if answer == 'ok' else 'src-redefine.6.2.2')
