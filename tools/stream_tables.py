"""The tables of examples/streams: types.txt, of simple types, and models.txt, of content models.

In types.txt a line makes a simple type in steps, with ` / ` between them. A step is the name of a built-in type; `restrict`, or facets as
`kind=value`, or `kind!=value` where the facet is fixed, which restrict the type before; `[]`, the list of it; `||` or `|||`, the union of
the last two or three types; `^`, the type before once more. Before it may stand `@N`, its place among the types of the document, which
goes by steps otherwise, and `#METHOD`, its final. Behind ` => ` stands `ok`, or the step and the facet that are refused (facet 0 is the
type itself), as `3.1 CODE`; or else there are literals below, `?LITERAL` each, and behind a tab `kept` or the code of the value. The
prefix `p` is bound. Texts have the escapes of the stream, and `%HEX;` for a character.

In models.txt a line is a content model, ` => ` and the code by which it is refused or `ok`, or behind ` / ` words of child names: `seq(`,
`or(` and `all(` open a group that `)` closes, with bounds behind it as behind each particle: `?`, `*`, `+`, `{2}`, `{2,5}` or `{2,*}`. An
element is its name, with `t:` if it is in the target namespace; behind `#` may stand its type, string or decimal, or `nillable`; `a+b` is a
reference to `a` with the member `b` in its substitution group. A wildcard is `##any`, `##other`, or a list of `target`, `local`, `p` and
`q`, as `##target+local`, or `##none`; `##qualified` is what is other than absent, in a schema without a target; behind `!` stands `lax` or
`skip`. Before the model may stand groups, as `G = seq( a b );`, to which it refers by name.
A word is of child names, `a*5` for five; behind a name stands `!` where the child has to be declared and is not, `~` where nothing is
asked of it and nothing known, `-` where it is skipped. At its end stands `@N`, the place where the children get stuck; `@empty` where
the content is empty and there are some."""
import re

SCHEMA = ['schema\ts', '(xs:schema', 'Axmlns:xs http://www.w3.org/2001/XMLSchema']
STATUS = {'x-limit': ('4', 'limit'), 'x-unsupported': ('5', 'unsupported')}


class Document:
    """The lines of a tree, whose nodes are counted."""

    def __init__(self, lines=(), count=0):
        self.lines, self.count, self.open = list(lines), count, []

    def begin(self, tag, **attributes):
        """Begins an element; its number."""
        self.lines.append('(' + tag)
        self.lines += [f'A{key} {value}' for key, value in attributes.items() if value is not None]
        self.open.append(tag)
        self.count += 1
        return self.count

    def end(self, times=1):
        for _ in range(times):
            self.lines.append(')' + self.open.pop())

    def text(self, text):
        if text:
            self.lines.append('-' + text)
            self.count += 1


def refused(number, code):
    status, word = STATUS.get(code.split('.')[0], ('2', 'refused'))
    return f'{status} schema {word} 1 {number} {code}'


def stream(schema, document):
    lines = schema.lines + ([] if document is None else ['document', *document.lines]) + ['end', '']
    return '\n'.join(lines).encode()


def answer(records, total):
    """What `assess` says: the record lines, the count of codes, and the end."""
    end = f'invalid {total}' if total else 'valid 0'
    return '|'.join([f'{1 if total else 0} schema ok', *records, f'total {total}', f'end {end}'])


# Simple types.

FACETS = ('length minLength maxLength pattern enumeration whiteSpace maxInclusive maxExclusive minExclusive minInclusive totalDigits '
          'fractionDigits').split()
FACET = re.compile(rf'({"|".join(FACETS)})(!?)=(.*?)(?= (?:{"|".join(FACETS)})!?=|$)')


class Steps:
    """The types that a line makes."""

    def __init__(self, line):
        self.made, self.pile = [], []
        for number, text in enumerate(line.split(' / '), 1):
            words = re.fullmatch(r'(?:@(\d+) )?(?:#(\w+) )?(.*)', text)
            self.step(number, int(words[1] or number), words[2], words[3])

    def step(self, number, place, final, text):
        facets = FACET.findall(text)
        if text == '^':
            self.pile.append(self.pile[-1])
        elif text[0] == '|':
            self.add(number, place, final, 'union', {'memberTypes': ' '.join(self.taken(len(text)))})
        elif text == '[]':
            self.add(number, place, final, 'list', {'itemType': self.pile.pop()})
        elif facets or text == 'restrict':
            self.add(number, place, final, 'restriction', {'base': self.pile.pop()}, facets)
        else:
            self.pile.append('xs:' + text)

    def taken(self, count):
        members = self.pile[-count:]
        del self.pile[-count:]
        return members

    def add(self, number, place, final, way, parts, facets=()):
        self.made.append((place, number, final, way, parts, facets))
        self.pile.append(f't{number}')

    def declare(self, schema):
        """Declares them in order of their places; the number of the element of each step and facet."""
        numbers = {}
        for _, number, final, way, parts, facets in sorted(self.made, key=lambda it: it[0]):
            numbers[number, 0] = schema.begin('xs:simpleType', name=f't{number}', final=final)
            schema.begin('xs:' + way, **parts)
            for facet, (kind, fixed, value) in enumerate(facets, 1):
                numbers[number, facet] = schema.begin('xs:' + kind, value=value, fixed='true' if fixed else None)
                schema.end()
            schema.end(2)
        return numbers


def type_stream(line):
    """The stream of a type, and whether it is refused."""
    text, _, wanted = line.partition(' => ')
    schema = Document(SCHEMA + ['Axmlns:p urn:p'], 1)
    numbers = Steps(text).declare(schema)
    schema.lines.append(')xs:schema')
    place, _, code = wanted.partition(' ')
    step, _, facet = place.partition('.')
    return 'check', stream(schema, None), '0 schema ok' if place == 'ok' else refused(numbers[int(step), int(facet)], code)


def literal_stream(line, literals):
    """The stream of a type with a document of its literals, and what is said of each."""
    schema = Document(SCHEMA + ['Axmlns:p urn:p'], 1)
    steps = Steps(line)
    steps.declare(schema)
    schema.begin('xs:element', name='d')
    kind = schema.begin('xs:complexType')
    schema.begin('xs:sequence')
    schema.begin('xs:element', name='r', type=steps.pile[-1], maxOccurs='unbounded')
    schema.end(4)
    schema.lines.append(')xs:schema')
    document, records, total = Document(), [], 0
    document.begin('d', **{'xmlns:p': 'urn:p'})
    for case in literals:
        literal, _, code = case[1:].rpartition('\t')
        number = document.begin('r')
        document.text(literal)
        document.end()
        record = 'valid full given -' if code == 'kept' else f'invalid full given cvc-type.3.1.3,{code}'
        records.append(f'e {number} r {steps.pile[-1]} {record}')
        total += 0 if code == 'kept' else 2
    document.end()
    records.insert(0, f'e 1 d #1.{kind} {"invalid" if total else "valid"} full given -')
    return 'assess', stream(schema, document), answer(records, total)


def types(lines):
    """The streams of the table of simple types."""
    line, literals = None, []
    for each in lines + ['']:
        each = re.sub('%([0-9A-F]+);', lambda it: chr(int(it[1], 16)), each)
        if each.startswith('?'):
            literals.append(each)
            continue
        if literals:
            yield (line, *literal_stream(line, literals))
        line, literals = each, []
        if ' => ' in each:
            yield (each, *type_stream(each))


# Content models.

KINDS = {'seq(': 'sequence', 'or(': 'choice', 'all(': 'all'}
PROCESSED = {'': 'strict', 'lax': 'lax', 'skip': 'skip'}
SPACES = {'any': '##any', 'other': '##other', 'qualified': '##other', 'none': '', 'target': '##targetNamespace', 'local': '##local',
          'p': 'urn:p', 'q': 'urn:q'}
BINDINGS = {'xmlns:t': 'urn:t', 'xmlns:p': 'urn:p', 'xmlns:q': 'urn:q'}
MARKS = {'!': 'xs:anyType invalid none given cvc-elt.1', '~': 'xs:anyType notKnown none given -', '-': '- notKnown none given -'}


def bounds_of(text):
    """minOccurs and maxOccurs, where they are not 1."""
    if text.startswith('{'):
        least, comma, most = text[1:-1].partition(',')
        most = most if comma else least
    else:
        least, most = {'': ('1', '1'), '?': ('0', '1'), '*': ('0', '*'), '+': ('1', '*')}[text]
    bounds = {'minOccurs': least, 'maxOccurs': most.replace('*', 'unbounded')}
    return {key: value for key, value in bounds.items() if value != '1'}


class Model:
    """A content model that is written into a schema."""

    def __init__(self, text, schema):
        *groups, self.model = [it.strip() for it in text.split(';')]
        self.groups = dict(re.split(r'\s*=\s*', group, maxsplit=1) for group in groups)
        self.schema, self.heads = schema, {}

    def particles(self, text):
        """Writes the particles; they stand in a sequence where the first of them is no group."""
        words = text.split()
        alone = words[0] not in KINDS and words[0].rstrip('?*+') not in self.groups
        words = ['seq(', *words, ')'] if alone else words
        for at, word in enumerate(words):
            if word in KINDS:
                self.schema.begin('xs:' + KINDS[word], **self.bounds_behind(words, at))
            elif word.startswith(')'):
                self.schema.end()
            else:
                self.leaf(*re.fullmatch(r'(.*?)(\{.*\}|[?*+]?)', word).groups())

    def bounds_behind(self, words, at):
        """The bounds of the group that opens at a word."""
        depth = 0
        for word in words[at:]:
            depth += (word in KINDS) - word.startswith(')')
            if depth == 0:
                return bounds_of(word[1:])

    def leaf(self, head, bounds):
        bounds = bounds_of(bounds)
        if head.startswith('##'):
            spaces, _, process = head[2:].partition('!')
            spaces = ' '.join(SPACES[it] for it in spaces.split('+'))
            self.schema.begin('xs:any', namespace=spaces, processContents=PROCESSED[process], **bounds)
        elif head in self.groups:
            self.schema.begin('xs:group', ref=head, **bounds)
        elif '+' in head:
            head, *members = head.split('+')
            self.heads.setdefault(head, members)
            self.schema.begin('xs:element', ref=head, **bounds)
        else:
            self.schema.begin('xs:element', **self.declaration(head), **bounds)
        self.schema.end()

    def declaration(self, text):
        name, _, kind = text.partition('#')
        made = {'name': name.removeprefix('t:')}
        made |= {'form': 'qualified'} if name.startswith('t:') else {}
        return made | ({'nillable': 'true'} if kind == 'nillable' else {'type': 'xs:' + kind} if kind else {})

    def write(self):
        """Writes the element `word` with the model, the groups and the heads with their members; the number of its type."""
        self.schema.begin('xs:element', name='word')
        number = self.schema.begin('xs:complexType')
        self.particles(self.model)
        self.schema.end(2)
        for name, text in self.groups.items():
            self.schema.begin('xs:group', name=name)
            self.particles(text)
            self.schema.end()
        for head, members in self.heads.items():
            self.schema.begin('xs:element', name=head)
            self.schema.end()
            for member in members:
                self.schema.begin('xs:element', **self.declaration(member), substitutionGroup=head)
                self.schema.end()
        return number


def named(word):
    """A name of the document as it is reported."""
    prefix, _, local = word.rpartition(':')
    return (f'{{urn:{prefix}}}' if prefix else '') + local


def add_word(document, records, word, number):
    """An element with the children of a word; the count of codes."""
    names, stuck = re.fullmatch(r'(.*?) ?(?:@(\w+))?', word).groups()
    element = document.open[0].removesuffix('s')
    at, total, children = document.begin(element), 0, []
    for name in names.split():
        name, _, times = name.partition('*')
        for _ in range(int(times or 1)):
            mark = name[-1] if name[-1] in MARKS else ''
            child = document.begin(name.rstrip('!~-'))
            document.end()
            total += mark == '!'
            children.append(f'e {child} {named(name.rstrip("!~-"))} {MARKS.get(mark, "xs:anyType valid full given -")}')
    document.end()
    code = '-' if stuck is None else 'cvc-complex-type.2.1' if stuck == 'empty' else f'cvc-complex-type.2.4@{stuck}'
    far = 'partial' if any(' none ' in it for it in children) else 'full'
    total += stuck is not None
    records.append(f'e {at} {named(element)} #1.{number} {"invalid" if total else "valid"} {far} given {code}')
    records += children
    return total


def model_stream(line):
    """The stream of a model, and the answer."""
    text, gives, code = line.partition(' => ')
    model, *words = [it.strip() for it in text.split(' /')]
    has_target = bool(re.search(r't:|##', line)) and '##qualified' not in model
    schema = Document(SCHEMA + ['AtargetNamespace urn:t'] * has_target + ['Axmlns urn:t'] * has_target, 1)
    number = Model(model, schema).write()
    if gives:
        schema.lines.append(')xs:schema')
        # The `all` itself is named, which stands in the type.
        number += code == 'x-limit.all'
        return 'check', stream(schema, None), '0 schema ok' if code == 'ok' else refused(number, code)
    schema.begin('xs:element', name='words')
    kind = schema.begin('xs:complexType')
    schema.begin('xs:sequence')
    schema.begin('xs:element', ref='word', maxOccurs='unbounded')
    schema.end(4)
    schema.lines.append(')xs:schema')
    document, records, total = Document(), [], 0
    root = 't:words' if has_target else 'words'
    document.begin(root, **BINDINGS)
    for word in words:
        total += add_word(document, records, word, number)
    document.end()
    far = 'partial' if any(' none ' in it or ' partial ' in it for it in records) else 'full'
    records.insert(0, f'e 1 {named(root)} #1.{kind} {"invalid" if total else "valid"} {far} given -')
    return 'assess', stream(schema, document), answer(records, total)


def models(lines):
    """The streams of the table of content models."""
    for line in lines:
        yield (line, *model_stream(line))
