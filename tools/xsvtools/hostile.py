"""Streams that are small and made to take long or much memory: each by its numbers, at its size and at another."""
from collections.abc import Callable
from dataclasses import dataclass, field

XS = 'xmlns:xs http://www.w3.org/2001/XMLSchema'
# What a stream may take, and how many times as long one of twice the size.
SECONDS, MEGABYTES, GROWTH = 2.0, 300, 2.5


@dataclass
class Hostile:
    """A stream: the word of the command line, its numbers, those that are others at the size it is compared with, which is twice its
    own or half of it, and why not all of them are."""

    make: Callable[..., list[str]]
    word: str
    once: dict[str, int]
    other: dict[str, int]
    kept: str = ''
    seconds: float = SECONDS
    megabytes: int = MEGABYTES
    compared: dict[str, int] = field(init=False)

    def __post_init__(self):
        self.compared = {**self.once, **self.other}

    def is_half(self):
        """Whether it is compared with a smaller one."""
        return all(number < self.once[name] for name, number in self.other.items())

    def written(self, numbers):
        """Its bytes, for these numbers."""
        return '\n'.join([*self.make(**numbers), 'end', '']).encode()

    def told(self):
        """What is other at the other size, in words."""
        return ', '.join(f'{name} {self.once[name]:,} to {number:,}' for name, number in self.other.items())


STREAMS = {}


def hostile(word, other=None, kept='', bars=(SECONDS, MEGABYTES), **once):
    """Makes a function of its numbers one of the streams. It is compared with that of the other numbers; of twice all numbers, where
    none are said."""
    def named(make):
        doubled = other or {name: 2 * number for name, number in once.items()}
        STREAMS[make.__name__] = Hostile(make, word, once, doubled, kept, *bars)
        return make
    return named


def element(tag, *parts):
    """The lines of an element: of its attributes, which are texts, and of its content, which are lines."""
    said = ['A' + it for it in parts if isinstance(it, str)]
    inside = [line for it in parts if not isinstance(it, str) for line in it]
    return [f'({tag}', *said, *inside, f'){tag}']


def xs(tag, *parts):
    return element('xs:' + tag, *parts)


def each(count, lines, first=0):
    """What a function gives for so many numbers, one behind the other."""
    return [line for number in range(first, first + count) for line in lines(number)]


def schema(*declarations, location='s'):
    return ['schema\t' + location, *xs('schema', XS, *declarations)]


def document(*parts):
    return ['document', *element('r', *parts)]


def restriction(base, *parts):
    return xs('restriction', f'base {base}', *parts)


def pattern(text):
    return xs('pattern', f'value {text}')


def member(number):
    """An element of the whole schema, and what names it where it may be absent."""
    return xs('element', f'name m{number}', 'type xs:string')


def may_be(number):
    return xs('element', f'ref m{number}', 'minOccurs 0')


def many(name, *parts):
    """The element r, which has any number of others."""
    return xs('element', 'name r', xs('complexType', xs('sequence', xs('element', name, *parts, 'minOccurs 0', 'maxOccurs unbounded'))))


def restricted(name, base, content):
    return xs('complexType', f'name {name}', xs('complexContent', restriction(base, content)))


def dense(positions):
    """A pattern in which each position may follow each."""
    return pattern('(' + '|'.join(['a'] * positions) + ')*')


def of_pattern(*patterns):
    """A type with patterns, and the element r of the type."""
    return schema(xs('simpleType', 'name A', restriction('xs:string', *patterns)), xs('element', 'name r', 'type A'))


@hostile('check', names=36000)
def any_long(names):
    """Two wildcards with long lists of namespaces that have none in common."""
    of = lambda letter: xs('any', 'namespace ' + ' '.join(f'{letter}{number}' for number in range(names)))
    return schema(xs('complexType', 'name T', xs('choice', of('u'), of('v'))))


@hostile('session', children=120000, commands=2200, other={'commands': 4400}, kept='131,072 nodes')
def assess_late(children, commands):
    """The last children of a long document, asked for again and again."""
    return [*schema(many('name a', 'type xs:string')), *document(['(a', ')a'] * children), 'edits', *[f'assess {children - 1}'] * commands]


@hostile('session', elements=2800, attributes=2800, other={'elements': 5600}, kept='each element has each default', bars=(4.0, 600))
def attr_defaults(elements, attributes):
    """Many elements, none of which has the many attributes that have defaults."""
    default = lambda number: xs('attribute', f'name a{number}', 'default x', 'type xs:string')
    return [*schema(many('ref e'), xs('element', 'name e', xs('complexType', each(attributes, default)))), *document(['(e', ')e'] * elements)]


@hostile('check', attributes=2200, types=2200)
def attr_types_by_group(attributes, types):
    """Types that have all attributes of one group, and one of their own."""
    group = xs('attributeGroup', 'name G', each(attributes, lambda number: xs('attribute', f'name a{number}')))
    own = lambda number: xs('complexType', f'name T{number}', xs('attributeGroup', 'ref G'), xs('attribute', f'name b{number}'))
    return schema(group, each(types, own))


@hostile('check', types=1000)
def chain_simple_pattern(types):
    """Types that restrict one another, each by a pattern."""
    one = lambda number: xs('simpleType', f'name T{number}', restriction(f'T{number - 1}' if number else 'xs:string', pattern('a*')))
    return schema(each(types, one))


@hostile('check', types=20, positions=4096, other={'types': 40}, kept='4,096 positions')
def dense_inherited(types, positions):
    """Types that restrict one with a dense pattern."""
    heir = lambda number: xs('simpleType', f'name B{number}', restriction('A'))
    return schema(xs('simpleType', 'name A', restriction('xs:string', dense(positions))), each(types, heir))


@hostile('check', patterns=20, positions=4096, other={'patterns': 40}, kept='4,096 positions')
def dense_many(patterns, positions):
    """A type with many dense patterns."""
    return schema(xs('simpleType', 'name A', restriction('xs:string', *[dense(positions)] * patterns)))


@hostile('session', elements=1000, letters=1000000, other={'elements': 2000}, kept='1,048,576 bytes a line')
def doc_names_mb(elements, letters):
    """Elements whose names are in a namespace of a million letters."""
    named = each(elements, lambda number: element(f'p:a{number}'))
    return [*schema(xs('element', 'name r', 'type xs:string')), *document('xmlns:p ' + 'u' * letters, named)]


@hostile('check', values=3500, types=3500)
def enum_inherited(values, types):
    """Types that restrict one with many values."""
    value = lambda number: xs('enumeration', f'value v{number}')
    heir = lambda number: xs('simpleType', f'name B{number}', restriction('A'))
    return schema(xs('simpleType', 'name A', restriction('xs:string', each(values, value))), each(types, heir))


@hostile('session', values=15000, elements=15000)
def enum_texts(values, elements):
    """Elements whose value is the last of many."""
    value = lambda number: xs('enumeration', f'value v{number}')
    of = xs('simpleType', 'name A', restriction('xs:string', each(values, value)))
    return [*schema(of, many('name q', 'type A')), *document(['(q', f'-v{values - 1}', ')q'] * elements)]


@hostile('session', blocks=140, nodes=500, other={'blocks': 280, 'nodes': 465}, kept='131,072 nodes')
def insert_big(blocks, nodes):
    """Blocks that are inserted one after another."""
    block = ['insert 1 0', *element('b', ['(a', ')a'] * nodes), '.']
    return [*schema(many('name a', 'type xs:string')), *document(), 'edits', *block * blocks]


@hostile('check', types=330, elements=60, other={'types': 660})
def local_decls(types, elements):
    """Types with elements of their own."""
    of = lambda here: xs('complexType', f'name T{here}', xs('sequence', each(elements, lambda number: xs('element', f'name e{here}_{number}', 'type xs:string'))))
    return schema(each(types, of))


@hostile('check', types=320, occurrences=1000, other={'types': 640}, kept='1,000 occurrences')
def models_2000(types, occurrences):
    """Types whose automata have as many states as they may."""
    one = xs('element', 'name a', 'type xs:string', f'minOccurs {occurrences}', f'maxOccurs {occurrences}')
    return schema(each(types, lambda number: xs('complexType', f'name T{number}', xs('sequence', one, one))))


@hostile('session', patterns=24000, letters=2400, other={'patterns': 48000}, kept='each pattern takes each letter')
def pat_60000(patterns, letters):
    """A text, and many patterns that it matches none of."""
    of = xs('simpleType', restriction('xs:string', each(patterns, lambda number: pattern(f'a*b?c{number}'))))
    return [*schema(xs('element', 'name r', of)), *document(['-' + 'a' * letters])]


@hostile('session', letters=110000, occurrences=2000, other={'letters': 220000}, kept='4,096 positions')
def pat_blowup_text(letters, occurrences):
    """A text, and a pattern whose deterministic automaton is too large to be made."""
    return [*of_pattern(pattern(f'(a|b)*a(a|b){{{occurrences}}}')), *document(['-' + 'ab' * (letters // 2)])]


@hostile('session', letters=100, positions=4096, other={'letters': 200}, kept='4,096 positions')
def pat_dense_text(letters, positions):
    """A text, and a dense pattern."""
    return [*of_pattern(dense(positions)), *document(['-' + 'a' * letters])]


@hostile('check', positions=2048)
def pat_optional(positions):
    """A pattern whose positions may all be absent."""
    return of_pattern(pattern('a?' * positions))


@hostile('check', stars=40, positions=4096, other={'stars': 80}, kept='4,096 positions')
def pat_star_times_alternation(stars, positions):
    """Stars around stars, around an alternation."""
    return of_pattern(pattern('(' * stars + '|'.join(['a'] * positions) + ')*' * stars))


@hostile('check', levels=15, elements=1, other={'levels': 16}, kept='what is laid out doubles')
def redefine_doubling(levels, elements):
    """A group that is redefined without itself, and groups that name the one below twice."""
    below = lambda number: xs('group', f'name g{number}', xs('sequence', *[xs('group', f'ref g{number - 1}')] * 2))
    least = xs('group', 'name g0', xs('sequence', *[xs('element', 'name a', 'type xs:string')] * elements))
    redefined = schema(xs('redefine', 'schemaLocation t', below(levels)))
    return [*redefined, *schema(least, each(levels, below, 1), location='t')]


@hostile('check', types=1400, members=100, other={'types': 700}, kept='cells of all automata')
def restrict_group100s(types, members):
    """Types that restrict one to the same group of elements that may be absent."""
    group = xs('group', 'name g', xs('sequence', each(members, may_be)))
    named = xs('group', 'ref g')
    return schema(each(members, member), group, xs('complexType', 'name B', named), each(types, lambda number: restricted(f'T{number}', 'B', named)))


@hostile('check', types=1, members=1700, other={'types': 2}, kept='2,048 positions')
def restrict_one(types, members):
    """A type that restricts one to the same long sequence of elements that may be absent."""
    content = xs('sequence', each(members, may_be))
    heir = lambda number: restricted(f'T{number or ""}', 'B', content)
    return schema(each(members, member), xs('complexType', 'name B', content), each(types, heir))


@hostile('check', types=1, elements=2000, other={'types': 2}, kept='2,048 positions')
def seq_optional(types, elements):
    """A type with a long sequence of elements that may be absent."""
    one = lambda number: xs('element', f'name e{number}', 'type xs:string', 'minOccurs 0')
    return schema(each(types, lambda number: xs('complexType', f'name T{number or ""}', xs('sequence', each(elements, one)))))


@hostile('check', members=6000)
def subst_chain(members):
    """Elements each of which stands for the one before."""
    heir = lambda number: xs('element', f'name m{number}', f'substitutionGroup m{number - 1}')
    return schema(member(0), each(members - 1, heir, 1))


def union(name, members):
    return xs('simpleType', f'name {name}', xs('union', f'memberTypes {members}'))


@hostile('check', types=2000)
def union_chain(types):
    """Unions each of which has the one before."""
    return schema(union('U0', 'xs:int xs:boolean'), each(types, lambda number: union(f'U{number}', f'U{number - 1} xs:date'), 1))


@hostile('check', types=800)
def union_chain_restr(types):
    """Unions each of which has one that restricts the one before."""
    two = lambda number: xs('simpleType', f'name R{number}', restriction(f'U{number - 1}', pattern('.*'))) + union(f'U{number}', f'R{number} xs:date')
    return schema(union('U0', 'xs:int xs:boolean'), each(types, two, 1))


@hostile('check', levels=19, other={'levels': 20}, kept='what is laid out doubles')
def union_doubling(levels):
    """Unions each of which has the one before twice."""
    least = xs('simpleType', 'name U0', restriction('xs:int'))
    return schema(least, each(levels, lambda number: union(f'U{number}', f'U{number - 1} U{number - 1}'), 1))


@hostile('check', types=1400, members=1400)
def union_inherited(types, members):
    """Types that restrict a union of many."""
    return schema(union('U', ' '.join(['xs:int'] * members)), each(types, lambda number: xs('simpleType', f'name B{number}', restriction('U'))))


@hostile('session', types=11000, elements=11000)
def xsitype_chain(types, elements):
    """Types in a chain, and elements that name the last by xsi:type."""
    heir = lambda number: xs('complexType', f'name T{number}', xs('complexContent', xs('extension', f'base T{number - 1}')))
    chain = xs('complexType', 'name T0') + each(types - 1, heir, 1)
    told = 'xmlns:xsi http://www.w3.org/2001/XMLSchema-instance'
    return [*schema(many('name q', 'type T0'), chain), *document(told, element('q', f'xsi:type T{types - 1}') * elements)]
