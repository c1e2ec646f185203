"""Long sessions of edits that come at targets of identity constraints, each within the time of a session that keeps its tables."""
import resource
import subprocess
import unittest

from helper import PROGRAM

COUNT = 100_000
BAR = 60


def item(*attributes):
    """The declaration of an element `item` with attributes of these names and types."""
    lines = [line for name, kind in attributes for line in ('(xs:attribute', f'Aname {name}', f'Atype {kind}', ')xs:attribute')]
    return ['(xs:complexType', *lines, ')xs:complexType']


def constraint(kind, name, selector, *fields, refers=None):
    told = [f'Arefer {refers}'] if refers else []
    paths = [line for field in fields for line in ('(xs:field', f'Axpath {field}', ')xs:field')]
    return [f'(xs:{kind}', f'Aname {name}', *told, '(xs:selector', f'Axpath {selector}', ')xs:selector', *paths, f')xs:{kind}']


def list_schema(attributes, constraints):
    return ['schema\ts', '(xs:schema', 'Axmlns:xs http://www.w3.org/2001/XMLSchema', '(xs:element', 'Aname list', '(xs:complexType', '(xs:sequence',
            '(xs:element', 'Aname item', 'AminOccurs 0', 'AmaxOccurs unbounded', *item(*attributes), ')xs:element', ')xs:sequence', ')xs:complexType',
            *constraints, ')xs:element', ')xs:schema']


def replies(lines):
    """What a session answers, and how many seconds it took of the processor."""
    before = resource.getrusage(resource.RUSAGE_CHILDREN)
    ran = subprocess.run([PROGRAM, 'session'], input='\n'.join([*lines, 'end', '']).encode(), capture_output=True, timeout=10 * BAR, check=False)
    after = resource.getrusage(resource.RUSAGE_CHILDREN)
    return ran.stdout.decode().splitlines(), after.ru_utime + after.ru_stime - before.ru_utime - before.ru_stime


class Long(unittest.TestCase):
    def answers(self, lines, expected):
        told, seconds = replies(lines)
        for number, (one, other) in enumerate(zip(told, expected)):
            self.assertEqual(one, other, f'line {number + 1} of the output')
        self.assertEqual(len(told), len(expected))
        self.assertLess(seconds, BAR)


class Keys(Long):
    def test_a_value_among_many_that_are_unique(self):
        schema = list_schema([('v', 'xs:unsignedInt')], constraint('unique', 'U', 'item', '@v'))
        document = [line for number in range(COUNT) for line in ('(item', f'Av {number}', ')item')]
        edits = [f'set 2 v {value}' for k in range(1, COUNT) for value in (k, 0)]
        found = [f'ok {2 * k - at} {at}' for k in range(1, COUNT) for at in (1, 0)]
        self.answers([*schema, 'document', '(list', *document, ')list', 'edits', *edits], ['schema ok', 'ok 0 0', *found, 'end valid 0'])

    def test_ids_and_keys_with_their_references(self):
        schema = list_schema([('v', 'xs:ID'), ('w', 'xs:IDREF')],
                             [*constraint('key', 'K', 'item', '@v'), *constraint('keyref', 'R', 'item', '@w', refers='K')])
        document = [line for number in range(COUNT) for line in ('(item', f'Av n{number}', f'Aw n{number}', ')item')]
        edits = [f'set 2 v {value}' for k in range(1, COUNT) for value in (f'x{k}', 'n0')]
        found = [f'ok {2 * k - at} {2 * at}' for k in range(1, COUNT) for at in (1, 0)]
        self.answers([*schema, 'document', '(list', *document, ')list', 'edits', *edits], ['schema ok', 'ok 0 0', *found, 'end valid 0'])

    def test_a_tuple_below_a_hundred_scopes(self):
        schema = ['schema\ts', '(xs:schema', 'Axmlns:xs http://www.w3.org/2001/XMLSchema', '(xs:element', 'Aname g', '(xs:complexType',
                  '(xs:choice', 'AmaxOccurs unbounded', '(xs:element', 'Aref g', ')xs:element', '(xs:element', 'Aname item',
                  *item(('v', 'xs:unsignedInt')), ')xs:element', ')xs:choice', ')xs:complexType',
                  *constraint('key', 'K', './/item', '@v'), ')xs:element', ')xs:schema']
        document = ['(g'] * 100 + [line for number in range(1_000) for line in ('(item', f'Av {number}', ')item')] + [')g'] * 100
        edits = [line for k in range(10_000) for line in ('insert 100 0', '(item', 'Av 1000', ')item', '.', f'remove {1_101 + k}')]
        found = [f'ok {number} 0' for number in range(1, 20_001)]
        self.answers([*schema, 'document', *document, 'edits', *edits], ['schema ok', 'ok 0 0', *found, 'end valid 0'])
