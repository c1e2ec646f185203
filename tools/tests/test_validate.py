"""Errors at the lines and columns of files."""
import json
import os
import signal
import subprocess
import time

from helper import TOP, Case, example, read


class Documents(Case):
    def lines(self, *words, status):
        ended, written, said = self.tool('validate', *words)
        self.assertEqual((ended, said), (status, ''), written)
        return written.split('\n')[:-1]

    def loans(self, *changes):
        text = read('examples', 'loans.xml')
        for old, new in changes:
            self.assertIn(old, text)
            text = text.replace(old, new)
        return self.put('loans.xml', text)

    def test_the_loans(self):
        self.assertEqual(self.lines(example('loans.xsd'), example('loans.xml'), status=0), ['no error: valid'])

    def test_the_loans_with_errors(self):
        name = self.loans(('48000', '-1'), ('>sea<', '>boat<'), ('<number>RV-1950-12</number>', ''))
        lines = self.lines(example('loans.xsd'), name, status=1)
        self.assertEqual([line.split(': ', 2)[0] + ' ' + line.split(': ')[2] for line in lines[:-1]],
                         ['loans.xml:24:18 cvc-type.3.1.3', 'loans.xml:24:18 cvc-minInclusive-valid', 'loans.xml:41:7 cvc-type.3.1.3',
                          'loans.xml:41:7 cvc-enumeration-valid', 'loans.xml:53:7 cvc-complex-type.2.4'])
        self.assertIn('error: cvc-minInclusive-valid: the value is below the least that its type allows: <value>="-1" (Datatypes 4.3.10.3)', lines[1])
        self.assertTrue(lines[4].endswith('<name> is not allowed here in <work> (Structures 3.4.4)'))
        self.assertEqual(lines[5], '5 errors: invalid')

    def test_an_end_that_comes_too_early(self):
        name = self.loans(('      <telephone>55 00 00 00</telephone>\n', ''))
        self.assertTrue(self.lines(example('loans.xsd'), name, status=1)[0].startswith('loans.xml:48:5: error: cvc-complex-type.2.4: '))

    def test_attributes(self):
        self.schema('a.xsd', '''<xs:element name="a"><xs:complexType><xs:attribute name="n" type="xs:byte" use="required"/><xs:attribute name="m" type="xs:byte"/>
            </xs:complexType></xs:element>''')
        self.put('a.xml', '<!-- one line -->\n  <a m="300"/>')
        lines = self.lines('a.xsd', 'a.xml', status=1)
        self.assertTrue(lines[0].startswith('a.xml:2:3: error: cvc-complex-type.4: a required attribute is missing: <a>'), lines)
        self.assertTrue(lines[1].startswith('a.xml:2:6: error: cvc-attribute.3: the value of the attribute is not valid by its type: m="300" of <a>'))
        self.assertTrue(lines[2].startswith('a.xml:2:6: error: cvc-maxInclusive-valid: '))
        self.assertEqual(lines[3], '3 errors: invalid')
        self.put('a.xml', '<!DOCTYPE a [<!ENTITY e "x">]>\n<a n="1"\n  z=">é" m = \'300\'/>')
        places = [line.split(' ')[0] for line in self.lines('a.xsd', 'a.xml', status=1)[:-1]]
        self.assertEqual(places, ['a.xml:3:3:', 'a.xml:3:10:', 'a.xml:3:10:'])

    def test_a_key_that_is_there_twice(self):
        self.schema('a.xsd', '<xs:element name="a"><xs:complexType><xs:sequence>\n'
                             '<xs:element name="b" type="xs:string" maxOccurs="unbounded"/></xs:sequence></xs:complexType>\n'
                             '<xs:key name="k"><xs:selector xpath="b"/><xs:field xpath="."/></xs:key></xs:element>')
        self.put('a.xml', '<a><b>1</b><b>2</b></a>')
        self.assertEqual(self.tool('validate', 'a.xsd', 'a.xml')[0], 0)
        self.put('a.xml', '<a><b>1</b><b>1</b></a>')
        lines = self.lines('a.xsd', 'a.xml', status=1)
        self.assertTrue(lines[0].startswith('a.xml:1:1: error: cvc-identity-constraint.4.2.2: two elements have the same key'), lines)

    def test_an_element_that_is_not_declared(self):
        self.schema('a.xsd', '')
        self.put('a.xml', '<a/>')
        self.assertEqual(self.lines('a.xsd', 'a.xml', status=1),
                         ['a.xml:1:1: error: cvc-elt.1: no element of this name is declared: <a> (Structures 3.3.4)', '1 error: invalid'])

    def test_limits_of_lines(self):
        self.schema('a.xsd', '')
        self.put('a.xml', '<a>\n' * 129 + '</a>' * 129)
        self.assertEqual(self.lines('a.xsd', 'a.xml', status=4)[0],
                         'a.xml:129:1: error: TooDeep: elements are nested deeper than what is supported (128)')
        self.put('a.xml', '<a>\n<p:b/></a>')
        self.assertEqual(self.lines('a.xsd', 'a.xml', status=3)[0], 'a.xml:2:1: error: UnboundPrefix: a prefix is not bound to a namespace')

    def test_columns_count_characters(self):
        self.schema('a.xsd', '<xs:element name="a"><xs:complexType mixed="true"/></xs:element>')
        self.put('a.xml', '<a>ééé€<b/></a>')
        self.assertTrue(self.lines('a.xsd', 'a.xml', status=1)[0].startswith('a.xml:1:'))


class Schemas(Case):
    lines = Documents.lines

    def test_a_schema_that_breaks_a_rule(self):
        self.schema('a.xsd', '<xs:element name="b"\n type="c"/>')
        self.assertEqual(self.lines('-s', 'a.xsd', status=2),
                         ['a.xsd:2:1: error: src-resolve: the name refers to nothing of the kind that is needed here: '
                          '<xs:element name="b" type="c"> (Structures 3.15.3)', '1 error'])
        self.schema('a.xsd', '<xs:element name="b" type="xs:float"/>')
        self.assertEqual(self.lines('-s', 'a.xsd', status=5)[0],
                         'a.xsd:2:1: error: x-unsupported.float: the type float is not supported: <xs:element name="b" type="xs:float">')
        self.assertEqual(self.lines('-s', example('loans.xsd'), status=0), ['no error: the schemas are accepted'])

    def test_files_that_schemas_lead_to(self):
        self.schema('main/a.xsd', '<xs:include schemaLocation="parts/b.xsd"/>\n<xs:import namespace="urn:c" schemaLocation="../c.xsd"/>'
                    '<xs:element name="a" type="B"/>')
        # Two files of one name: each location is meant from its own file.
        self.schema('main/parts/b.xsd', '<xs:include schemaLocation="c.xsd"/><xs:complexType name="B"><xs:sequence>'
                    '<xs:element name="n" type="N"/></xs:sequence></xs:complexType>')
        self.schema('main/parts/c.xsd', '<xs:simpleType name="N"><xs:restriction base="xs:byte"/></xs:simpleType>')
        self.schema('c.xsd', '<xs:element name="c"/>', 'targetNamespace="urn:c"')
        self.put('a.xml', '<a><n>x</n></a>')
        self.assertTrue(self.lines('main/a.xsd', 'a.xml', status=1)[0].startswith('a.xml:1:4: error: cvc-type.3.1.3'))
        self.schema('main/parts/c.xsd', '\n\n  <xs:simpleType name="N"><xs:restriction base="M"/></xs:simpleType>')
        self.assertTrue(self.lines('main/a.xsd', 'a.xml', status=2)[0].startswith('main/parts/c.xsd:4:27: error: src-resolve: '))

    def test_a_file_that_is_not_there(self):
        self.schema('a.xsd', '<xs:include schemaLocation="b.xsd"/>')
        self.assertTrue(self.lines('-s', 'a.xsd', status=2)[0].startswith('a.xsd:2:1: error: x-location: '))
        self.schema('a.xsd', '<xs:import namespace="urn:b" schemaLocation="http://example.org/b.xsd"/><xs:element xmlns:b="urn:b" ref="b:b"/>')
        self.schema('a.xsd', '<xs:import namespace="urn:b" schemaLocation="http://example.org/b.xsd"/>'
                    '<xs:element name="a"><xs:complexType><xs:sequence><xs:element xmlns:b="urn:b" ref="b:b"/></xs:sequence></xs:complexType></xs:element>')
        self.assertIn('; not read: http://example.org/b.xsd', self.lines('-s', 'a.xsd', status=2)[0])
        # The schema of the namespace, given beside it, stands in its place.
        self.schema('b.xsd', '<xs:element name="b"/>', 'targetNamespace="urn:b"')
        for order in ['a.xsd', 'b.xsd'], ['b.xsd', 'a.xsd']:
            self.assertEqual(self.lines('-s', *order, status=0), ['no error: the schemas are accepted'])

    def test_schemas_that_lead_to_one_another_nowhere(self):
        self.schema('a.xsd', '<xs:element name="a"><xs:complexType><xs:sequence><xs:any namespace="##other"/></xs:sequence></xs:complexType></xs:element>')
        self.schema('b.xsd', '<xs:element name="b" type="xs:byte"/>', 'targetNamespace="urn:b"')
        self.put('a.xml', '<a><b xmlns="urn:b">x</b></a>')
        for order in ['a.xsd', 'b.xsd'], ['b.xsd', 'a.xsd']:
            self.assertTrue(self.lines(*order, 'a.xml', status=1)[0].startswith('a.xml:1:4: error: cvc-type.3.1.3'))
        self.schema('b.xsd', '\n<xs:element name="b" type="c"/>', 'targetNamespace="urn:b"')
        self.assertTrue(self.lines('a.xsd', 'b.xsd', 'a.xml', status=2)[0].startswith('b.xsd:3:1: error: src-resolve: '))

    def test_redefined(self):
        self.schema('b.xsd', '<xs:simpleType name="N"><xs:restriction base="xs:byte"/></xs:simpleType>')
        self.schema('a.xsd', '<xs:redefine schemaLocation="b.xsd"><xs:simpleType name="N"><xs:restriction base="N"><xs:maxInclusive value="5"/>'
                    '</xs:restriction></xs:simpleType></xs:redefine><xs:element name="a" type="N"/>')
        self.put('a.xml', '<a>6</a>')
        self.assertIn('cvc-maxInclusive-valid', self.lines('a.xsd', 'a.xml', status=1)[1])


def hears_interrupts():
    """What a shell starts behind `&` ignores them, and so does what that starts."""
    signal.signal(signal.SIGINT, signal.SIG_DFL)


class Options(Case):
    def setUp(self):
        super().setUp()
        self.schema('a.xsd', '<xs:element name="a" type="xs:byte"/>')
        self.put('a.xml', '<a>x</a>')

    def test_quiet(self):
        self.assertEqual(self.tool('validate', '-q', 'a.xsd', 'a.xml'), (1, '', ''))

    def test_json(self):
        status, written, said = self.tool('validate', '--json', 'a.xsd', 'a.xml')
        self.assertEqual((status, said), (1, ''))
        found = json.loads(written)
        self.assertEqual((found['status'], found['verdict'], [it['code'] for it in found['errors']]),
                         (1, 'invalid', ['cvc-type.3.1.3', 'cvc-datatype-valid.1']))
        self.assertEqual({it: found['errors'][0][it] for it in ('file', 'line', 'column', 'section')},
                         {'file': 'a.xml', 'line': 1, 'column': 1, 'section': 'Structures 3.3.4'})
        self.put('a.xml', '<a>')
        status, written, _ = self.tool('validate', '--json', 'a.xsd', 'a.xml')
        found = json.loads(written)
        self.assertEqual((status, found['status'], found['verdict'], found['errors'][0]['code']), (65, 65, None, 'no-xml'))

    def test_words(self):
        for words in [], ['a.xml'], ['-z', 'a.xsd', 'a.xml'], ['--json=1', 'a.xsd', 'a.xml'], ['-s'], ['-p']:
            self.assertEqual(self.says('validate', *words, status=64, error='validate: '), '')
        for words in ['b.xsd', 'a.xml'], ['a.xsd', 'b.xml'], ['a.xsd', '.']:
            self.assertEqual(self.says('validate', *words, status=66, error='validate: '), '')
        self.says('validate', '-p', 'nowhere', 'a.xsd', 'a.xml', status=69, error='validate: nowhere: no program')
        self.says('validate', '-p', '/bin/true', 'a.xsd', 'a.xml', status=69, error='without an answer that can be read')
        self.assertIn('validate -s SCHEMA', self.tool('validate', '--help')[1])

    def test_no_xml(self):
        self.put('a.xml', '<a>\n</b>')
        self.assertEqual(self.tool('validate', 'a.xsd', 'a.xml'), (65, 'a.xml:2:3: error: no well-formed XML: mismatched tag\n1 error\n', ''))
        self.put('b.xsd', 'x')
        self.assertEqual(self.tool('validate', 'b.xsd', 'a.xml')[0], 65)

    def test_nothing_else_is_written(self):
        before = sorted(os.listdir(self.folder))
        self.tool('validate', 'a.xsd', 'a.xml')
        self.assertEqual(sorted(os.listdir(self.folder)), before)
        self.assertFalse(os.path.exists(os.path.join(TOP, 'tools', 'xsvtools', '__pycache__')))

    def test_watch(self):
        with subprocess.Popen([os.path.join(TOP, 'tools', 'validate'), '--watch', 'a.xsd', 'a.xml'], cwd=self.folder, text=True,
                              stdout=subprocess.PIPE, stderr=subprocess.PIPE, preexec_fn=hears_interrupts) as watching:
            try:
                self.assertIn('cvc-type.3.1.3', watching.stdout.readline())
                self.assertIn('cvc-datatype-valid.1', watching.stdout.readline())
                self.assertEqual(watching.stdout.readline(), '2 errors: invalid\n')
                self.put('a.xml', '<a>77</a>')
                self.assertEqual(watching.stdout.readline(), 'no error: valid\n')
                os.remove(os.path.join(self.folder, 'a.xsd'))
                self.assertIn('a.xsd: no such file', watching.stderr.readline())
                self.schema('a.xsd', '<xs:element name="a" type="xs:date"/>')
                self.assertIn('cvc-type.3.1.3', watching.stdout.readline())
                time.sleep(0.1)
            finally:
                watching.send_signal(signal.SIGINT)
                watching.communicate(timeout=20)
            self.assertEqual(watching.returncode, 130)
