"""The streams that are made of XML files."""
from helper import XS, Case, answered, example, read


class Streams(Case):
    def test_the_order_is_the_stream_that_is_kept(self):
        status, written, _ = self.tool('stream', '-l', 'order.xsd', example('order.xsd'), example('order.xml'))
        self.assertEqual(status, 0)
        self.assertEqual(answered('assess', written), answered('assess', read('examples', 'order.pyx')))

    def test_the_loans(self):
        status, written, _ = self.tool('stream', '-e', example('loans.edits'), example('loans.xsd'), example('loans.xml'))
        self.assertEqual(status, 0)
        status, replies = answered('session', written)
        self.assertEqual((status, replies.split('\n')[-2]), (1, 'end invalid 3'))
        # The README shows these replies.
        self.assertIn('\n'.join('    ' + line for line in replies.split('\n')[:-1]), read('README.md'))

    def test_texts_and_entities(self):
        self.put('a.xml', '<?xml version="1.0"?>\n<!DOCTYPE a [<!ENTITY e "x<b/>y">]>\n'
                 '<a q="&lt;&#9;">1&e;2<!-- c -->3<?p i?>4<![CDATA[<&]]>\r\n&#13;\\</a>\n')
        self.schema('s.xsd', '')
        status, written, _ = self.tool('stream', 's.xsd', 'a.xml')
        self.assertEqual(status, 0)
        self.assertEqual(written.split('document\n')[1],
                         '(a\nAq <\\t\n-1x\n(b\n)b\n-y234<&\\n\\r\\\\\n)a\nend\n')

    def test_white_space_goes_in_schemas_alone(self):
        self.schema('s.xsd', '<xs:element name="a"/>')
        self.put('a.xml', '<a> <b/> </a>')
        written = self.tool('stream', 's.xsd', 'a.xml')[1]
        self.assertIn('(a\n- \n(b', written)
        self.assertNotIn('-\\n', written)

    def test_locations(self):
        self.schema('s.xsd', '')
        self.assertTrue(self.tool('stream', '-c', '-l', 'x', '-l', 'y z', 's.xsd', 's.xsd')[1].startswith('schema\tx\ty z\n(xs:schema\n'))

    def test_a_long_text_is_one_text(self):
        self.schema('s.xsd', '<xs:element name="a" type="xs:string"/>')
        self.put('a.xml', '<a>' + 'é\n' * 700_000 + '</a>')
        status, replies = answered('assess', self.tool('stream', 's.xsd', 'a.xml')[1])
        self.assertEqual((status, replies.split('\n')[-2]), (0, 'end valid 0'))

    def test_another_encoding(self):
        self.schema('s.xsd', '')
        self.put('a.xml', '<?xml version="1.0" encoding="ISO-8859-1"?><a>é</a>'.encode('iso-8859-1'))
        self.assertIn('\n-é\n', self.tool('stream', 's.xsd', 'a.xml')[1])
        self.put('b.xml', '<a>é</a>'.encode('utf-16'))
        self.assertIn('\n-é\n', self.tool('stream', 's.xsd', 'b.xml')[1])


class Words(Case):
    def setUp(self):
        super().setUp()
        self.schema('s.xsd', '')
        self.put('a.xml', '<a/>')

    def test_help(self):
        self.assertIn('stream -c', self.tool('stream', '--help')[1])

    def test_wrong_words(self):
        for words in [], ['-c'], ['-l'], ['s.xsd'], ['-z', 's.xsd', 'a.xml'], ['-c', '-e', 'x', 's.xsd'], ['s.xsd', '-l', 'x', 'a.xml'], \
                ['-c', 's.xsd', '-l', 'x'], ['-l', 'a\tb', 's.xsd', 'a.xml']:
            self.assertEqual(self.says('stream', *words, status=2, error='stream: '), '', words)

    def test_no_file(self):
        for words in ['t.xsd', 'a.xml'], ['s.xsd', 'b.xml'], ['s.xsd', '.'], ['s.xsd', '-e', 'e', 'a.xml']:
            self.assertEqual(self.says('stream', *words, status=4, error='stream: '), '')

    def test_no_xml(self):
        for text in '', '<a>', '<a></b>', 'x', '<a/><b/>', '<a>&f;</a>', '<a b="&f;"/>', '\0':
            self.put('b.xml', text)
            self.assertEqual(self.says('stream', 's.xsd', 'b.xml', status=5, error='stream: b.xml:1:'), '', text)

    def test_entities_of_other_files(self):
        self.put('f.txt', 'secret')
        for text in ('<!DOCTYPE a [<!ENTITY f SYSTEM "f.txt">]><a>&f;</a>', '<!DOCTYPE a SYSTEM "a.dtd"><a>&f;</a>',
                     '<!DOCTYPE a SYSTEM "a.dtd"><a b="&f;"/>'):
            self.put('b.xml', text)
            self.assertEqual(self.says('stream', 's.xsd', 'b.xml', status=5, error='entity &f;'), '')

    def test_entities_without_end(self):
        entities = ''.join(f'<!ENTITY e{n} "{f"&e{n - 1};" * 20}">' for n in range(1, 9))
        self.put('b.xml', f'<!DOCTYPE a [<!ENTITY e0 "{"x" * 100}">{entities}]><a>&e8;</a>')
        self.says('stream', 's.xsd', 'b.xml', status=5, error='b.xml:1:')
