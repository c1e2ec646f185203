"""A client that speaks the protocol to the language server."""
import json
import os
import pathlib
import subprocess

from helper import TOP, XS, Case, example, read


class Client:
    """A server, and the messages to it and from it."""

    def __init__(self, case, *words):
        self.case, self.last = case, 0
        self.server = subprocess.Popen([os.path.join(TOP, 'tools', 'lsp'), *words], stdin=subprocess.PIPE, stdout=subprocess.PIPE, stderr=subprocess.PIPE)
        case.addCleanup(self.end)

    def end(self):
        self.server.kill()
        self.server.wait()
        for pipe in self.server.stdin, self.server.stdout, self.server.stderr:
            pipe.close()

    def raw(self, body, header=None):
        self.server.stdin.write((header or b'Content-Length: %d\r\n\r\n' % len(body)) + body)
        self.server.stdin.flush()

    def send(self, method, params=None, **more):
        self.raw(json.dumps({'jsonrpc': '2.0', 'method': method, **({'params': params} if params is not None else {}), **more}).encode())

    def receive(self):
        length = None
        while line := self.server.stdout.readline().strip():
            name, _, value = line.partition(b': ')
            if name == b'Content-Length':
                length = int(value)
        message = json.loads(self.server.stdout.read(length))
        self.case.assertEqual(message['jsonrpc'], '2.0')
        return message

    def ask(self, method, params=None):
        """The answer to a request."""
        self.last += 1
        self.send(method, params, id=self.last)
        message = self.receive()
        self.case.assertEqual(message['id'], self.last)
        return message

    def start(self, **options):
        found = self.ask('initialize', {'processId': None, 'rootUri': None, 'capabilities': {}, **options})['result']
        self.send('initialized', {})
        return found

    def diagnostics(self, uri):
        message = self.receive()
        self.case.assertEqual((message['method'], message['params']['uri']), ('textDocument/publishDiagnostics', uri))
        return message['params']['diagnostics']

    def opened(self, uri, text):
        self.send('textDocument/didOpen', {'textDocument': {'uri': uri, 'languageId': 'xml', 'version': 1, 'text': text}})
        return self.diagnostics(uri)

    def changed(self, uri, text, version=2):
        self.send('textDocument/didChange', {'textDocument': {'uri': uri, 'version': version}, 'contentChanges': [{'text': text}]})
        return self.diagnostics(uri)

    def hover(self, uri, line, character):
        return self.ask('textDocument/hover', {'textDocument': {'uri': uri}, 'position': {'line': line, 'character': character}})['result']


class Server(Case):
    def uri(self, name):
        return pathlib.Path(self.folder, name).as_uri()

    def loans(self):
        """The loans, which name their schema."""
        self.put('loans.xsd', read('examples', 'loans.xsd'))
        return read('examples', 'loans.xml').replace('<loans xmlns="urn:example:loans">', '<loans xmlns="urn:example:loans" '
                     'xmlns:xsi="http://www.w3.org/2001/XMLSchema-instance" xsi:schemaLocation="urn:example:loans loans.xsd">')

    def test_a_session(self):
        client, uri, text = Client(self), self.uri('loans.xml'), self.loans()
        found = client.start()
        self.assertEqual(found['capabilities']['textDocumentSync']['change'], 1)
        self.assertTrue(found['capabilities']['hoverProvider'])
        self.assertEqual(client.opened(uri, text), [])
        wrong = client.changed(uri, text.replace('48000', '-1'))
        self.assertEqual([it['code'] for it in wrong], ['cvc-type.3.1.3', 'cvc-minInclusive-valid'])
        self.assertEqual(wrong[1]['range'], {'start': {'line': 23, 'character': 17}, 'end': {'line': 23, 'character': 23}})
        self.assertEqual((wrong[1]['severity'], wrong[1]['source']), (1, 'xsv'))
        self.assertIn('below the least that its type allows: <value>="-1" (Datatypes', wrong[1]['message'])
        shown = client.hover(uri, 23, 20)['contents']
        self.assertEqual(shown['kind'], 'markdown')
        self.assertIn('**cvc-minInclusive-valid** (Datatypes 4.3.10.3): the value is below the least that its type allows', shown['value'])
        self.assertIsNone(client.hover(uri, 3, 4))
        # No XML at the moment: the last ones stay.
        broken = client.changed(uri, text.replace('48000</value>', '-1'), 3)
        self.assertEqual(broken[:2], wrong)
        self.assertEqual(len(broken), 3)
        self.assertIn('no well-formed XML', broken[2]['message'])
        self.assertNotIn('code', broken[2])
        self.assertEqual(client.changed(uri, text, 4), [])
        client.send('textDocument/didClose', {'textDocument': {'uri': uri}})
        self.assertEqual(client.diagnostics(uri), [])
        self.assertIsNone(client.ask('shutdown')['result'])
        self.assertEqual(client.ask('textDocument/hover', {})['error']['code'], -32600)
        client.send('exit')
        self.assertEqual(client.server.wait(20), 0)
        self.assertEqual(client.server.stderr.read(), b'')

    def test_settings(self):
        client, uri = Client(self), self.uri('a.xml')
        client.start(initializationOptions={'xsv': {'schemas': [{'files': '*.loans', 'schemas': ['none.xsd']}, {'files': '*.xml', 'schemas': [example('loans.xsd')]}]}})
        self.assertEqual(client.opened(uri, read('examples', 'loans.xml')), [])
        client.send('workspace/didChangeConfiguration', {'settings': {'xsv': {'schemas': []}}})
        without = client.diagnostics(uri)
        self.assertEqual([(it['severity'], it['message']) for it in without], [(3, 'the document names no schema, and no setting has one')])
        client.send('workspace/didChangeConfiguration', {'settings': {'xsv': {'schemas': [{'files': '*.xml', 'schemas': ['b.xsd']}]}}})
        self.assertIn('b.xsd: no such file', client.diagnostics(uri)[0]['message'])
        client.send('workspace/didChangeConfiguration', {'settings': {'xsv': {'program': '/nowhere', 'schemas': [{'files': '*.xml', 'schemas': [example('loans.xsd')]}]}}})
        self.assertIn('/nowhere: no program', client.diagnostics(uri)[0]['message'])

    def test_schemas_are_checked(self):
        client, uri, other = Client(self), self.uri('a.xsd'), self.uri('a.xml')
        client.start()
        text = f'<xs:schema {XS}>\n<xs:element name="a" type="xs:byte"/>\n</xs:schema>'
        self.put('a.xsd', text)
        self.assertEqual(client.opened(other, '<a xmlns:xsi="http://www.w3.org/2001/XMLSchema-instance" xsi:noNamespaceSchemaLocation="a.xsd">x</a>')[0]['code'], 'cvc-type.3.1.3')
        self.assertEqual(client.opened(uri, text), [])
        client.diagnostics(other)
        found = client.changed(uri, text.replace('byte', 'bite'))
        self.assertEqual([(it['code'], it['range']['start']) for it in found], [('src-resolve', {'line': 1, 'character': 0})])
        # The text in the editor counts for documents, too.
        there = client.diagnostics(other)
        self.assertEqual(there[0]['code'], 'src-resolve')
        self.assertTrue(there[0]['relatedInformation'][0]['location']['uri'].endswith('a.xsd'))
        self.assertEqual(client.changed(uri, text.replace('byte', 'string')), [])
        self.assertEqual(client.diagnostics(other), [])

    def test_characters_are_utf_16_units(self):
        client, uri = Client(self), self.uri('a.xml')
        self.schema('a.xsd', '<xs:element name="a"><xs:complexType mixed="true"/></xs:element>')
        client.start()
        text = ('<?xml version="1.0" encoding="ISO-8859-1"?><a xmlns:xsi="http://www.w3.org/2001/XMLSchema-instance" '
                'xsi:noNamespaceSchemaLocation="a.xsd">é\U0001F600<b/></a>')
        found = client.opened(uri, text)
        self.assertEqual({it['code'] for it in found}, {'cvc-complex-type.2.4'})
        at = len(text[:text.index('<b/>')].encode('utf-16-le')) // 2
        self.assertEqual(found[0]['range'], {'start': {'line': 0, 'character': at}, 'end': {'line': 0, 'character': at + 2}})

    def test_attributes(self):
        client, uri = Client(self), self.uri('a.xml')
        self.schema('a.xsd', '<xs:element name="a"><xs:complexType><xs:attribute name="m" type="xs:byte"/></xs:complexType></xs:element>')
        client.start()
        found = client.opened(uri, '<a xmlns:xsi="http://www.w3.org/2001/XMLSchema-instance" xsi:noNamespaceSchemaLocation="a.xsd"\n\tm="300"/>')
        self.assertEqual(found[0]['range'], {'start': {'line': 1, 'character': 1}, 'end': {'line': 1, 'character': 8}})

    def test_a_code_in_a_text(self):
        client, uri = Client(self), self.uri('a.xml')
        client.start()
        client.opened(uri, '<a>\n see cvc-complex-type.2.4@3\n</a>')
        self.assertIn('**cvc-complex-type.2.4** (Structures 3.4.4)', client.hover(uri, 1, 10)['contents']['value'])

    def test_messages_that_are_wrong(self):
        client, uri = Client(self), self.uri('a.xml')
        self.assertEqual(client.ask('textDocument/hover', {})['error']['code'], -32002)
        client.start()
        self.assertEqual(client.ask('textDocument/rename', {})['error']['code'], -32601)
        client.raw(b'{', None)
        self.assertIn('no JSON', client.receive()['params']['message'])
        client.raw(b'', b'Nothing: 1\r\n\r\n')
        self.assertIn('without a length', client.receive()['params']['message'])
        client.send('textDocument/didChange', {'textDocument': {'uri': 'file:///none'}, 'contentChanges': []})
        self.assertIn('KeyError', client.receive()['params']['message'])
        client.send('$/unknown', {})
        self.assertEqual(client.opened(uri, '')[0]['severity'], 1)
        client.server.stdin.close()
        self.assertEqual(client.server.wait(20), 1)

    def test_words(self):
        self.says('lsp', '-z', status=64, error='lsp: unknown words -z')
        self.assertIn('language server', self.tool('lsp', '--help')[1])
        self.assertEqual(self.tool('lsp', stream=b'')[0], 1)
