"""Tests of the streams that the program generates, and of its trials."""
import subprocess

from helper import PROGRAM, Case, answered

USAGE = 'usage: xsv check|assess|session [--max-errors N] | xsv generate|trial NUMBER COUNT\n'
FRONT = '''schema\tgen
(xs:schema
Axmlns:xs http://www.w3.org/2001/XMLSchema
(xs:element
Aname list
(xs:complexType
(xs:sequence
(xs:element
Aname item
AminOccurs 0
AmaxOccurs unbounded
(xs:complexType
(xs:attribute
Aname v
Atype xs:unsignedShort
)xs:attribute
)xs:complexType
)xs:element
)xs:sequence
)xs:complexType
)xs:element
)xs:schema
document
(list
'''


def run(*words):
    ran = subprocess.run([PROGRAM, *words], input=b'', capture_output=True, timeout=60, check=False)
    return ran.returncode, ran.stdout.decode()


class Generate(Case):
    def test_one_item(self):
        # The first draw of state 0: (1442695040888963407 >> 33) mod 65536.
        self.assertEqual(run('generate', '0', '1'), (0, f'{FRONT}(item\nAv {(1442695040888963407 >> 33) % 65536}\n)item\n)list\nedits\nend\n'))

    def test_a_session_over_it(self):
        status, stream = run('generate', '7', '1000')
        self.assertEqual((status, run('generate', '7', '1000')[1]), (0, stream))
        replies = answered('session', stream)[1].splitlines()
        self.assertEqual(replies[:2], ['schema ok', 'ok 0 0'])
        self.assertEqual(sum(it.startswith(('ok ', 'no ')) for it in replies[2:]), 200)
        self.assertTrue(replies[-1].startswith('end '))

    def test_words_that_are_refused(self):
        for words in (('generate', '1', '0'), ('generate', '1', '100001'), ('generate', '1'), ('generate', '1', '1', '--max-errors', '5'),
                      ('trial', '1', '0'), ('trial', '1', '100001'), ('trial', '1'), ('trial', '--max-errors=5', '1', '1')):
            self.assertEqual(run(*words), (6, USAGE))


class Trial(Case):
    def test_of_one_item(self):
        self.assertEqual(run('trial', '0', '1'), (0, 'lines 30\naccepted 0 refused 0\nend valid 0\n'))

    def test_twice_the_same(self):
        status, written = run('trial', '1', '200')
        self.assertEqual((status, run('trial', '1', '200')[1]), (0, written))
        _, accepted, _, refused = written.splitlines()[1].split(' ')
        self.assertEqual(int(accepted) + int(refused), 40)

    def test_is_what_a_session_over_the_stream_comes_to(self):
        stream = run('generate', '7', '1000')[1]
        replies = answered('session', stream)[1].splitlines()
        accepted = sum(it.startswith('ok ') for it in replies) - 1
        refused = sum(it.startswith('no ') for it in replies)
        lines = stream.count('\n')
        self.assertEqual(run('trial', '7', '1000'), (0, f'lines {lines}\naccepted {accepted} refused {refused}\n{replies[-1]}\n'))
