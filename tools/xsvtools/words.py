"""What the codes mean in words: the table docs/codes.tsv."""
import os
from dataclasses import dataclass

from .failures import NO_FILE, Failure, told
from .program import TOP

TABLE = os.path.join(TOP, 'docs', 'codes.tsv')
KINDS = {'code': 'a code of a schema or a document', 'line': 'why a line of a stream is refused',
         'command': 'why a command of a session is refused', 'answer': 'an answer'}


@dataclass
class Row:
    """A code, where the standard has it (`own` where it is this project's), and what it means."""

    kind: str
    code: str
    section: str
    words: str

    def place(self):
        """The section in parentheses behind a space, or nothing where the code is the project's own."""
        return '' if self.section == 'own' else f' ({self.section})'


def rows():
    """All rows, in order."""
    try:
        with open(TABLE, encoding='utf-8') as file:
            lines = file.read().split('\n')[1:-1]
        return [Row(*line.split('\t')) for line in lines]
    except OSError as error:
        raise Failure(NO_FILE, f'{TABLE}: {told(error)}') from None
    except TypeError:
        raise Failure(NO_FILE, f'{TABLE}: a line has not four fields') from None


class Words:
    """The words by their kind and code."""

    def __init__(self):
        self.rows = {(row.kind, row.code): row for row in rows()}

    def row(self, kind, code):
        """The row of a code, which may have a place behind it, as in `cvc-complex-type.2.4@1`."""
        bare = code.partition('@')[0]
        return self.rows.get((kind, bare)) or Row(kind, bare, 'own', 'a code without words')

    def of(self, code):
        """The rows of all kinds that the code has."""
        bare = code.partition('@')[0]
        return [self.rows[kind, bare] for kind in KINDS if (kind, bare) in self.rows]
