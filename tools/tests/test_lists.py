"""A long session of items that come into the middle of a long list and go, within the time of a session that keeps what it found."""
from test_keys import COUNT, Long, list_schema

PAIRS = 300_000


class Lists(Long):
    def test_an_item_that_comes_and_goes(self):
        document = ['(item', ')item'] * COUNT
        edits = [line for k in range(1, PAIRS + 1) for line in (f'insert 1 {COUNT // 2}', '(item', ')item', '.', f'remove {COUNT + 1 + k}')]
        found = [f'ok {number} 0' for number in range(1, 2 * PAIRS + 1)]
        self.answers([*list_schema([('v', 'xs:unsignedShort')], []), 'document', '(list', *document, ')list', 'edits', *edits],
                     ['schema ok', 'ok 0 0', *found, 'end valid 0'])
