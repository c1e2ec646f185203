"""What the program says of schemas and a document, as errors with their places."""
import re
from dataclasses import asdict, dataclass

from . import program as programs
from .failures import NO_PROGRAM, Failure
from .words import Words


@dataclass
class Error:
    """An error at a place of a file, whose lines and columns count from 1."""

    file: str
    line: int
    column: int
    code: str
    message: str
    section: str

    def place(self):
        return f'{self.file}:{self.line}:{self.column}'

    def text(self):
        """The line that a compiler would write."""
        return f'{self.place()}: error: {self.code}: {self.message}' + ('' if self.section == 'own' else f' ({self.section})')

    def fields(self):
        return asdict(self)


class Report:
    """The status of the program, whether the schemas were accepted, the errors, and the verdict on the root where there is one."""

    def __init__(self, status, errors, verdict=None, accepted=False):
        self.status, self.errors, self.verdict, self.accepted = status, errors, verdict, accepted


def named(tag):
    return f'<{tag}>'


def quoted(value):
    """A value behind an equals sign, shortened."""
    value = ' '.join(value.split())
    return f'="{value if len(value) <= 60 else value[:57] + "..."}"'


# The codes of texts.
VALUES = ('cvc-type.3.1.3', 'cvc-complex-type.2.2', 'cvc-elt.5.2.2.2', 'cvc-datatype-valid', 'cvc-pattern', 'cvc-length', 'cvc-minLength',
          'cvc-maxLength', 'cvc-enumeration', 'cvc-max', 'cvc-min', 'cvc-totalDigits', 'cvc-fractionDigits', 'x-limit.items')
REFERENCES = ('ref', 'type', 'base', 'itemType', 'memberTypes', 'substitutionGroup', 'refer')


def told(listing, number):
    """An element of a schema document in short: its name or what it refers to, and in which named component it stands."""
    node = listing.node(number)
    words = [f'{key}="{node.attributes[key]}"' for key in ('name', *REFERENCES, 'value') if key in node.attributes][:2]
    text, above = named(' '.join([node.tag, *words])), node.parent
    while above and 'name' not in listing.node(above).attributes:
        above = listing.node(above).parent
    return text + (f' in {listing.node(above).attributes["name"]}' if above else '')


class Reading:
    """The answers of the program to the stream of a schema set and perhaps a document."""

    def __init__(self, schemas, document=None):
        self.schemas, self.document, self.words = schemas, document, Words()
        self.lines, self.places = schemas.stream()
        if document:
            self.lines += ['document', *document.lines]
            self.places += [(None, 1), *((None, number) for number in document.line_nodes)]
        self.lines.append('end')
        self.places.append((None, 1))

    def report(self, program, seconds=None):
        """What the program says."""
        stream = ('\n'.join(self.lines) + '\n').encode('utf-8', 'surrogatepass')
        status, lines = programs.answer(program, 'assess' if self.document else 'check', stream, seconds)
        errors, verdict, accepted, understood = [], None, False, False
        for line in lines:
            fields = line.split(' ')
            word = fields[0]
            if word in ('e', 'a'):
                if not line.endswith(' -'):
                    errors += self.of_record(word, line)
            elif line == 'schema ok':
                accepted = understood = True
            elif word == 'schema' and len(fields) == 5:
                errors.append(self.of_schema(int(fields[2]), int(fields[3]), fields[4]))
                understood = True
            elif word in ('listing', 'limit') and len(fields) == 3:
                errors.append(self.of_line(int(fields[1]), fields[2]))
                understood = True
            elif word == 'end':
                verdict = fields[1]
        if not understood:
            raise Failure(NO_PROGRAM, f'{program}: status {status}, without an answer that can be read')
        return Report(status, errors, verdict, accepted)

    def error(self, listing, number, kind, code, detail='', place=None):
        row = self.words.row(kind, code)
        node = listing.node(number)
        line, column = place or (node.line, node.column)
        return Error(listing.name, line, column, row.code, row.words + detail, row.section)

    def of_record(self, word, line):
        """The errors of a record of an element or an attribute: one for each code."""
        front, codes = line.rsplit(' ', 1)
        number = int(front.split(' ', 2)[1])
        name = re.match(r'(?:\{.*?\})?(\S*)', front.split(' ', 2)[2])[1] if word == 'a' else None
        for code in codes.split(','):
            yield self.of_code(number, code, name)

    def of_code(self, number, code, attribute):
        document, (_, at, place) = self.document, code.partition('@')
        node = document.node(number)
        if at:
            # The child element at the place is where the content goes wrong; behind the last one it is the end tag.
            if int(place) < len(node.children):
                child = node.children[int(place)]
                return self.error(document, child, 'code', code, f': {named(document.node(child).tag)} is not allowed here in {named(node.tag)}')
            ends = (node.end_line, node.end_column)
            return self.error(document, number, 'code', code, f': {named(node.tag)} ends too early', ends)
        if attribute:
            values = [value for key, value in node.attributes.items() if key.rpartition(':')[2] == attribute]
            detail = f': {attribute}' + (quoted(values[0]) if len(values) == 1 else '') + f' of {named(node.tag)}'
            return self.error(document, number, 'code', code, detail, document.attribute_place(number, attribute))
        value = document.value(number) if code.startswith(VALUES) else None
        return self.error(document, number, 'code', code, f': {named(node.tag)}' + ('' if value is None else quoted(value)))

    def of_schema(self, number, node, code):
        section, at = self.schemas.place(number, node)
        detail = ': ' + told(section.listing, at)
        lost = self.schemas.lost.get((id(section), at))
        if lost is not None:
            detail += f' of {lost}'
        elif code.startswith('src-resolve') and self.schemas.lost:
            # The name may be missing since its document is not read.
            detail += f'; not read: {", ".join(sorted(set(self.schemas.lost.values())))}'
        return self.error(section.listing, at, 'code', code, detail)

    def of_line(self, number, reason):
        at, node = self.places[min(max(number, 1), len(self.places)) - 1]
        if at is None:
            listing = self.document or self.schemas.sections[0].listing
        else:
            section, node = self.schemas.place(at + 1, node)
            listing = section.listing
        return self.error(listing, node, 'line', reason)
