"""XML files as the lines that the program reads, and where in the file each line and node stands."""
import os
import re
from dataclasses import dataclass, field
from xml.parsers import expat

from .failures import NO_FILE, NO_XML, Failure, told

# A text is written in lines of at most so many characters, of four bytes at most; the program makes one text of them again.
LONGEST = 200_000
WHITE = ' \t\n\r'
ATTRIBUTE = re.compile(rb'\s([^\s=]+)\s*=\s*(?:"[^"]*"|\'[^\']*\')')
START_TAG = re.compile(rb'<[^\s/>]+(?:\s+[^\s=]+\s*=\s*(?:"[^"]*"|\'[^\']*\'))*')
ESCAPES = str.maketrans({'\\': '\\\\', '\n': '\\n', '\t': '\\t', '\r': '\\r'})


def escaped(text):
    """The text with the escapes of the stream."""
    return text.translate(ESCAPES)


class NoXml(Failure):
    """A file is no well-formed XML, or refers to what is not read."""

    def __init__(self, name, line, column, message):
        super().__init__(NO_XML, f'{name}:{line}:{column}: {message}')
        self.name, self.line, self.column, self.fault = name, line, column, message


@dataclass
class Node:
    """An element or a text of a document: where it begins, and where an element's end tag begins. Lines and columns count from 1.
    A text has no tag, an element no text, and a text no byte at which it begins."""

    line: int
    column: int
    tag: str = None
    text: str = None
    attributes: dict = field(default_factory=dict)
    children: list = field(default_factory=list)
    parent: int = None
    byte: int = None
    end_line: int = None
    end_column: int = None


class Listing:
    """The lines of a document, and its nodes, as the program numbers them: the node 1 is nodes[0].

    The data are bytes, or a text, whose XML declaration then says nothing of bytes. In a schema document texts of white space alone are left out. Comments, processing instructions and the document type are left
    out, and entities are replaced, those apart whose text stands in another file: these are refused."""

    def __init__(self, name, data, schema=False):
        self.name, self.schema, encoding = name, schema, None
        if isinstance(data, str):
            data, encoding = data.encode('utf-8', 'surrogatepass'), 'utf-8'
        self.lines, self.nodes, self.line_nodes = [], [], []
        self._text, self._text_place, self._open = [], None, []
        self._data, self._unread, self._declared = data, False, {'lt', 'gt', 'amp', 'quot', 'apos'}
        self._parser = parser = expat.ParserCreate(encoding)
        parser.ordered_attributes, parser.buffer_text = True, True
        parser.StartElementHandler, parser.EndElementHandler = self._start, self._end
        parser.CharacterDataHandler = self._characters
        parser.ExternalEntityRefHandler, parser.SkippedEntityHandler = self._external, self._skipped
        parser.StartDoctypeDeclHandler, parser.EntityDeclHandler = self._doctype, self._entity
        try:
            parser.Parse(data, True)
        except expat.ExpatError as error:
            raise NoXml(name, error.lineno, error.offset + 1, f'no well-formed XML: {expat.ErrorString(error.code)}') from None
        except ValueError as error:
            raise NoXml(name, 1, 1, f'no XML that can be read: {error}') from None

    @staticmethod
    def read(path, name=None, schema=False):
        """The listing of a file."""
        return Listing(name or path, contents(path), schema)

    def node(self, number):
        """The node of a number, or the root where there is none such."""
        return self.nodes[number - 1 if 0 < number <= len(self.nodes) else 0]

    def value(self, number):
        """The characters of an element that has no child elements, or None."""
        node = self.node(number)
        if node.tag is None or node.children:
            return None
        behind = self.nodes[number] if number < len(self.nodes) else None
        return behind.text if behind and behind.parent == number else ''

    def attribute_place(self, number, local):
        """Where the one attribute of this local name of an element begins, or None where it cannot be told, as within an entity."""
        node = self.node(number)
        tag = START_TAG.match(self._data, node.byte) if node.byte is not None else None
        found = [it for it in ATTRIBUTE.finditer(tag[0]) if it[1].rpartition(b':')[2] == local.encode()] if tag else []
        if len(found) != 1:
            return None
        before = tag[0][:found[0].start(1)].decode('utf-8', 'replace').replace('\r\n', '\n').replace('\r', '\n')
        lines = before.split('\n')
        return node.line + len(lines) - 1, (node.column if len(lines) == 1 else 1) + len(lines[-1])

    def _put(self, line, node):
        self.lines.append(line)
        self.line_nodes.append(node)

    def _place(self):
        return self._parser.CurrentLineNumber, self._parser.CurrentColumnNumber + 1

    def _flush(self):
        """Ends the text that was begun."""
        text, self._text = ''.join(self._text), []
        if not text or self.schema and not text.strip(WHITE):
            return
        self.nodes.append(Node(*self._text_place, text=text, parent=self._open[-1] if self._open else None))
        for at in range(0, len(text), LONGEST):
            self._put('-' + escaped(text[at:at + LONGEST]), len(self.nodes))

    def _start(self, tag, attributes):
        self._flush()
        if self._unread:
            self._look_at_values()
        given = dict(zip(attributes[::2], attributes[1::2]))
        parent = self._open[-1] if self._open else None
        self.nodes.append(Node(*self._place(), tag, attributes=given, parent=parent, byte=self._parser.CurrentByteIndex))
        number = len(self.nodes)
        if self._open:
            self.node(self._open[-1]).children.append(number)
        self._open.append(number)
        self._put('(' + tag, number)
        for key, value in given.items():
            self._put(f'A{key} {escaped(value)}', number)

    def _end(self, tag):
        self._flush()
        number = self._open.pop()
        self.node(number).end_line, self.node(number).end_column = self._place()
        self._put(')' + tag, number)

    def _characters(self, text):
        if not self._text:
            self._text_place = self._place()
        self._text.append(text)

    def _external(self, context, base, system, public):
        raise NoXml(self.name, *self._place(), f'the entity &{(context or "").split(chr(12))[-1]}; stands in another file ({system}), which is not read')

    def _skipped(self, entity, parameter):
        if not parameter:
            raise NoXml(self.name, *self._place(), f'the entity &{entity}; is not declared in what is read')


    def _doctype(self, tag, system, public, internal):
        self._unread = system is not None

    def _entity(self, name, *_):
        self._declared.add(name)

    def _look_at_values(self):
        """Refuses a start tag whose values have entities that are not declared: with a DTD that is not read expat leaves these out."""
        tag = START_TAG.match(self._data, self._parser.CurrentByteIndex)
        for name in re.findall(rb'&([^#;]+);', tag[0]) if tag else ():
            if name.decode('utf-8', 'replace') not in self._declared:
                self._skipped(name.decode('utf-8', 'replace'), False)


def contents(path):
    """The bytes of a file."""
    try:
        if os.path.isdir(path):
            raise Failure(NO_FILE, f'{path}: a folder')
        with open(path, 'rb') as file:
            return file.read()
    except OSError as error:
        raise Failure(NO_FILE, f'{path}: {told(error)}') from None


def collapsed(text):
    """The text with its white space collapsed."""
    return ' '.join(re.split(f'[{WHITE}]+', text.strip(WHITE)))
