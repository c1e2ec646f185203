"""Schema sets: the files that schemas lead to by include, redefine and import, and the stream that is made of them."""
import os
import pathlib
import re
import urllib.parse

from .failures import Failure
from .listing import Listing, collapsed, escaped

XS = 'http://www.w3.org/2001/XMLSchema'
XSI = 'http://www.w3.org/2001/XMLSchema-instance'


def bindings(attributes, scope):
    """The scope with the bindings of an element."""
    return {**scope, **{key[6:]: value for key, value in attributes.items() if key == 'xmlns' or key.startswith('xmlns:')}}


def expanded(name, scope):
    """The namespace and the local part of an element's name."""
    prefix, colon, local = name.rpartition(':')
    return scope.get(prefix, ''), local if colon else name


def is_schema(listing):
    """Whether the root of the document is `schema` of the schema namespace."""
    root = listing.node(1)
    return expanded(root.tag, bindings(root.attributes, {})) == (XS, 'schema')


def path_of(location, base):
    """The path that a location is of, in a document at this path, or None where it is of no file."""
    location = collapsed(location).partition('#')[0]
    scheme = re.match(r'[A-Za-z][A-Za-z0-9+.-]*:', location)
    if scheme:
        parts = urllib.parse.urlsplit(location)
        return urllib.parse.unquote(parts.path) if scheme[0].lower() == 'file:' else None
    return os.path.normpath(os.path.join(os.path.dirname(base), urllib.parse.unquote(location))) if location else None


class Section:
    """A schema document, with what it refers to: node, kind, namespace and location of each."""

    def __init__(self, path, listing):
        self.path, self.listing = path, listing
        self.location = pathlib.Path(os.path.abspath(path)).as_uri()
        root = listing.node(1)
        scope = bindings(root.attributes, {})
        self.target, self.references = root.attributes.get('targetNamespace', ''), []
        for number in root.children if is_schema(listing) else ():
            node = listing.node(number)
            space, local = expanded(node.tag, bindings(node.attributes, scope))
            if space == XS and local in ('include', 'redefine', 'import'):
                self.references.append((number, local, node.attributes.get('namespace', ''), node.attributes.get('schemaLocation')))


class SchemaSet:
    """The sections of a schema set, the first of which leads to all others.

    Where no given schema leads to all others, the first section is made: it imports or includes each. Locations are read as paths
    relative to the file that they stand in, and written as URIs of files, so that one location is one file. A location of the net is
    not followed: in its place stands the given schema that has the namespace, if there is one. `texts` has the contents of files that
    are open in an editor, by their paths."""

    def __init__(self, paths, texts=None):
        self.texts, self.sections, self.made, self.lost = texts or {}, [], False, {}
        self._by_path = {}
        self.given = [self._load(path) for path in paths]
        leader = next((one for one in self.given if self._closure(one) >= set(map(id, self.given))), None)
        order = [leader] if leader else []
        for one in self.given:
            self._reach(one, order)
        self.sections = order
        self.made = leader is None

    def _load(self, path):
        real = os.path.realpath(path)
        if real not in self._by_path:
            text = self.texts.get(real)
            listing = Listing.read(path, schema=True) if text is None else Listing(path, text, schema=True)
            self._by_path[real] = Section(path, listing)
        return self._by_path[real]

    def _target(self, section, number, kind, namespace, location):
        """The section that a reference leads to, if there is one."""
        path = path_of(location, section.path) if location is not None else None
        if path is not None and (os.path.isfile(path) or os.path.realpath(path) in self.texts):
            try:
                return self._load(path)
            except Failure:
                if kind != 'import':
                    raise
        if kind == 'import' and location is not None:
            for one in self.given:
                if one.target == namespace and one is not section:
                    return one
        if location is not None:
            self.lost[id(section), number] = location
        return None

    def _reach(self, section, order):
        """Puts the section, and those that it leads to, behind the others."""
        waiting = [section]
        while waiting:
            one = waiting.pop(0)
            if one not in order:
                order.append(one)
            elif one is not section:
                continue
            waiting += [it for it in (self._target(one, *reference) for reference in one.references) if it and it not in order]

    def _closure(self, section):
        order = []
        self._reach(section, order)
        return set(map(id, order))

    def files(self):
        """The paths of all files of the set."""
        return [one.path for one in self.sections]

    def _leading(self):
        """The lines of the section that is made."""
        lines = ['(xs:schema', 'Axmlns:xs ' + XS]
        for one in self.given:
            kind = 'import' if one.target else 'include'
            lines += ['(xs:' + kind] + (['Anamespace ' + escaped(one.target)] if one.target else [])
            lines += ['AschemaLocation ' + one.location, ')xs:' + kind]
        return lines + [')xs:schema']

    def _written(self, section):
        """The lines of a section, in which each location that is followed is the URI of the file."""
        meant = {}
        for number, *reference in section.references:
            target = self._target(section, number, *reference)
            if target:
                meant[number] = target.location
        for line, number in zip(section.listing.lines, section.listing.line_nodes):
            yield 'AschemaLocation ' + meant[number] if number in meant and line.startswith('AschemaLocation ') else line

    def stream(self):
        """The lines of all sections, and for each the section and the node that it is of."""
        lines, places = [], []
        if self.made:
            leading = self._leading()
            lines += ['schema\tmade:by-the-tool', *leading]
            places += [(0, 1)] * (1 + len(leading))
        for at, section in enumerate(self.sections, 1 if self.made else 0):
            lines += ['schema\t' + section.location, *self._written(section)]
            places += [(at, 1), *((at, number) for number in section.listing.line_nodes)]
        return lines, places

    def place(self, number, node):
        """The section and the node of what the program calls the section and the element of these numbers."""
        if not self.made:
            at = min(max(number, 1), len(self.sections)) - 1
            return self.sections[at], node
        if number >= 2:
            return self.sections[min(number - 2, len(self.sections) - 1)], node
        return self.given[min(max(node - 2, 0), len(self.given) - 1)], 1


def named_schemas(listing, path):
    """The schemas that a document names, as namespaces and locations, with the paths that these are of, or None."""
    found, scope_of = [], {None: {}}
    for number, node in enumerate(listing.nodes, 1):
        if node.tag is None:
            continue
        scope = scope_of[number] = bindings(node.attributes, scope_of[node.parent])
        for key, value in node.attributes.items():
            prefix, _, local = key.rpartition(':')
            if prefix and scope.get(prefix) == XSI:
                if local == 'schemaLocation':
                    words = value.split()
                    found += [(space, location, path_of(location, path)) for space, location in zip(words[::2], words[1::2])]
                elif local == 'noNamespaceSchemaLocation':
                    found.append(('', value, path_of(value, path)))
    return found
