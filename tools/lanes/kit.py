"""The kit's `rt` as a module, with the crates below each crate remembered."""
import importlib.machinery
import importlib.util
import os
import sys

sys.dont_write_bytecode = True
STATE = os.environ.get('LANES', '/work/lanes')
LOGS = f'{STATE}/logs'
RT = os.path.realpath(os.environ.get('RT', '/opt/rattle/bin/rt'))


def load():
    loader = importlib.machinery.SourceFileLoader('rt_of_the_kit', RT)
    made = importlib.util.module_from_spec(importlib.util.spec_from_loader('rt_of_the_kit', loader))
    sys.modules['rt_of_the_kit'] = made
    loader.exec_module(made)
    return made


rt = load()
rtlib = rt.rtlib


def remember(cls):
    found = cls.below

    def below(self):
        if '_below' not in self.__dict__:
            self.__dict__['_below'] = found(self)
        return list(self.__dict__['_below'])

    cls.below = below


remember(rtlib.Crate)
os.makedirs(LOGS, exist_ok=True)


def crates(root):
    """The crates of a clone, lowest first, as `rt ci` has them."""
    os.chdir(root)
    rt.Crate.cuts_libraries = True
    rt.Crate.allowed = rt.handles_of(root)
    return rt.crates_of(root)


def seconds(root):
    """Processor seconds of the proof of each crate, as docs/times.txt has them."""
    found = {}
    with open(f'{root}/docs/times.txt', encoding='utf-8') as lines:
        for words in map(str.split, lines):
            if words and not words[0].startswith('#') and words[1:2] not in ([], ['-']):
                found[words[0]] = float(words[1])
    return found
