"""The program with reads, writes and requests for memory that fail: what stands between it and the C library, and the runs."""
import os
import shutil
import subprocess

from .failures import NO_PROGRAM, Failure
from .program import TOP

FOLDER = os.path.join(TOP, 'tools', 'faults')
READ_FAULT, WRITE_FAULT, NO_MEMORY, REFUSED = 7, 8, 9, 3
SECONDS = 60


def compiler():
    """A compiler of C, if there is one."""
    return shutil.which('cc') or shutil.which('clang') or shutil.which('gcc')


def row(name):
    """The stream of a row."""
    with open(f'{FOLDER}/streams/{name}.pyx', 'rb') as file:
        return file.read()


class Runs:
    def __init__(self, program, folder):
        self.program, self.shim, self.count_file = program, f'{folder}/shim.so', f'{folder}/count'
        self.wrong, self.done = [], 0
        made = subprocess.run([compiler() or 'cc', '-O1', '-shared', '-fPIC', '-o', self.shim, '-x', 'c', f'{FOLDER}/shim.c.txt', '-ldl'], check=False)
        if made.returncode:
            raise Failure(NO_PROGRAM, 'the compiler of C made no library of shim.c.txt')

    def run(self, stream, **faults):
        """The status and what is written, where these faults come."""
        named = {f'FAULT_{name.upper()}': str(value) for name, value in faults.items()}
        env = {**os.environ, 'LD_PRELOAD': self.shim, 'FAULT_COUNT': self.count_file, **named}
        ran = subprocess.run([self.program, 'session'], input=stream, stdout=subprocess.PIPE, env=env, timeout=SECONDS, check=False)
        return ran.returncode, ran.stdout

    def counts(self):
        """How many reads there were, and how many requests for memory."""
        with open(self.count_file, encoding='utf-8') as file:
            return [int(word) for word in file.read().split()]

    def note(self, name, met, given):
        self.done += 1
        if not met:
            self.wrong.append(f'{name}: status {given[0]}, written {given[1][-200:]!r}')

    def reads(self, name, stream, status, answer):
        """One byte a read, and each read fails once."""
        given = self.run(stream, piece=1)
        self.note(f'{name}, byte by byte', given == (status, answer), given)
        for call in range(1, self.counts()[0] + 1):
            given = self.run(stream, piece=1, read=call)
            self.note(f'{name}, read {call} fails', given[0] == READ_FAULT and answer.startswith(given[1]), given)

    def rooms(self, name, stream, status, answer):
        """There is room for a front of the answer, and for all of it."""
        for room in range(len(answer)):
            given = self.run(stream, room=room)
            self.note(f'{name}, room for {room}', given == (WRITE_FAULT, answer[:room]), given)
        given = self.run(stream, room=len(answer))
        self.note(f'{name}, room for all', given == (status, answer), given)

    def cuts(self, name, stream, answer):
        """The stream cut behind each byte, before the last of its line `end`."""
        for size in range(len(stream) - len(b'\n')):
            given = self.run(stream[:size])
            at = stream[:size].count(b'\n') + 1
            lines = given[1].splitlines(keepends=True)
            met = given[0] == REFUSED and lines[-1:] == [b'listing %d EndMissing\n' % at] and answer.startswith(b''.join(lines[:-1]))
            self.note(f'{name}, cut behind byte {size}', met, given)

    def requests(self, name, stream, status, answer):
        """Each request for memory refused once."""
        self.run(stream)
        refused, last = 1, self.counts()[1]
        while refused <= last:
            given = self.run(stream, memory=refused)
            met = given[0] == NO_MEMORY and answer.startswith(given[1]) or given == (status, answer)
            self.note(f'{name}, request {refused} refused', met, given)
            refused += 1
