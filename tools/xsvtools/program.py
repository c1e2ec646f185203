"""The program: where it is, and what it answers."""
import os
import subprocess

from .failures import NO_PROGRAM, Failure, told

TOP = os.path.dirname(os.path.dirname(os.path.dirname(os.path.abspath(__file__))))
PLACES = [os.path.join(TOP, 'out', 'xsv'), os.path.join(TOP, 'crates', 'xsv', 'out', 'xsv')]


def find(named=None):
    """The path of the program: the one that is named, that of the variable XSV, out/xsv, or what `rt ci` leaves."""
    named = named or os.environ.get('XSV')
    if named:
        if not os.path.isfile(named) or not os.access(named, os.X_OK):
            raise Failure(NO_PROGRAM, f'{named}: no program')
        return os.path.abspath(named)
    for place in PLACES:
        if os.path.isfile(place) and os.access(place, os.X_OK):
            return place
    raise Failure(NO_PROGRAM, 'there is no program: `make try` builds it without proof in minutes, `make prove` proves it')


def answer(program, word, stream, seconds=None):
    """The status, and the lines that are written, for a stream of bytes."""
    try:
        ran = subprocess.run([program, word], input=stream, stdout=subprocess.PIPE, timeout=seconds, check=False)
    except subprocess.TimeoutExpired:
        raise Failure(NO_PROGRAM, f'{program}: no answer within {seconds} seconds') from None
    except OSError as error:
        raise Failure(NO_PROGRAM, f'{program}: {told(error)}') from None
    if ran.returncode < 0:
        raise Failure(NO_PROGRAM, f'{program}: ended by signal {-ran.returncode}')
    return ran.returncode, ran.stdout.decode('utf-8', 'replace').split('\n')[:-1]
