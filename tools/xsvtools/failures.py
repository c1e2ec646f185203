"""How a tool says that it cannot go on."""
import os
import signal
import sys

# Statuses of a tool's own, past those of the program, which go up to 9.
USAGE, NO_XML, NO_FILE, NO_PROGRAM, INTERRUPTED = 64, 65, 66, 69, 130


class Failure(Exception):
    """A tool ends with this status, and says this on standard error."""

    def __init__(self, status, message):
        super().__init__(message)
        self.status, self.message = status, message


def told(error):
    """The words of an error of the system, as `no such file`."""
    return (error.strerror or str(error)).lower()


def run(tool, main):
    """Runs the tool on the words of its command line, and ends with the status that it gives."""
    try:
        status = main(sys.argv[1:])
        sys.stdout.flush()
    except Failure as failure:
        print(f'{tool}: {failure.message}', file=sys.stderr)
        status = failure.status
    except KeyboardInterrupt:
        status = INTERRUPTED
    except BrokenPipeError:
        # Who reads has gone: nothing more is written, also not at the end of the interpreter.
        os.dup2(os.open(os.devnull, os.O_WRONLY), sys.stdout.fileno())
        status = 128 + signal.SIGPIPE
    sys.exit(status)
