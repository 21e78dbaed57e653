"""The first way to run a sheet: the proved program `wellmap`, which reads a survey file and prints a listing."""
import signal
import subprocess

from mapper.errors import Stop
from mapper.runs.listing import parsed


def printed(program, survey):
    """What the program prints for a survey's bytes."""
    try:
        ended = subprocess.run([program], input=survey, stdout=subprocess.PIPE, stderr=subprocess.DEVNULL)
    except OSError as error:
        raise Stop(f'{program} cannot be run: {error.strerror}. Remove it, and it is built anew.')
    if ended.returncode:
        raise Stop(f'{program} did not end well ({status(ended.returncode)}). Remove it, and it is built anew.')
    return ended.stdout


def status(code):
    return f'status {code}' if code > 0 else f'signal {signal.Signals(-code).name}'


class ByProgram:
    """Runs sheets by the program at this path."""
    called = 'wellmap'

    def __init__(self, path):
        self.path = path

    def answer(self, sheets, sheet):
        """A sheet's answer. Raises Refused, and Damaged where what is printed is no listing."""
        first, end = sheets.span(sheet)
        return parsed(printed(self.path, sheets[sheet]), end - first)

    def damaged(self, of, why):
        """What ends a run where the answer for something is none."""
        return Stop(f'{self.path} printed no listing for {of}: {why}. Remove it, and it is built anew.')
