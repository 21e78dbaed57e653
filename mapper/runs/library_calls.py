"""The library's proved calls, by bindings/python."""
import sys

from mapper.errors import Stop
from mapper.runs.building import ROOT, library


def library_calls(tell, progress, without_compiler):
    """The shared object's path, which is made first where it is not there, and the module of its calls; what to do where it cannot be linked."""
    path = library(tell, progress, without_compiler)
    calls = str(ROOT / 'bindings' / 'python')
    if calls not in sys.path:
        sys.path.append(calls)
    try:
        import nakwemol
    except OSError as error:  # it is no shared object, or of before the same-spot distance or 96 wells
        raise Stop(f'{error}. Remove it, and the archive beside it, and both are built anew by the next run.')
    return path, nakwemol
