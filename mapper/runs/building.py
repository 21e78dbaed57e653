"""The proved program and the proved calls: where they are, and how they are built where they are not."""
import os
import shutil
import time
from pathlib import Path

from mapper.errors import Stop
from mapper.progress import some_time
from mapper.runs.crates import Count, CrateLine, dependencies, reached
from mapper.runs.proving import Step, alone, run_step

ROOT = Path(__file__).resolve().parents[2]
PROGRAM = Path('target/bin/wellmap')
ARCHIVE, SHARED = Path('target/staticlib/libnakwemol.a'), Path('target/staticlib/libnakwemol.so')
PROVED = Path('out/rlib/stamp')  # in a crate's folder: rt writes it once the crate is proved and its library is there
# Cores that are kept busy, on average: rt proves one crate after another, and gives a large one up to four cores and a small one two.
AT_ONCE = max(1.0, 0.5 * min(os.cpu_count() or 1, 4))
NO_COMPILER = 'There is no C compiler (cc) to link the library of the proved calls with. '


def program(tell, progress=False):
    """The program's path: what NAKWEMOL_WELLMAP names, else the repository's, which is proved and built first where it is not there."""
    named = os.environ.get('NAKWEMOL_WELLMAP')
    if named:
        if not Path(named).is_file():
            raise Stop(f'NAKWEMOL_WELLMAP names {named}, and there is no such file.')
        return named
    if missing(PROGRAM):
        build(tell, progress, PROGRAM)
    return str(ROOT / PROGRAM)


def library(tell, progress=False, without_compiler='Install one.'):
    """The path of the shared object that bindings/python loads, which is made where it is not there, and the program with it; NAKWEMOL_LIBRARY names
    another. It says what to do where there is no compiler to link it with."""
    if not library_there():
        if shutil.which(os.environ.get('CC', 'cc')) is None:
            raise Stop(NO_COMPILER + without_compiler)
        build(tell, progress, *([] if os.environ.get('NAKWEMOL_WELLMAP') else [PROGRAM]), ARCHIVE, SHARED)
    return os.environ.get('NAKWEMOL_LIBRARY') or str(ROOT / SHARED)


def library_there():
    return bool(os.environ.get('NAKWEMOL_LIBRARY')) or not missing(SHARED)


def missing(*files):
    """Those of the files that are not there."""
    return [file for file in files if not (ROOT / file).is_file()]


def build(tell, progress, *wanted):
    """Proves and builds what is not there, one run at a time."""
    if shutil.which('rt') is None and missing(*wanted) != [SHARED]:
        raise Stop(no_toolchain(missing(*wanted)))
    with alone(ROOT, tell) as lock:
        lacking = missing(*wanted)  # another run may have built some of it meanwhile
        if PROGRAM in lacking or ARCHIVE in lacking:
            prove(tell, progress, PROGRAM in lacking, ARCHIVE in lacking, lock)
        if SHARED in lacking:
            run_step(ROOT, Step(['bindings/python/link'], 'map-link.log', SHARED), lock)
    if missing(*wanted):
        raise Stop(f'{missing(*wanted)[0]} was not made, though no command failed. What was printed is in {ROOT / "target"}/map-*.log.')


def step_of(with_program, with_archive):
    """The command, and the crates that it proves."""
    names = ['wellmap'] * with_program + ['nakwemol'] * with_archive
    return Step(['tools/build', *names], 'map-build.log'), reached(names, dependencies(ROOT / 'crates.txt'))


def prove(tell, progress, with_program, with_archive, lock):
    """Proves the program, the archive or both; says so before and after."""
    step, crates = step_of(with_program, with_archive)
    count, began = Count(crates, AT_ONCE, done(crates)), time.monotonic()
    tell(f'{not_built(with_program, with_archive)}: `{" ".join(step.command)}` proves and builds {"them" if with_program and with_archive else "it"} now, '
         f'which takes {some_time(count.ahead)} and is done once. Ctrl-C loses only the crate in hand.')
    try:
        with CrateLine(count, progress) as line:
            run_step(ROOT, step, lock, lambda: line.show(done(crates)))
    except KeyboardInterrupt:
        raise KeyboardInterrupt(f'stopped: {len(done(crates))} of {len(crates)} crates are proved and stay so, only the one in hand is lost. '
                                'The next run goes on from there; no map was written.')
    tell(f'Built in {time.monotonic() - began:.0f} s.')


def done(crates):
    """Those of the crates that are proved."""
    made = {'wellmap': PROGRAM, 'nakwemol': ARCHIVE}
    return [name for name in crates if (ROOT / made.get(name, Path('crates', name, PROVED))).is_file()]


def not_built(with_program, with_archive):
    if with_program and with_archive:
        return 'The program and the library of the proved calls are not built yet'
    return f'The {"program" if with_program else "library of the proved calls"} is not built yet'


def no_toolchain(lacking):
    """What to do where nothing can be built."""
    both = PROGRAM in lacking and SHARED in lacking
    copied = ' and '.join(str(file) for file in lacking if file != ARCHIVE)
    return (f'{not_built(PROGRAM in lacking, SHARED in lacking)}, and the Rattle toolchain (rt) that builds {"them" if both else "it"} is not here. '
            f'Install it, or copy {copied} from where {"they were" if both else "it was"} built.')
