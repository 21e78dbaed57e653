"""The program and the calls are built where they are not there, and it is said; an `rt` that is none stands for the toolchain."""
import os
import shutil
import sys
import time
from pathlib import Path
from unittest import mock

from mapper.errors import Stop
from mapper.runs import building as built
from mapper.tests.support import ROOT, Folder

CRATES = '# a comment: none\nlow:\nhigh: low io\nmap: low\nwellmap: map\nnakwemol staticlib: low high\n'
# What the toolchain does in a crate's folder, as far as it is looked at: a stamp for each library that it proves, and the file that it makes. `asked` has the
# commands in their order.
RT = '''echo "${PWD##*/}: $*" >> ../../asked
mkdir -p out
proved() { for crate in $*; do mkdir -p ../$crate/out/rlib; touch ../$crate/out/rlib/stamp; done; }
case $1 in
run) proved low map
    %s
    echo a program > out/wellmap ;;
lib) proved low high
    echo an archive > out/libnakwemol.a ;;
esac'''


class Built(Folder):
    def setUp(self):
        super().setUp()
        self.said = []
        for name in ('tools', 'crates/wellmap/src', 'crates/nakwemol/src'):
            (self.folder / name).mkdir(parents=True)
        self.file(CRATES, 'crates.txt')
        self.file('', 'crates/wellmap/src/main.rt')
        shutil.copy(ROOT / 'tools/build', self.folder / 'tools/build')
        for patch in (mock.patch.object(built, 'ROOT', self.folder), mock.patch.dict(os.environ, {'PATH': f'{self.folder}/tools:/usr/bin:/bin'})):
            patch.start()
            self.addCleanup(patch.stop)
        for name in ('NAKWEMOL_WELLMAP', 'NAKWEMOL_LIBRARY'):
            os.environ.pop(name, None)

    def tool(self, script, name='tools/rt'):
        path = self.folder / name
        path.parent.mkdir(parents=True, exist_ok=True)
        path.write_text('#!/bin/sh\n' + script + '\n')
        path.chmod(0o755)

    def asked(self):
        return (self.folder / 'asked').read_text().splitlines()

    def until(self, condition):
        for _ in range(1000):
            if condition():
                return
            time.sleep(0.01)
        self.fail('waited in vain')

    def assert_gone(self, process):
        """A process has ended, or is only waited for."""
        state = Path(f'/proc/{process}/stat')
        self.until(lambda: not state.exists() or state.read_text().rsplit(')', 1)[1].split()[0] == 'Z')

    def stopped(self, call):
        with self.assertRaises(Stop) as stopped:
            call(self.said.append)
        return str(stopped.exception)


class Program(Built):
    def test_built_once(self):
        self.tool(RT % '')
        for _ in range(2):
            self.assertEqual(built.program(self.said.append), f'{self.folder}/target/bin/wellmap')
        self.assertEqual(self.asked(), ['wellmap: run'])
        self.assertIn('The program is not built yet: `tools/build wellmap` proves and builds it now, which takes some ', self.said[0])
        self.assertTrue(self.said[0].endswith(' and is done once. Ctrl-C loses only the crate in hand.'), self.said[0])
        self.assertIn('Built in', self.said[1])

    def test_one_that_was_removed_is_built_again(self):
        """The real `rt run` makes nothing anew where nothing has changed since."""
        self.tool('[ -d out ] || { mkdir out; touch out/wellmap; }')
        for _ in range(2):
            path = built.program(self.said.append)
            os.unlink(path)

    def test_no_toolchain(self):
        self.assertIn('The program is not built yet, and the Rattle toolchain (rt) that builds it is not here. Install it, or copy target/bin/wellmap '
                      'from where it was built.', self.stopped(built.program))
        self.assertEqual(self.said, [])

    def test_build_that_fails(self):
        self.tool('mkdir out; echo half > out/wellmap; echo not proved >&2; exit 1')
        said = self.stopped(built.program)
        self.assertFalse((self.folder / built.PROGRAM).exists(), 'half a program would be taken for one')
        self.assertIn(f'`tools/build wellmap` did not end well (status 1). What it printed is in {self.folder}/target/map-build.log.', said)
        self.assertEqual((self.folder / 'target/map-build.log').read_text(), 'not proved\n')

    def test_build_that_makes_nothing(self):
        self.tool('')
        self.tool('echo made nothing', 'tools/build')
        self.assertIn('target/bin/wellmap was not made, though no command failed', self.stopped(built.program))

    def test_program_that_writes_something_else(self):
        """It is run on its file stdin, and has to write what its file stdout has."""
        self.tool('mkdir -p out; cat; touch out/wellmap')
        self.file('nodes 25\n', 'crates/wellmap/stdin')
        self.file('nodes 26\n', 'crates/wellmap/stdout')
        self.assertIn('`tools/build wellmap` did not end well (status 1)', self.stopped(built.program))
        self.assertIn('tools/build: wellmap writes something else than its file stdout has', (self.folder / 'target/map-build.log').read_text())
        self.assertFalse((self.folder / built.PROGRAM).exists())
        self.file('nodes 25\n', 'crates/wellmap/stdout')
        self.assertTrue(Path(built.program(self.said.append)).is_file())

    def test_what_is_proved(self):
        """By the stamp of each library, and by what is made of the program and the archive."""
        self.assertEqual(built.done(['low', 'map', 'wellmap']), [])
        self.tool(RT % 'exit 1')
        self.stopped(built.program)
        self.assertEqual(built.done(['low', 'map', 'wellmap']), ['low', 'map'])
        self.tool(RT % '')
        built.program(self.said.append)
        self.assertEqual(built.done(['low', 'high', 'map', 'wellmap']), ['low', 'map', 'wellmap'])

    def test_named_elsewhere(self):
        with mock.patch.dict(os.environ, {'NAKWEMOL_WELLMAP': str(self.folder / 'none')}):
            self.assertIn('there is no such file', self.stopped(built.program))

    def test_folder_that_cannot_be_written(self):
        self.tool(RT % '')
        self.file('', 'target')
        self.assertIn('target cannot be written', self.stopped(built.program))


class Library(Built):
    def setUp(self):
        super().setUp()
        self.tool('echo linked; touch target/staticlib/libnakwemol.so', 'bindings/python/link')

    def test_built_with_the_program(self):
        """One command proves what both need, each crate once."""
        self.tool(RT % '')
        built.library(self.said.append)
        self.assertEqual(self.asked(), ['wellmap: run', 'nakwemol: lib'])
        self.assertIn('The program and the library of the proved calls are not built yet: ', self.said[0])
        self.assertIn(': `tools/build wellmap nakwemol` proves and builds them now, which takes some ', self.said[0])
        self.assertTrue(built.library_there())
        self.assertEqual(built.program(self.said.append), f'{self.folder}/target/bin/wellmap')
        self.assertEqual(len(self.said), 2)

    def test_every_log_is_kept(self):
        self.tool(RT % 'echo proved >&2')
        built.library(self.said.append)
        logs = [(self.folder / f'target/map-{name}.log').read_text() for name in ('build', 'link')]
        self.assertEqual(logs, ['proved\ntools/build: target/bin/wellmap\ntools/build: target/staticlib/libnakwemol.a\n', 'linked\n'])

    def test_alone_where_the_program_is_there_or_named(self):
        self.tool(RT % '')
        with mock.patch.dict(os.environ, {'NAKWEMOL_WELLMAP': sys.executable}):
            built.library(self.said.append)
        self.assertEqual(self.asked(), ['nakwemol: lib'])
        self.assertIn('The library of the proved calls is not built yet: `tools/build nakwemol` proves and builds it now', self.said[0])

    def test_linked_alone(self):
        """The archive is there: no toolchain is needed, and nothing is said."""
        for file in (built.PROGRAM, built.ARCHIVE):
            (self.folder / file).parent.mkdir(parents=True)
            (self.folder / file).touch()
        built.library(self.said.append)
        self.assertEqual((built.library_there(), self.said), (True, []))

    def test_no_toolchain(self):
        said = self.stopped(built.library)
        self.assertIn('the Rattle toolchain (rt) that builds them is not here. Install it, or copy target/bin/wellmap and ', said)
        self.assertIn('target/staticlib/libnakwemol.so from where they were built.', said)

    def test_no_compiler(self):
        """Which is said before minutes of proofs, and not after."""
        self.tool(RT % '')
        with mock.patch.dict(os.environ, {'CC': 'no-such-compiler'}):
            self.assertIn('There is no C compiler (cc) to link the library of the proved calls with. Or do without it.',
                          self.stopped(lambda tell: built.library(tell, False, 'Or do without it.')))
        self.assertFalse((self.folder / 'asked').exists())

    def test_archive_that_fails(self):
        """The program, which was built before it, stays."""
        self.tool('mkdir -p out; echo half > out/libnakwemol.a; touch out/wellmap; [ $1 = run ] || exit 3')
        self.assertIn('`tools/build wellmap nakwemol` did not end well (status 3)', self.stopped(built.library))
        self.assertEqual(((self.folder / built.PROGRAM).exists(), (self.folder / built.ARCHIVE).exists()), (True, False))
