"""What the tests share: a folder of their own, lists in it, the command, and programs that are none."""
import contextlib
import csv
import io
import os
import struct
import sys
import tempfile
import unittest
from pathlib import Path
from unittest import mock

from mapper.main import main

ROOT = Path(__file__).resolve().parents[2]
SAMPLES = ROOT / 'samples'
sys.path.append(str(ROOT / 'bindings' / 'python'))

import nakwemol  # the proved calls, once their folder is known

FOUR = 'name,x,y,level\nA,0,0,10\nB,100,0,11\nC,0,100,12.5\nD,90,80,12\n'
NUMBERS = ('--nugget', '0', '--sill', '1', '--range', '150')
ENDING = 'coef 0000000000000000\ntrend 4026000000000000\n'  # of a listing with a constant trend: a level of 11


def bits(pattern):
    """The number whose pattern this is."""
    return struct.unpack('>d', bytes.fromhex(pattern))[0]


def section(number):
    """The text of a section of docs/REFERENCE.md."""
    text = (ROOT / 'docs' / 'REFERENCE.md').read_text(encoding='utf-8')
    return text.split(f'\n## {number}. ')[1].split('\n## ')[0]


def guide():
    """The text of mapper/README.md."""
    return (ROOT / 'mapper' / 'README.md').read_text(encoding='utf-8')


class Folder(unittest.TestCase):
    """A test with a folder of its own."""

    def setUp(self):
        self.kept = tempfile.TemporaryDirectory()
        self.addCleanup(self.kept.cleanup)
        self.folder = Path(self.kept.name)

    def file(self, text, name='wells.csv'):
        path = self.folder / name
        path.write_bytes(text if isinstance(text, bytes) else text.encode())
        return str(path)

    def program(self, script):
        """Has this script run in place of the proved program; no well is left out then, as its listings are of other nodes."""
        path = self.folder / 'program'
        path.write_text('#!/bin/sh\n' + script + '\n')
        path.chmod(0o755)
        for patch in (mock.patch.dict(os.environ, {'NAKWEMOL_WELLMAP': str(path)}), mock.patch('mapper.making.Others.left_out', lambda *_: [])):
            patch.start()
            self.addCleanup(patch.stop)

    def command(self, *arguments):
        """The status of `map` with these words, and what it wrote to standard output and standard error."""
        out, err = io.StringIO(), io.StringIO()
        with contextlib.redirect_stdout(out), contextlib.redirect_stderr(err):
            try:
                status = main([str(word) for word in arguments])
            except SystemExit as end:
                status = end.code
        return status, out.getvalue(), err.getvalue()

    def made(self, *arguments):
        """What a run that has to end well said."""
        status, out, err = self.command(*arguments)
        self.assertEqual((status, err), (0, ''), out)
        return out

    def refused(self, *arguments, status=1):
        """The sentence of a run that has to end without a file."""
        before = sorted(self.folder.rglob('*'))
        found, out, err = self.command(*arguments)
        self.assertEqual(found, status, out + err)
        self.assertEqual(sorted(self.folder.rglob('*')), before, 'a file was written')
        return err

    def rows(self, name='wells.map.csv'):
        """The map's table: a list of fields for each node."""
        lines = [line for line in (self.folder / name).read_text().splitlines() if not line.startswith('# ')]
        self.assertEqual(lines[0], 'node,x,y,level,variance,verdict,says,deviation,where')
        return list(csv.reader(lines[1:]))

    def judgements(self, name='wells.map.csv'):
        """The comment lines of the map's table, without their signs."""
        return [line[2:] for line in (self.folder / name).read_text().splitlines() if line.startswith('# ')]
