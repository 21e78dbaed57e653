"""Standard output that nobody reads any more: no traceback, the files all the same, and status 0."""
import os
import subprocess
from unittest import mock

from mapper.tests.support import FOUR, NUMBERS, ROOT, Folder


class Closed(Folder):
    def piped(self, words, reader):
        """The status of `./map` with these words, what it wrote to standard error, and what a reader of its standard output printed."""
        script = f'{{ "$@" 2>"$0.errors"; echo $? >"$0.status"; }} | {reader}'
        ended = subprocess.run(['sh', '-c', script, str(self.folder / 'ended'), str(ROOT / 'map'), self.file(FOUR), *NUMBERS, *words],
                               stdout=subprocess.PIPE, env={**os.environ, 'PYTHONDONTWRITEBYTECODE': '1'}, timeout=60)
        return (self.folder / 'ended.status').read_text(), (self.folder / 'ended.errors').read_text(), ended.stdout

    def test_a_reader_that_goes_after_a_line(self):
        status, errors, read = self.piped(('--grid', '20x20', '--listing'), 'head -1')
        self.assertEqual((status, errors, read), ('0\n', '', b'nodes 100\n'))
        self.assertTrue((self.folder / 'wells.html').exists())
        self.assertEqual(len(self.rows()), 400)

    def test_a_reader_that_never_reads(self):
        status, errors, _ = self.piped(('--grid', '3x3'), ':')
        self.assertEqual((status, errors), ('0\n', ''))
        self.assertEqual(len(self.rows()), 9)

    def test_at_a_place(self):
        self.assertEqual(self.piped(('--at', '5,5'), ':')[:2], ('0\n', ''))

    def test_letters_that_the_terminal_does_not_have(self):
        with mock.patch.dict(os.environ, {'PYTHONIOENCODING': 'ascii'}):
            status, errors, read = self.piped(('--at', '5,5'), 'cat')
        self.assertEqual((status, errors), ('0\n', ''))
        self.assertRegex(read, rb'^At \(5, 5\), among the wells: [0-9.]+ m \? [0-9.]+ m \(standard deviation\)')

    def test_a_refusal_stays_one(self):
        status, errors, _ = self.piped(('--tolerance', '-1'), ':')
        self.assertEqual(status, '1\n')
        self.assertIn('map: Refused (10)', errors)
