"""The script that looks at a page: what it says where there is no browser, and how it counts sheets."""
import importlib.machinery
import importlib.util
import os
import subprocess
import sys
import tempfile
import unittest

from mapper.page.page import page
from mapper.tests import samples

LOOK = os.path.join(os.path.dirname(os.path.dirname(os.path.abspath(__file__))), 'developers', 'look')


def script():
    """The script as a module."""
    sys.dont_write_bytecode = True
    loader = importlib.machinery.SourceFileLoader('look', LOOK)
    made = importlib.util.module_from_spec(importlib.util.spec_from_loader('look', loader))
    loader.exec_module(made)
    return made


class Look(unittest.TestCase):
    def test_without_a_browser_it_says_where_to_get_one(self):
        made = subprocess.run([sys.executable, LOOK, 'page.html'], env={'PATH': ''}, stderr=subprocess.PIPE, stdout=subprocess.PIPE)
        self.assertEqual(made.returncode, 1)
        self.assertEqual(made.stderr.decode().splitlines(),
                         ['Chromium is not there. Debian has it: apt-get install chromium (or give --install).'])

    def test_a_picture_is_of_one_page(self):
        made = subprocess.run([sys.executable, LOOK, 'a.html', 'b.html', '--picture', 'c.png'], stderr=subprocess.PIPE, stdout=subprocess.PIPE)
        self.assertEqual(made.returncode, 2)
        self.assertIn(b'--picture is for one page', made.stderr)

    def test_sheets_are_counted(self):
        with tempfile.TemporaryDirectory() as folder:
            name = os.path.join(folder, 'two.pdf')
            with open(name, 'wb') as file:
                file.write(b'<</Type /Pages /Count 2>> <</Type /Page >> <</Type/Page/Parent 1 0 R>>')
            self.assertEqual(script().sheets(name), 2)

    def test_two_sheets_at_most_and_the_map_on_the_first(self):
        rule = script().paper_faults
        self.assertEqual([rule(1, 1), rule(2, 1)], [[], []])
        self.assertEqual(rule(3, 1), ['more than 2 sheets'])
        self.assertEqual(rule(2, 2), ['the map is not on the first sheet'])
        self.assertEqual(rule(0, 0), ['the map is not on the first sheet'])  # Chromium printed nothing

    def test_the_upper_part_is_cut_after_the_map(self):
        """What is hidden there comes after the figure in the page."""
        text = page(samples.grid_map(4, 4, wells=3))
        self.assertEqual(text.count('</body>'), 1)
        self.assertEqual(text.count('<figure'), 1)
        before, after = text.split('</figure>')
        for part in ('class="side', 'class="refused"', 'class="wells-part"', '<footer>'):
            self.assertNotIn(part, before.split('</style>')[1])
            self.assertIn(part, after)


if __name__ == '__main__':
    unittest.main()
