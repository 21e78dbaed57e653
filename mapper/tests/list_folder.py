"""What the tests of lists share: a list that is read, or ends the run."""
from mapper.errors import Stop
from mapper.lists.nodes import read_nodes
from mapper.lists.wells import ListOptions, read_wells
from mapper.tests.support import Folder

TWO_LINES = 'A,100,200,31.5\nB,300,250,30.5\n'


class ListFolder(Folder):
    def list(self, text, **options):
        return read_wells(self.file(text), ListOptions(**options))

    def wells(self, text, **options):
        return self.list(text, **options).wells

    def numbers(self, text, **options):
        """x, y and level of each well of a list of which nothing is doubted."""
        found = self.list(text, **options)
        self.assertEqual(found.doubts, [])
        return [(well.x, well.y, well.level) for well in found.wells]

    def doubt(self, text, *words, grave=False, **options):
        """The list that is doubted once, in these words."""
        found = self.list(text, **options)
        self.assertEqual([doubt.grave for doubt in found.doubts], [grave], found.doubts)
        self.has(found.doubts[0].sentence, *words)
        return found

    def has(self, text, *words):
        for word in words:
            self.assertIn(word, text)

    def stops(self, text, *words, **options):
        with self.assertRaises(Stop) as stopped:
            self.list(text, **options)
        self.has(str(stopped.exception), *words)

    def nodes_stop(self, text, *words, external=None):
        with self.assertRaises(Stop) as stopped:
            read_nodes(self.file(text, 'nodes.csv'), external)
        self.has(str(stopped.exception), *words)

    def ends(self, text, *words, options=()):
        """The command ends with status 1, writes nothing, and says so."""
        self.has(self.refused(self.file(text), *options), *words)
