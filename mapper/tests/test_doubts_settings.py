"""What is doubtful about the numbers that were given."""
from mapper.tests.support import FOUR, Folder


class Settings(Folder):
    def said(self, *words, nugget='0', sill='1', model='spherical'):
        lines = self.made(self.file(FOUR), '--grid', '3x3', '--nugget', nugget, '--sill', sill, '--range', '150', '--model', model, *words).splitlines()
        return [line for line in lines if line.startswith('Doubtful: ')]

    def test_tolerance(self):
        (said,) = self.said('--tolerance', '0.5')
        self.assertIn('The audit was told to allow 0.5, and finds little wrong then. Leave --tolerance out, which is 1e-9, or give 0.001 at most.', said)
        self.assertEqual(self.said('--tolerance', '1e-3'), [])

    def test_regularization(self):
        (said,) = self.said('--regularization', '0.03', sill='2')
        self.assertIn('The regularization, 0.03, is more than a hundredth of what the model rises to, 2: it smooths the levels at the wells away.', said)
        self.assertEqual(self.said('--regularization', '0.02', sill='2'), [])
        self.assertEqual(self.said('--regularization', '0.03', sill='2', nugget='1', model='linear'), [])

    def test_nugget(self):
        (said,) = self.said(nugget='2')
        self.assertIn('The nugget, 2, is above the sill, 1: near wells count less than far ones then. Give a --sill above the --nugget', said)
        self.assertEqual(self.said(nugget='1'), [])

    def test_nugget_of_a_linear_model(self):
        """Its top is nugget and sill together."""
        self.assertEqual(self.said(nugget='2', model='linear'), [])

    def test_all_at_once(self):
        self.assertEqual(len(self.said('--tolerance', '1', '--regularization', '0.5', nugget='2')), 3)
