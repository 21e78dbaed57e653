"""Labels: none covers another, a well or the frame."""
import random
import re
import unittest

from mapper.drawing.frame import ground
from mapper.drawing.labels import Box, line_labels, short_name, square, text_width, turned_boxes, well_labels
from mapper.drawing.map_drawing import drawing
from mapper.drawing.sheet import SIZES
from mapper.drawing.scene import scene
from mapper.tests import samples

FRAME = Box(0, 0, 400, 300)


def crossing(boxes):
    return [(a, b) for i, a in enumerate(boxes) for b in boxes[:i] if a.meets(b)]


class Wells(unittest.TestCase):
    def placed(self, count, seed):
        rng = random.Random(seed)
        places = [(rng.random() * 400, rng.random() * 300) for _ in range(count)]
        texts = [['W-%02d 47.31' % k, 'W-%02d' % k, '#%d' % k] for k in range(count)]
        return places, texts, well_labels(places, texts, 12, 4.6, FRAME)

    def test_no_label_covers_another_or_a_well_or_the_frame(self):
        for seed in range(6):
            places, texts, (labels, taken) = self.placed(40, seed)
            boxes = [one.box for one in labels if one]
            self.assertEqual(crossing(boxes), [])
            for box in boxes:
                self.assertTrue(box.within(FRAME))
                self.assertFalse(any(box.meets(square(x, y, 4.6)) for x, y in places))

    def test_with_room_everything_is_written(self):
        places = [(60 + 130 * c, 60 + 60 * r) for c in range(3) for r in range(4)]
        texts = [['W-%d 47.31' % k, 'W-%d' % k] for k in range(12)]
        labels, taken = well_labels(places, texts, 12, 4.6, FRAME)
        self.assertEqual([one.text for one in labels], [t[0] for t in texts])
        self.assertEqual(len(taken), 24)

    def test_without_room_shorter_words_and_then_none(self):
        labels, taken = well_labels([(50.0, 50.0)] * 30, [['a long name 47.31', 'a long name', '#%d' % k] for k in range(30)], 12, 4.6, FRAME)
        found = [one.text if one else None for one in labels]
        self.assertIn('a long name 47.31', found)
        self.assertIn(None, found)

    def test_other_wells_and_dots_are_left_free_if_they_can_be(self):
        dot = square(75, 40, 8)  # where the first choice, up and to the right, would lie
        label = well_labels([(50.0, 50.0)], [['W-1 47']], 12, 4.6, FRAME, [dot])[0][0]
        self.assertFalse(label.box.meets(dot))

    def test_names_are_cut_short(self):
        self.assertEqual(short_name('Brunnen am alten Wasserwerk'), 'Brunnen am alte…')
        self.assertEqual(short_name(' W \n 1 '), 'W 1')

    def test_wide_letters_are_wide(self):
        self.assertGreater(text_width('深井', 12), text_width('il', 12) * 2)


class Lines(unittest.TestCase):
    def test_labels_lie_on_their_line_and_cover_nothing(self):
        taken = [square(200, 150, 30)]
        lines = [[[(0, 50 * k), (400, 50 * k)]] for k in range(1, 6)]
        labels = line_labels(lines, ['%d' % k for k in range(1, 6)], 12, FRAME, taken)
        self.assertEqual(sorted(one.text for one in labels), ['1', '2', '3', '4', '5'])
        for one in labels:
            self.assertAlmostEqual(one.y, 50 * int(one.text))
            self.assertEqual(one.turn, 0)
        mine = [one.boxes for one in labels]
        for i, boxes in enumerate(mine):
            self.assertFalse(any(box.meets(square(200, 150, 30)) for box in boxes))
            for others in mine[:i]:
                self.assertFalse(any(a.meets(b) for a in boxes for b in others))

    def test_never_upside_down(self):
        for x, y in ((300, 299), (-300, 299), (-300, -280), (300, -280), (0, -290), (0, 290)):
            a = (350 if x < 0 else 50, 295 if y < 0 else 5)
            line = [a, (a[0] + x, a[1] + y)]
            label, = line_labels([[line]], ['47'], 12, FRAME, [], 1000)
            self.assertTrue(-90 < label.turn <= 90)

    def test_a_short_line_has_none(self):
        self.assertEqual(line_labels([[[(10, 100), (25, 100)]]], ['47.5'], 12, FRAME, []), [])

    def test_boxes_cover_the_turned_label(self):
        boxes = turned_boxes(100, 100, 90, 60, 12)
        self.assertLessEqual(min(b.top for b in boxes), 70.1)
        self.assertGreaterEqual(max(b.bottom for b in boxes), 129.9)


class Frames(unittest.TestCase):
    def test_one_scale_on_both_axes_and_north_up(self):
        g = ground(samples.grid_map(40, 30))
        self.assertAlmostEqual(g.x(g.x0 + 100) / g.y(g.y1 - 100), 1.0)
        self.assertLess(g.y(g.y1), g.y(g.y0))

    def test_everything_is_within_the_drawing(self):
        for name in ('crowded', 'tall', 'list'):
            m = samples.SAMPLES[name]()
            made = scene(m)
            for size in SIZES:
                text = drawing(m, made, size, 'coordinates as entered', '')[0]
                broad, high = map(float, re.search(r'viewBox="0 0 ([\d.]+) ([\d.]+)"', text).groups())
                self.assertLessEqual(broad, size.broad + 0.1)
                self.assertLessEqual(high, size.high + 0.1)
                for x, y, anchor, words in re.findall(r'<text x="([-\d.]+)" y="([-\d.]+)"([^>]*)>([^<]*)<', text):
                    if 'rotate' in anchor:
                        continue
                    width = text_width(words.replace('&lt;', '<').replace('&amp;', '&'), 12) * (0.5 if 'middle' in anchor else 1)
                    left = float(x) - (width if 'middle' in anchor or 'end' in anchor else 0)
                    right = float(x) + (0 if 'end' in anchor else width)
                    self.assertGreaterEqual(left, -0.6, (name, size.name, words))
                    self.assertLessEqual(right, broad + 0.6, (name, size.name, words))
                    self.assertTrue(0 < float(y) <= high, (name, size.name, words))


if __name__ == '__main__':
    unittest.main()
