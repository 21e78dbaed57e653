"""Where the arrow of the trend stands: clear of wells, labels and failed nodes."""
import math
import random
import re
import unittest

from mapper.drawing.arrow import HALF, Arrow, Room, placed
from mapper.drawing.labels import Box, square
from mapper.drawing.map_drawing import arrow_with, drawing, spared, trend_arrow, well_places, wells
from mapper.drawing.scene import scene
from mapper.drawing.sheet import FONT, RADIUS, SIZES, Sheet
from mapper.tests import samples
from mapper.tests.test_page_arrow import sloped

FRAME = Box(0, 0, 400, 300)


class Clear(unittest.TestCase):
    def test_of_wells_and_labels_on_every_sample(self):
        for name in ('crowded', 'tall', 'plain', 'two_runs', 'list'):
            m = samples.SAMPLES[name]()
            made = scene(m)
            for size in SIZES:
                sheet = Sheet(made.ground, size)
                marks, boxes = trend_arrow(m, made, sheet)
                self.assertTrue(marks, (name, size.name))
                self.assertTrue(all(box.within(sheet.frame) for box in boxes))
                for x, y in well_places(m, made.ground, sheet):
                    self.assertFalse(any(box.meets(square(x, y, RADIUS * 0.7)) for box in boxes), (name, size.name))
                _, taken, _ = wells(m, made.ground, sheet, boxes)
                others = taken[len(m.wells) + len(boxes):]
                self.assertFalse(any(a.meets(b) for a in others for b in boxes), (name, size.name))

    def test_of_contour_labels(self):
        m = samples.grid_map()
        made = scene(m)
        for size in SIZES:
            _, boxes = trend_arrow(m, made, Sheet(made.ground, size))
            text = drawing(m, made, size, '', '')[0]
            for x, y in re.findall(r'<text x="0.0" y="[\d.]+" class="halo" text-anchor="middle" transform="translate\(([\d.]+) ([\d.]+)\)', text):
                self.assertFalse(any(box.meets(square(float(x), float(y), FONT * 0.5)) for box in boxes), size.name)

    def test_of_failed_cells_where_it_can(self):
        """A few failed nodes in the middle of the wells, where the arrow would stand."""
        m = sloped(-0.003, 0.004, wells=4, failed=lambda x, y: 2 if math.dist((x, y), (samples.EAST + 1000, samples.NORTH + 750)) < 60 else 0)
        for well, (u, v) in zip(m.wells, ((0.1, 0.1), (0.9, 0.1), (0.1, 0.9), (0.9, 0.9))):
            well.x, well.y = samples.EAST + 2000 * u, samples.NORTH + 1500 * v
        made = scene(m)
        for size in SIZES:
            sheet = Sheet(made.ground, size)
            failed, places = spared(m, made, sheet), well_places(m, made.ground, sheet)
            self.assertGreater(len(failed), 2)
            for spare, free in ((failed, True), ([], False)):
                arrow = arrow_with(['5.0 m/km'], 50, Room(sheet.frame, places, RADIUS + 2, spare))
                clear = all(arrow.distance((f.left + f.right) / 2, (f.top + f.bottom) / 2) >= (f.right - f.left) / 2 for f in failed)
                self.assertEqual(clear, free, size.name)


class Placed(unittest.TestCase):
    def room(self, *wells, spared=()):
        return Room(FRAME, list(wells), 5.6, spared)

    def test_far_enough_from_every_well(self):
        for seed in range(8):
            rng = random.Random(seed)
            places = [(rng.random() * 400, rng.random() * 300) for _ in range(30)]
            for turn in (0, 30, 90, 135, -60, 180):
                arrow = placed(turn, 70, 16, self.room(*places))
                self.assertIsNotNone(arrow)
                self.assertGreater(min(arrow.distance(*place) for place in places), 5.6)
                self.assertTrue(all(box.within(FRAME) for box in arrow.boxes()))

    def test_label_does_not_meet_its_arrow(self):
        for turn in range(-180, 181, 15):
            arrow = placed(turn, 90, 30, self.room((20, 20)))
            for k in range(41):
                self.assertFalse(arrow.label.meets(square(*arrow.along(arrow.length * (k / 40 - 0.5)), 2)), turn)

    def test_near_the_middle_where_there_is_room(self):
        arrow = placed(0, 70, 16, self.room((50, 50), (350, 50), (50, 250), (350, 250)))
        self.assertLess(math.dist((arrow.x, arrow.y), (200, 150)), 20)

    def test_distance_by_hand(self):
        """An arrow of 80 to the right from (60, 100): 10 past its tip, 20 off its side, and within."""
        arrow = Arrow(100, 100, 0, 80)
        self.assertEqual([arrow.distance(*place) for place in ((150, 100), (100, 120 + HALF), (80, 104))], [10, 20, 0])
        up = Arrow(100, 100, -90, 80)
        self.assertAlmostEqual(up.distance(100, 50), 10)
        self.assertEqual(up.along(40)[1], 60)
        self.assertEqual(Arrow(100, 100, 0, 80, Box(90, 120, 110, 140)).distance(100, 145), 5)

    def test_none_where_there_is_none(self):
        self.assertIsNone(placed(0, 70, 16, self.room(*((x, y) for x in range(0, 401, 20) for y in range(0, 301, 20)))))
        self.assertIsNone(placed(0, 390, 16, self.room((200, 150))))


if __name__ == '__main__':
    unittest.main()
