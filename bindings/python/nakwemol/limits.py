"""What the calls take at most, as far as they have them: past these they are refused by 9 and 15, so that no area is made longer."""
MOST_WELLS, MOST_COLUMNS, MOST_NODES = 96, 12, 100
MOST_BINS = 64
