"""From a list of wells to a map: the driller's tool around the proved program."""
