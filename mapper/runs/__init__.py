"""The proved program: built where it is not there, run sheet after sheet, and what its answers mean in words."""
