"""The parts of `tools/verify`, which asks of each unit of a program whether it can fail, and shows a run where it can."""
