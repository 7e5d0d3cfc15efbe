"""The parts of `tools/release` and `tools/install`: what an installed copy of remduska has, and how it comes into a place."""
