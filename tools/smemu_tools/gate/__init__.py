"""What the gate runs besides the tests, and what builds, measures and writes tables."""
