"""The tests of the program and of the scripts."""
