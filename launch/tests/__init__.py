"""Tests of the scripts, in which a small script stands in for rt."""
