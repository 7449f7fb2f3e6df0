"""Tests of the lists, on crates that are made up."""
