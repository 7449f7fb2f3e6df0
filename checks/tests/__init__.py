"""Tests of the checks: each has to tell the faults that it is there for.

A test makes a small repository that its check accepts, in which a script stands in for rt and a few
lines for each program. Then it puts a fault into it.
"""
