"""Tests of the front end; `python3 -m unittest` at the root of the repository runs them all."""
