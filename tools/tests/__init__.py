"""Tests of the scripts of this repository."""
