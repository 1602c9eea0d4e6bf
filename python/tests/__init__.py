"""Tests of the package: python -m unittest discover -s tests -t . in its folder, with the package installed."""
