"""Tests of the module orgstore, against the program that ORGSTORE_PROGRAM names.

    python3 -m unittest discover -s clients/python/tests -t clients/python

Expected bytes are worked by hand from docs/MODEL.md and docs/FORMATS.md.
"""
