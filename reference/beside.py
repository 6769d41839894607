"""Puts the folders of the second readings (`tests/`) and of measured links (`bench/`) on the path, behind that of the reference, some of
whose modules have names of those there."""
import os
import sys

HERE = os.path.dirname(os.path.abspath(__file__))
TOP = os.path.dirname(HERE)
sys.path += [os.path.join(TOP, it) for it in ("tests", "bench")]
