"""The tests of the package. From the folder `python`: ``KCORE=PROGRAM python3 -m unittest``."""
import os
import sys

sys.path.insert(0, os.path.join(os.path.dirname(os.path.dirname(os.path.abspath(__file__))), "src"))
