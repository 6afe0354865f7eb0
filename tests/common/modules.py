"""Imports modules of the repository that are not in tests/: the examples, and those of bench/."""
import importlib
import sys
from pathlib import Path

TOP = Path(__file__).resolve().parent.parent.parent


def module_in(folder, name):
    """Imports the module `name` of a folder at the top of the repository. The module may import its neighbours."""
    place = str(TOP / folder)
    sys.path.insert(0, place)
    try:
        return importlib.import_module(name)
    finally:
        sys.path.remove(place)
