"""The command line of the scripts."""
import argparse
from pathlib import Path


def arguments(document, /, **more):
    """Parses --program, --full, and further options, given with their defaults. The description is the first line of the script's docstring.
    An option whose default is a list takes any number of arguments, of the type of its first default."""
    parser = argparse.ArgumentParser(description=document.split("\n")[0])
    parser.add_argument("--program", required=True, type=lambda path: str(Path(path).resolve()))
    parser.add_argument("--full", action="store_true")
    for name, default in more.items():
        if isinstance(default, list):
            parser.add_argument(f"--{name}", nargs="*", type=type(default[0]) if default else str, default=default)
        else:
            parser.add_argument(f"--{name}", type=type(default), default=default)
    return parser.parse_args()
