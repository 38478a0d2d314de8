"""The program that a benchmark runs."""
import os
import pathlib
import subprocess
import sys

TOP = pathlib.Path(__file__).resolve().parent.parent


def found_program(named=None):
    """The path of the program that is named, of the one that PROGRAM in the environment names, or of the one that ./irikit runs."""
    asked = 'top=$0; . "$top/tests/gate/built" && find_program && echo "$program"'
    path = named or os.environ.get("PROGRAM")
    if not path:
        path = subprocess.run(["bash", "-c", asked, TOP], stdin=subprocess.DEVNULL, stdout=subprocess.PIPE, text=True).stdout.strip()
    if not path:
        sys.exit("bench: irikit can't be built")
    if not os.path.isfile(path) or not os.access(path, os.X_OK):
        sys.exit(f"bench: {path} is no program")
    return os.path.abspath(path)
