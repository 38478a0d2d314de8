"""The wheel, for any Python 3: with the library that is beside the modules, or where none is, with the one that pkg-config finds."""
import pathlib
import re
import shutil
import subprocess

from setuptools import Distribution, setup
from setuptools.command.build_py import build_py
from wheel.bdist_wheel import bdist_wheel

SONAME = re.search('^SONAME = "(.*)"$', pathlib.Path("irikit/_library.py").read_text("utf-8"), re.M)[1]


def installed():
    """The library that is installed."""
    try:
        asked = subprocess.run(["pkg-config", "--variable=libdir", "irikit"], stdout=subprocess.PIPE, universal_newlines=True, check=True)
        library = pathlib.Path(asked.stdout.strip(), SONAME)
    except (OSError, subprocess.CalledProcessError) as error:
        raise SystemExit(f"irikit: pkg-config finds no library irikit ({error}). Install libirikit-dev, or the wheel, which has the library in it.")
    if not library.exists():
        raise SystemExit(f"irikit: {SONAME} is wanted, and {library.parent} has none. Install the libirikit-dev of this version.")
    return library


class Build(build_py):
    def run(self):
        super().run()
        beside = pathlib.Path(self.build_lib, "irikit", SONAME)
        if not beside.exists():
            shutil.copyfile(installed(), beside)


class Platform(Distribution):
    def has_ext_modules(self):
        return True  # The library is no module of Python's, and as little for any platform.


class Wheel(bdist_wheel):
    def get_tag(self):
        return "py3", "none", super().get_tag()[2]


setup(distclass=Platform, cmdclass={"bdist_wheel": Wheel, "build_py": Build})
