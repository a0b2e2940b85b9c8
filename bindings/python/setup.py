"""Builds a wheel that has the shared object of the library, for the platform of that.

REGEX_LITE_FOLDER names the folder that `bin/library` has built into. Nothing is written beside the
sources."""

import os
import tempfile
from pathlib import Path
from typing import Dict, Tuple, Type

from setuptools import Command, Distribution, setup
from setuptools.command.build_py import build_py
from setuptools.errors import SetupError

try:
    from setuptools.command.bdist_wheel import bdist_wheel
except ImportError:  # before setuptools 70.1
    try:
        from wheel.bdist_wheel import bdist_wheel
    except ImportError:  # A source distribution can be built without it.
        bdist_wheel = None

NAME = 'libregex_lite.so'


class PlatformDistribution(Distribution):
    """What depends on the platform, though no module is compiled for it."""

    def has_ext_modules(self) -> bool:
        """Whether it depends on the platform."""
        return True


class BuildWithLibrary(build_py):
    """Builds the package with the shared object in it."""

    def run(self) -> None:
        """Builds the package; an editable one takes the shared object from where it is."""
        super().run()
        if getattr(self, 'editable_mode', False):
            return
        folder = os.environ.get('REGEX_LITE_FOLDER')
        if not folder or not Path(folder, NAME).is_file():
            raise SetupError(f'There is no {NAME} in the folder that REGEX_LITE_FOLDER names '
                             f'({folder}). Build it by `bin/library FOLDER`, and set '
                             'REGEX_LITE_FOLDER to FOLDER.')
        self.copy_file(str(Path(folder, NAME)), str(Path(self.build_lib, 'regex_lite', NAME)))


COMMANDS: Dict[str, Type[Command]] = {'build_py': BuildWithLibrary}
if bdist_wheel is not None:
    class PlatformWheel(bdist_wheel):
        """A wheel for one platform and for every Python 3."""

        def get_tag(self) -> Tuple[str, str, str]:
            """The tag: the package needs no more of Python than ctypes."""
            return 'py3', 'none', super().get_tag()[2]

    COMMANDS['bdist_wheel'] = PlatformWheel

with tempfile.TemporaryDirectory() as scratch:
    setup(distclass=PlatformDistribution, cmdclass=COMMANDS,
          options={'build': {'build_base': scratch}, 'egg_info': {'egg_base': scratch}})
