"""Builds the package with what it brings along: the launcher, the programs of dist/, the standard's tables and the licences,
from the checkout that has this folder. pyproject.toml says everything else."""
import glob
import os
import shutil

from setuptools import setup
from setuptools.command.build_py import build_py

TOP = os.path.dirname(os.path.dirname(os.path.abspath(__file__)))


class BuildWithFiles(build_py):
    """Copies the files of the checkout into the folder `files` of the package that is built."""

    def run(self):
        super().run()
        for path in sorted([f"{TOP}/bufr", f"{TOP}/bufr-select", f"{TOP}/LICENSE", f"{TOP}/NOTICE", *glob.glob(f"{TOP}/dist/*/*"),
                            *glob.glob(f"{TOP}/tables/*")]):
            to = os.path.join(self.build_lib, "bufr", "files", os.path.relpath(path, TOP))
            os.makedirs(os.path.dirname(to), exist_ok=True)
            shutil.copyfile(path, to)
            os.chmod(to, 0o755 if os.access(path, os.X_OK) else 0o644)


commands = {"build_py": BuildWithFiles}
try:
    from wheel.bdist_wheel import bdist_wheel
except ImportError:
    pass
else:
    class WheelOfLinux(bdist_wheel):
        """A wheel for any Python 3, and for the machine that its programs run on."""

        def finalize_options(self):
            super().finalize_options()
            self.root_is_pure = False

        def get_tag(self):
            return "py3", "none", super().get_tag()[2]

    commands["bdist_wheel"] = WheelOfLinux

setup(cmdclass=commands)
