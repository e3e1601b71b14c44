"""Puts the library for C, as library.sh makes it, into the wheel, which is one for this platform and any Python 3."""
import os
import shutil

from setuptools import Distribution, setup
from setuptools.command.build_py import build_py
from wheel.bdist_wheel import bdist_wheel

LIBRARY = "../out/libllrp_c.so.0"


class WithLibrary(build_py):
    def run(self):
        super().run()
        if not os.path.exists(LIBRARY):
            raise SystemExit(f"{LIBRARY} is not there: library.sh makes it")
        shutil.copy(LIBRARY, os.path.join(self.build_lib, "llrp_epc"))


class OfPlatform(Distribution):
    def has_ext_modules(self):
        return True


class OfAnyPython(bdist_wheel):
    def get_tag(self):
        return "py3", "none", super().get_tag()[2]


setup(distclass=OfPlatform, cmdclass={"build_py": WithLibrary, "bdist_wheel": OfAnyPython})
