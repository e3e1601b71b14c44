"""The package for Python of the checkout, with the library for C in it, as a wheel has it."""
import os
import shutil
import subprocess

from parts.repository import TOP

LIBRARY = "libllrp_c.so.0"


def package_with_library(folder):
    """Builds the library where need be, and puts a copy of the package with it into a folder. Returns the environment in which Python finds it."""
    subprocess.run([os.path.join(TOP, "library.sh")], check=True)
    copy = os.path.join(folder, "llrp_epc")
    shutil.copytree(os.path.join(TOP, "python/llrp_epc"), copy, ignore=shutil.ignore_patterns("__pycache__"))
    shutil.copy(os.path.join(TOP, "out", LIBRARY), copy)
    return {**os.environ, "PYTHONPATH": folder, "PYTHONDONTWRITEBYTECODE": "1"}
