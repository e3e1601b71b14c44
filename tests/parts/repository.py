"""What all scripts share: where the repository is, and the program that a script is run over."""
import os
import sys

TESTS = os.path.dirname(os.path.dirname(os.path.realpath(__file__)))
TOP = os.path.dirname(TESTS)


def built(crate):
    """Returns the path of the program of a crate."""
    return os.path.join(TOP, "crates", crate, "out", crate)


def program_given(crate="llrp"):
    """Returns the program that the script's word names, or where it has none the crate's."""
    return os.path.abspath(sys.argv[1]) if len(sys.argv) > 1 else built(crate)
