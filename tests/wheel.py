#!/usr/bin/env python3
"""Makes the wheel of python/ as docs/library.md says, and looks at what is in it; installs it into an empty folder, and runs there the
tests of python/tests and the Python of README.md and docs/library.md; and has mypy look for faults of the package, its tests and the
examples.

usage: tests/wheel.py

It needs what library.sh needs, and Debian's packages python3-pip, python3-pytest and mypy. The last line is `N passed, M failed`; the
status is 1 if something failed.
"""
import os
import re
import shutil
import subprocess
import sys
import sysconfig
import tempfile
import zipfile

from parts.counting import finish, snippet, text_of
from parts.repository import TOP

# How many things are checked, and how many tests the package has.
LEAST, TESTS = 67, 148
# The Python for which Debian has pip, pytest and mypy.
PYTHON = "/usr/bin/python3"
LIBRARY = "libllrp_c.so.0"
# What is beside the package and has types.
SCRIPTS = ["python/check_definitions.py", "python/write_standard.py"]
ENTRY_POINTS = """\
[console_scripts]
llrp-conform = llrp_epc.conform:main
llrp-makers = llrp_epc.makers:main
llrp-xml = llrp_epc.ltkxml:main

[pytest11]
llrp = llrp_epc.conform_pytest
"""
# pip asks no registry, and Python leaves nothing of what it compiled.
ENVIRONMENT = {"PIP_NO_INDEX": "1", "PIP_DISABLE_PIP_VERSION_CHECK": "1", "PIP_ROOT_USER_ACTION": "ignore", "PYTHONDONTWRITEBYTECODE": "1"}


def run(*words, cwd, **environment):
    """Returns the status of a command, and what it writes."""
    how = {"cwd": cwd, "env": {**os.environ, **ENVIRONMENT, **environment}, "stdout": subprocess.PIPE, "stderr": subprocess.STDOUT}
    done = subprocess.run(words, text=True, timeout=300, **how)
    return done.returncode, done.stdout


def copy_of_package(folder, name, library):
    """Copies python/, and the library where that is wanted, into a folder of their own. Returns the copy of python/."""
    copy = os.path.join(folder, name)
    os.makedirs(os.path.join(copy, "out"))
    if library:
        shutil.copy(os.path.join(TOP, "out", LIBRARY), os.path.join(copy, "out"))
    generated = shutil.ignore_patterns("build", "*.egg-info", "__pycache__", "*.whl")
    return shutil.copytree(os.path.join(TOP, "python"), os.path.join(copy, "python"), ignore=generated)


def pip(command, folder):
    """Runs a command of pip, as a page shows it, by the Python of Debian."""
    return run(PYTHON, "-m", *command.split(), cwd=folder)


def checks_of_wheel(wheel):
    """Yields whether the wheel has its name, the package with the library, and no more."""
    version = re.search(r'const VERSION: &str = "([^"]+)"', text_of("crates/llrp_words/src/arguments/commands.rt"))[1]
    platform = re.sub(r"[-.]", "_", sysconfig.get_platform())
    yield f"the wheel's name: {wheel}", os.path.basename(wheel) == f"llrp_epc-{version}-py3-none-{platform}.whl"
    with zipfile.ZipFile(wheel) as file:
        found = {it for it in file.namelist() if ".dist-info/" not in it}
        sources = {f"llrp_epc/{it}" for it in os.listdir(os.path.join(TOP, "python/llrp_epc")) if it != "__pycache__"}
        yield f"what is in the wheel: {found}", found == {*sources, f"llrp_epc/{LIBRARY}"}
        for name in sorted(sources):
            yield f"the wheel's {name}", file.read(name).decode() == text_of(f"python/{name}")
        with open(os.path.join(TOP, "out", LIBRARY), "rb") as library:
            yield "the library in the wheel", file.read(f"llrp_epc/{LIBRARY}") == library.read()
        metadata = file.read(f"llrp_epc-{version}.dist-info/METADATA").decode()
        yield "the wheel's commands and plugin", file.read(f"llrp_epc-{version}.dist-info/entry_points.txt").decode() == ENTRY_POINTS
        yield "the wheel's version", f"\nVersion: {version}\n" in metadata and "Requires-Dist" not in metadata


# A wrong use of each call, by what it is given, and of those that return more than octets or a text also by what they return.
WRONG_USES = [
    "Llrp().encode(b'')", "Llrp().pack('')", "Llrp().text_of_word('')", "Llrp().text_and_fault('')", "Llrp().word_of_text('').format()",
    "Llrp().word(b'')", "Llrp().forms('')", "Llrp().forms(b'')[0]", "list(Llrp().stream(''))", "Llrp().messages('')", "Llrp().list('')",
    "Llrp().list(b'')[0].none", "Llrp().explain('')", "Llrp().explain(b'').none()", "Llrp().tags('')", "Llrp().tags(b'')[0].none",
    "Llrp().frame_length('')", "Llrp().name('')",
]


def checks_of_types(folder):
    """Yields whether mypy finds nothing in the package, its tests and the examples, and finds a wrong use of the package."""
    words, how = ["mypy", "--strict", "--cache-dir", f"{folder}/mypy"], {"cwd": TOP, "MYPYPATH": "python"}
    status, told = run(*words, "python/llrp_epc", "python/tests", "examples/python", *SCRIPTS, **how)
    yield f"mypy finds nothing\n{told}", status == 0
    for wrong in WRONG_USES:
        status, told = run(*words, "-c", f"from llrp_epc import Llrp\n{wrong}", **how)
        yield f"mypy refuses {wrong}\n{told}", status == 1 and told.endswith("Found 1 error in 1 file (checked 1 source file)\n")


def checks_of_help(installed):
    """Yields whether pydoc shows the package's version, and a sentence on each thing that has a name for users."""
    status, page = run(PYTHON, "-m", "pydoc", "llrp_epc", cwd=installed)
    yield "pydoc", status == 0 and f"{installed}/llrp_epc/__init__.py" in page
    code = "import llrp_epc as it; print([v for o in (it, it.Llrp) for v in vars(o).values()"
    code += " if type(v) in (type, type(o.__init__)) and not v.__doc__])"
    yield "each name has a sentence", run(PYTHON, "-c", code, cwd=installed) == (0, "[]\n")


def checks_of_commands(installed):
    """Yields whether the wheel's commands run, and whether pytest finds its plugin by itself."""
    for name in re.findall(r"(?m)^(llrp-\w+) = ", ENTRY_POINTS):
        status, told = run(f"{installed}/bin/{name}", "--help", cwd=installed, PYTHONPATH=installed)
        yield f"{name} --help\n{told}", status == 0 and f"usage: {name} " in told
    status, told = run("pytest-3", "--help", cwd=installed, PYTHONPATH=installed)
    yield "the plugin of pytest", status == 0 and "--llrp=HOST[:PORT]" in told


def runs_in_python(code, names):
    """Runs lines of Python with these names. Returns what each expression, or the name of an assignment whose comment is a value,
    gives, and its comment."""
    found = []
    for line in code.splitlines():
        statement, _, comment = re.match(r"(.*?)(\s+# (.*))?$", line).groups()
        target = re.match(r"([\w, ]+) = ", statement)
        exec(statement, names)
        if comment and (target is None or comment.startswith("(")):
            found.append((eval(target[1] if target else statement, names), comment))
    return found


def checks_of_documents(installed):
    """Yields whether the Python of README.md runs over the installed wheel, and that of docs/library.md gives what its comments say."""
    sys.path.insert(0, installed)
    names = {"received": bytes.fromhex("083E0000000A00000007 08")}
    runs_in_python(snippet("README.md", "of it with the library inside:"), names)
    yield "the Python of README.md", names["received"] == b"\x08" and names["sent"].hex() == "04480000000a00000007"
    found = runs_in_python(snippet("docs/library.md", "Then, in Python:"), {})
    yield "the Python of docs/library.md", len(found) == 11
    for value, comment in found:
        yield f"docs/library.md: {comment}", value == eval(comment)


def checks(folder):
    """Yields what is checked, and whether it is so."""
    _, make, install = snippet("docs/library.md", "and install it:").splitlines()
    status, told = pip(make, copy_of_package(folder, "without", False))
    yield f"no wheel without the library\n{told}", status != 0 and f"../out/{LIBRARY} is not there: library.sh makes it" in told
    package, installed = copy_of_package(folder, "checkout", True), os.path.join(folder, "installed")
    status, told = pip(make, package)
    wheels = [it for it in os.listdir(package) if it.endswith(".whl")]
    yield f"a wheel\n{told}", status == 0 and len(wheels) == 1
    yield from checks_of_wheel(os.path.join(package, wheels[0]))
    status, told = pip(install.replace("llrp_epc-*.whl", f"--target {installed} {wheels[0]}"), package)
    yield f"the wheel is installed\n{told}", status == 0
    yield from checks_of_types(folder)
    yield from checks_of_help(installed)
    yield from checks_of_commands(installed)
    yield from checks_of_documents(installed)


def test_package(folder):
    """Returns how many tests of the package pass, and how many do not."""
    words = ["-q", "-p", "no:cacheprovider", os.path.join(TOP, "python/tests")]
    status, told = run("pytest-3", *words, cwd=folder, PYTHONPATH=os.path.join(folder, "installed"))
    passed, failed = (int((re.search(rf"(\d+) {it}", told.splitlines()[-1]) or [0, 0])[1]) for it in ("passed", "failed"))
    if status or passed < TESTS:
        print(told)
    return passed, failed + (status != 0 and failed == 0)


def main():
    subprocess.run([os.path.join(TOP, "library.sh")], check=True)
    with tempfile.TemporaryDirectory() as folder:
        results = list(checks(folder))
        passed, failed = test_package(folder)
    wrong = [what for what, is_right in results if not is_right]
    for what in wrong:
        print(f"WRONG: {what}")
    return finish(len(results) - len(wrong) + passed, len(wrong) + failed, LEAST + TESTS)


if __name__ == "__main__":
    sys.exit(main())
