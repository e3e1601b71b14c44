#!/usr/bin/env python3
"""Makes the packages for Debian, and uses what they hold in an empty root: the program, the library from C, the package for Python, and the services,
by the command lines of their units, from a simulated reader to rows of a table.

usage: tests/package.py

It needs cc, ar, strip, dpkg-deb, lintian, pkg-config, postgresql and systemd, and to be root for the services. The last line is `N passed, M failed`;
the status is 1 if something failed.
"""
import gzip
import os
import re
import subprocess
import sys
import tempfile

from parts.counting import finish_results, text_of
from parts.ports import free_port, listens_at, wait_until
from parts.repository import TOP
from parts.sites import Site, end, tags_in

# How many things are checked.
LEAST = 68
TAG, WORD = "urn:epc:tag:sgtin-96:3.0614141.812345.6789", "3074257BF7194E4000001A85"
# The newest version of the C library whose functions may be needed: that of `Depends`.
GLIBC = (2, 34)
FIELDS = """\
Package: {name}
Source: llrp
Version: {version}
Architecture: {architecture}
Maintainer: {maintainer}
Installed-Size: {size}
Priority: optional
Section: {section}
Depends: {depends}
"""
# Each package: its section, what it depends on, and what is in it besides its documents, where that is not the program's.
PACKAGES = {
    "llrp": ("utils", "libc6 (>= 2.34)", None),
    "libllrp-c0": ("libs", "libc6 (>= 2.34)", r"lib/libllrp_c\.so\.0"),
    "libllrp-c-dev": ("libdevel", "libllrp-c0 (= {version})", r"include/.*|lib/libllrp_c\.(a|so)|lib/pkgconfig/.*|share/man/man3/.*"),
    "python3-llrp-epc": ("python", "libllrp-c0 (>= {version}), python3 (>= 3.8)", r"lib/python3/.*|(bin|share/man/man1)/llrp-(conform|makers|xml)\b.*"),
}
# What a package can do without, but not well.
RECOMMENDED = {"llrp": "Recommends: tshark\n"}
MAINTAINER = "Jukyreva <packages@jukyreva.example>"
COPYRIGHT = "llrp, by Jukyreva. Copyright 2026 Jukyreva. All rights reserved.\n"


def output_of(*words, cwd=TOP, **environment):
    """Returns what a command prints, without the last line feed."""
    done = subprocess.run(words, env={**os.environ, **environment}, cwd=cwd, capture_output=True, text=True, timeout=120)
    if done.returncode:
        print(f"{' '.join(words)} ended with status {done.returncode}:\n{done.stdout}{done.stderr}")
    return done.stdout.rstrip("\n")


def files_below(root):
    """Returns the files below a folder, by their paths in it."""
    return {os.path.relpath(os.path.join(at, name), root) for at, _, names in os.walk(root) for name in names}


def unzipped(path):
    with gzip.open(path, "rt", encoding="utf-8") as file:
        return file.read()


def checks_of_control(name, package, root):
    """Yields whether a package says of itself what it has to say, and has no script that runs when it is installed but those of the services."""
    version = re.search(r'const VERSION: &str = "([^"]+)"', text_of("crates/llrp_words/src/arguments/commands.rt"))[1]
    architecture = "all" if name.startswith("python3-") else output_of("dpkg", "--print-architecture")
    yield f"the name of {name}", os.path.basename(package) == f"{name}_{version}_{architecture}.deb"
    output_of("dpkg-deb", "-e", package, os.path.join(root, "DEBIAN"))
    control = {it: text_of(f"{root}/DEBIAN/{it}") for it in os.listdir(f"{root}/DEBIAN") if it not in ("control", "md5sums")}
    shared = {"triggers": "activate-noawait ldconfig\n", "shlibs": f"libllrp_c 0 libllrp-c0 (>= {version})\n"}
    scripts = {it: control[it] for it in ("postinst", "prerm") if it in control} if name == "llrp" else {}
    yield f"what {name} has besides its files", control == (shared if name == "libllrp-c0" else scripts) and len(scripts) == 2 * (name == "llrp")
    section, depends, _ = PACKAGES[name]
    how = {"name": name, "version": version, "architecture": architecture, "maintainer": MAINTAINER, "section": section}
    wanted = FIELDS.format(**how, depends=depends.format(version=version), size=output_of("du", "-sk", f"{root}/usr").split()[0])
    wanted += RECOMMENDED.get(name, "")
    lines = [it for it in output_of("dpkg-deb", "-f", package).splitlines() if re.match(r"(?!Suggests|Description)\w", it)]
    yield f"what {name} says of itself", sorted(lines) == sorted(wanted.splitlines())
    documents = os.path.join(root, "usr/share/doc", name)
    license_text = text_of("LICENSE") if os.path.exists(os.path.join(TOP, "LICENSE")) else ""
    yield f"the copyright of {name}", text_of(f"{documents}/copyright") == COPYRIGHT + license_text
    changes = unzipped(os.path.join(documents, "changelog.gz")).splitlines()
    is_right = changes[0] == f"llrp ({version}) unstable; urgency=low" and changes[-1].startswith(f" -- {MAINTAINER}  ")
    yield f"the changes of {name}", is_right


def checks_of_files(name, package, root):
    """Yields whether a package has the files that it should, whose modes are right, that belong to root, and that are stripped."""
    files = {it.removeprefix("usr/") for it in files_below(root) if not it.startswith(("DEBIAN/", f"usr/share/doc/{name}/"))}
    fits = re.compile(PACKAGES[name][2] or f"(?!({'|'.join(it for _, _, it in PACKAGES.values() if it)})$).*")
    wrong = {it for it in files if not fits.fullmatch(it)}
    yield f"the files of {name}: {wrong}", files and not wrong
    listed = [line.split(maxsplit=5) for line in output_of("dpkg-deb", "-c", package).splitlines()]
    wanted = {"d": "drwxr-xr-x", "x": "-rwxr-xr-x", "l": "lrwxrwxrwx", "-": "-rw-r--r--"}
    runs = ("./usr/bin/", "./usr/lib/llrp/")
    kinds = [("d" if it[-1].endswith("/") else "x" if it[-1].startswith(runs) else "l" if " -> " in it[-1] else "-") for it in listed]
    wrong = [(mode, it) for kind, (mode, _, _, _, _, it) in zip(kinds, listed) if mode != wanted[kind]]
    yield f"the modes of the files of {name}: {wrong}", not wrong
    yield f"the owners of the files of {name}", {owner for _, owner, *_ in listed} == {"root/root"}
    links = ["./usr/lib/libllrp_c.so -> libllrp_c.so.0"] if name == "libllrp-c-dev" else []
    yield f"the links of {name}", [it for *_, it in listed if " -> " in it] == links
    summed = [line.removesuffix(": OK") for line in output_of("md5sum", "-c", "DEBIAN/md5sums", cwd=root).splitlines()]
    there = [it for it in files_below(root) if not it.startswith("DEBIAN/") and not os.path.islink(os.path.join(root, it))]
    yield f"each file of {name} has its sum", sorted(summed) == sorted(there)


def checks_of_binaries(root):
    """Yields whether the program and the library are stripped, and need no function of a newer C library than they say."""
    for name in ("usr/bin/llrp", "usr/lib/libllrp_c.so.0"):
        path = os.path.join(root, name)
        yield f"{name} is stripped", ".symtab" not in output_of("readelf", "-SW", path)
        needs = [tuple(map(int, it.split("."))) for it in re.findall(r"GLIBC_([\d.]+)", output_of("readelf", "-VW", path))]
        yield f"what {name} needs of the C library: {max(needs)}", max(needs) <= GLIBC


def named_files(root):
    """Returns the pages and examples that the program's help, its hints and the manual pages name, with the examples that the installed pages name, and
    the commands."""
    program = f"{root}/usr/bin/llrp"
    commands = re.findall(r"(?m)^  (\w+) ", output_of(program, "--help").split("Commands:\n")[1].split("\n\n")[0])
    texts = [output_of(program, it, "--help") for it in commands if it != "help"]
    texts += re.findall(r'"([^"]*)"', text_of("crates/llrp_files/src/hints.rt"))
    texts += [unzipped(f"{root}/usr/share/man/man1/{it}") for it in sorted(os.listdir(f"{root}/usr/share/man/man1"))]
    text = "\n".join(texts)
    documents = set(re.findall(r"docs/(\w+\.md)|\b(examples/[\w./]+\w)|\.Pa (\w+\.md)", text))
    folder = f"{root}/usr/share/doc/llrp"
    pages = "".join(text_of(f"{folder}/{it}") for it in os.listdir(folder) if it.endswith(".md"))
    examples = set(re.findall(r"\bexamples/(?:\w+/)*\w+(?:\.\w+)?", pages))
    return examples | {it for found in documents for it in found if it}, set(re.findall(r"\bllrp-\w+", text.replace("\\-", "-")))


def installed(package, folder):
    """Returns an empty root into which dpkg has installed a package, with its scripts."""
    root = os.path.join(folder, "clean")
    for it in ("etc", "var/lib/dpkg/info", "var/lib/dpkg/updates", "var/lib/dpkg/triggers"):
        os.makedirs(os.path.join(root, it))
    with open(f"{root}/var/lib/dpkg/status", "w", encoding="ascii"):
        pass
    output_of("dpkg", f"--root={root}", "--force-script-chrootless", "--force-depends", "-i", package)
    return root


def checks_of_services(package, folder):
    """Yields whether an installed package has what its services need, and these bring the tags of a simulated reader into a table."""
    root = installed(package, folder)
    yield "the user of the services", re.search(r"(?m)^llrp:x:\d+:\d+:[^:]*:/var/lib/llrp:", text_of(f"{root}/etc/passwd"))
    modes = {it: oct(os.stat(f"{root}/{it}").st_mode)[-3:] for it in ("etc/llrp", "etc/llrp/forward", "var/log/llrp", "var/lib/llrp")}
    yield f"the folders of the services: {modes}", list(modes.values()) == ["755", "755", "750", "750"]
    commands = {it: text_of(f"{root}/etc/llrp/forward/{it}") == text_of(f"examples/sinks/{it}") for it in os.listdir(f"{root}/etc/llrp/forward")}
    yield f"the commands of the services: {commands}", commands == {"broker": True, "database": True}
    places = {name: root + name for name in ("/usr/bin/llrp", "/usr/lib/llrp", "/etc/llrp/forward")}
    with tempfile.TemporaryDirectory() as work:
        os.chmod(folder, 0o755)
        site = Site(work, f"{root}/usr/lib/systemd/system", places)
        try:
            site.begin_database(f"{root}/usr/share/doc/llrp/examples/sinks/schema.sql")
            port, script = free_port(), "started+0s every 50ms for 2s seen 1 -60 urn:epc:tag:gid-96:1.2.3\n"
            reader = site.begin(["sh", "-c", f"printf '{script}' | '{root}/usr/bin/llrp' sim {port} --clock real --clients 0"])
            wait_until(lambda: listens_at(port), 20, "sim listens")
            watching = site.watch(port, OPTIONS="--antennas 1")
            site.forward("database")
            wait_until(lambda: int(site.psql("-c", "select count(*) from tags")) == 40, 20, "rows")
            end(watching)
            ended = site.after_watch(port, OPTIONS="--antennas 1")
            end(reader)
            files = [os.path.join(site.logs, it) for it in os.listdir(site.logs)]
            yield "rows of a table", list(tags_in(files).values()) == [40] and site.psql("-c", "select distinct reader, epc from tags") == "dock1|urn:epc:tag:gid-96:1.2.3\n"
            yield f"the end of the service: {ended}", ended == [(0, ""), (0, "")]
        finally:
            site.close()
    output_of("dpkg", f"--root={root}", "--force-script-chrootless", "-r", "llrp")
    yield "what is left where it is removed", not os.path.exists(f"{root}/usr") and os.path.exists(f"{root}/etc/llrp")


def checks(packages, folder):
    """Yields what is checked, and whether it is so."""
    yield "the packages", [os.path.basename(it).split("_")[0] for it in packages] == list(PACKAGES)
    root, installed = os.path.join(folder, "root"), os.path.join(folder, "installed")
    output_of("./install.sh", DESTDIR=installed, PREFIX="/usr")
    for name, package in zip(PACKAGES, packages):
        told = output_of("lintian", "--allow-root", package)
        yield f"lintian finds no error of {name}, and its name is right\n{told}", "E:" not in told and "sonames" not in told
        for to in (root, os.path.join(folder, name)):
            output_of("dpkg-deb", "-x", package, to)
        yield from checks_of_control(name, package, os.path.join(folder, name))
        yield from checks_of_files(name, package, os.path.join(folder, name))
    unpacked = {it.removesuffix(".gz") if "/man/" in it else it for it in files_below(root)}
    added = {f"usr/share/doc/{name}/{it}" for name in PACKAGES for it in ("changelog.gz", "copyright")}
    added |= {f"usr/share/doc/llrp/{it}" for it in ("NEWS.gz", "believe.html")}
    yield "the packages hold what install.sh installs", unpacked == files_below(installed) | added
    is_free = os.path.exists(os.path.join(TOP, "LICENSE"))
    yield "what README.md says of a licence", ("There is no licence yet" in text_of("README.md")) != is_free
    yield "the news", unzipped(f"{root}/usr/share/doc/llrp/NEWS.gz") == text_of("CHANGELOG.md")
    yield from checks_of_binaries(root)
    named, commands = named_files(root)
    missing = {it for it in named if not os.path.exists(f"{root}/usr/share/doc/llrp/{it}")}
    yield f"what the help, the hints and the manual name is there but {missing}", len(named) > 8 and not missing
    missing = {it for it in commands if not os.path.exists(f"{root}/usr/bin/{it}")}
    yield f"the commands that they name are there but {missing}", len(commands) > 3 and not missing
    yield from checks_of_services(packages[0], folder)

    version = output_of("dpkg-deb", "-f", packages[0], "Version")
    yield "the program runs", output_of(f"{root}/usr/bin/llrp", "--version") == f"llrp {version}"
    where = {"PKG_CONFIG_PATH": f"{root}/usr/lib/pkgconfig", "PKG_CONFIG_SYSROOT_DIR": root, "PKG_CONFIG_ALLOW_SYSTEM_CFLAGS": "1"}
    yield "pkg-config has the version", output_of("pkg-config", "--modversion", "llrp", **where) == version
    flags = output_of("pkg-config", "--cflags", "--libs", "llrp", PKG_CONFIG_ALLOW_SYSTEM_LIBS="1", **where).split()
    program, loaded = os.path.join(folder, "tags"), {"LD_LIBRARY_PATH": f"{root}/usr/lib"}
    output_of("cc", "-std=c11", "-o", program, "examples/c/tags.c", *flags)
    yield "a C program is compiled and runs", WORD in output_of(program, TAG, **loaded).upper()
    module = f"from llrp_epc import Llrp; print(Llrp().text_of_word(bytes.fromhex('{WORD}')))"
    modules = f"{root}/usr/lib/python3/dist-packages"
    yield "the package for Python finds the library below its prefix", output_of(sys.executable, "-c", module, PYTHONPATH=modules) == TAG
    for command in sorted(it for it in os.listdir(f"{root}/usr/bin") if it != "llrp"):
        yield f"{command} runs", f"usage: {command} " in output_of(f"{root}/usr/bin/{command}", "--help")


def main():
    packages = output_of("./package.sh").splitlines()
    with tempfile.TemporaryDirectory() as folder:
        return finish_results(list(checks(packages, folder)), LEAST)


if __name__ == "__main__":
    sys.exit(main())
