"""What the scripts of this folder know of Rattle's kit: where it is, the repository's crates, and the words of a check of one."""
import os
import pathlib
import shutil
import subprocess
import sys

sys.dont_write_bytecode = True
TOP = pathlib.Path(__file__).resolve().parent.parent


class Fault(Exception):
    """A sentence that says why no verdict can be given."""


def home():
    """The kit's folder: `rt doc` prints a file in it."""
    try:
        printed = subprocess.run(["rt", "doc"], capture_output=True, text=True, check=True).stdout
    except (OSError, subprocess.CalledProcessError) as error:
        raise Fault(f"cannot run 'rt doc': {error}") from error
    return pathlib.Path(printed.strip()).parent


class Crate:
    """A crate of crates.txt."""

    def __init__(self, name, is_static, deps, top):
        self.name, self.is_static, self.deps = name, is_static, deps
        self.folder = top / "crates" / name
        self.root = "src/main.rt" if (self.folder / "src" / "main.rt").is_file() else "src/lib.rt"
        self.rlib = self.folder / "out" / "rlib" / f"{name}.rlib"
        # `rt check`, `rt lib` and `rt run` write it beside a library that they build, `rt ci` does not
        self.stamp = self.folder / "out" / "rlib" / "stamp"

    def is_library(self):
        return not self.is_static and self.root == "src/lib.rt"

    def size(self):
        files = (file for part in ("src", "specs", "proofs") for file in (self.folder / part).rglob("*") if file.is_file())
        return sum(file.stat().st_size for file in files)


def crates(top=TOP):
    """The crates by name, each after those that it uses."""
    listed = {}
    for line in (top / "crates.txt").read_text().splitlines():
        head, colon, deps = line.split("#")[0].partition(":")
        if colon:
            name, *kind = head.split()
            listed[name] = Crate(name, "staticlib" in kind, deps.split(), top)
    ordered = {}

    def add(name):
        if name in listed and name not in ordered:
            for dep in listed[name].deps:
                add(dep)
            ordered[name] = listed[name]

    for name in listed:
        add(name)
    return ordered


def below(crate, every):
    """The repository's libraries below a crate."""
    found = []
    for dep in crate.deps:
        if dep in every:
            found += [one for one in [*below(every[dep], every), dep] if one not in found]
    return found


def words(crate, every, kit):
    """What `rattle check` and `rattle build` are told of a crate, over the libraries that stand in out/."""
    said = ["--crate-name", crate.name, crate.root]
    for name in ["std", *(dep for dep in crate.deps if dep not in every)]:
        said += ["--extern", f"{name}={kit}/rlibs/{name}.rlib"]
    said += ["-L", f"dependency={kit}/rlibs"]
    for dep in crate.deps:
        if dep in every:
            said += ["--extern", f"{dep}={every[dep].rlib}"]
    for name in below(crate, every):
        said += ["-L", f"dependency={every[name].rlib.parent}"]
    said += ["--antt-project", f"{kit}/rattle/logic/antt-project.json", "--logic-built", f"{kit}/logic_built", "--links", f"{crate.name}="]
    return said + (["--crate-type", "staticlib"] if crate.is_static else [])


def are_of_ci(names, every):
    """Whether these libraries stand as `rt ci` left them."""
    return all(every[name].rlib.is_dir() and not every[name].stamp.is_file() for name in names)


def brought_up_to_date(names, every):
    """Has `rt lib` build each of these libraries that is not, or no longer, what its text says."""
    for name in names:
        try:
            done = subprocess.run(["rt", "lib"], cwd=every[name].folder, stdout=subprocess.PIPE, stderr=subprocess.STDOUT, text=True, errors="replace")
        except OSError as error:
            raise Fault(f"cannot run rt: {error.strerror}") from error
        if done.returncode:
            raise Fault(f"the library {name} is not proved:\n{done.stdout[-4000:]}")


def processors():
    return len(os.sched_getaffinity(0))


def linked(folder, to):
    """Copies what a check kept: a check replaces such a file and changes none, so the large ones are links."""

    def copy(one, other):
        if one.endswith(".oantt"):
            try:
                return os.link(one, other)
            except OSError:
                pass
        return shutil.copy2(one, other)

    shutil.copytree(folder, to, copy_function=copy)
