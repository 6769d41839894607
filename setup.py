"""How the package is put together, beyond what pyproject.toml says: the files of the reference and the built programs go with it."""
import functools
import os
import shutil
import subprocess
import sys

from setuptools import Distribution, setup
from setuptools.command.build_py import build_py

TOP = os.path.dirname(os.path.abspath(__file__))
# (beside the sources there is a script `build`, so what setuptools writes goes to a folder that git does not look at)
WRITTEN = os.path.join("out", "python")
REFERENCE = ("braids.txt", "prime.txt", "checked.jsonl", "vectors.jsonl", "prime.jsonl", "large.jsonl")
# What `kh-page` shows of the theorem: a page, and its pictures.
THEOREM = ("INVARIANCE.md", *(os.path.join("pictures", f"{it}-states.svg") for it in ("kink", "bigon", "slide")))
PROGRAMS = ("kh_main", "scan_main")


@functools.lru_cache(maxsize=None)
def built():
    """The programs that are of the sources that stand, as `tools/built` finds, by their paths; that others are left out is said."""
    found = []
    for crate in PROGRAMS:
        path = os.path.join(TOP, "crates", crate, "out", crate)
        try:
            came = subprocess.run([os.path.join(TOP, "tools", "built"), crate], stdout=subprocess.PIPE, text=True)
        except OSError:
            continue  # (no checkout)
        if came.returncode:
            print(f"kh: {came.stdout.strip()}, so the package is without it; ./build proves and builds it", file=sys.stderr)
        else:
            found.append(path)
    return found


class WithData(build_py):
    """Builds the package with the files of the reference, and with the programs that are built, as they are now."""

    def run(self):
        # (modules that are gone are not to stay)
        shutil.rmtree(os.path.join(self.build_lib, "kh"), ignore_errors=True)
        super().run()
        if getattr(self, "editable_mode", False):
            return
        files = [(os.path.join(TOP, "reference", it), os.path.join("data", it)) for it in REFERENCE]
        files += [(it, os.path.join("bin", os.path.basename(it))) for it in built()]
        files += [(os.path.join(TOP, "docs", it), os.path.join("docs", it)) for it in THEOREM]
        for path, name in files:
            there = os.path.join(self.build_lib, "kh", name)
            os.makedirs(os.path.dirname(there), exist_ok=True)
            shutil.copy2(path, there)


class Packed(Distribution):
    """Of a machine's own kind where it has programs."""

    def has_ext_modules(self):
        return bool(built())


os.makedirs(os.path.join(TOP, WRITTEN), exist_ok=True)
setup(
    distclass=Packed,
    cmdclass={"build_py": WithData},
    packages=["kh", "kh.codes", "kh.identifying", "kh.reference", "kh.show", "kh.tabulate"],
    package_dir={"": "python"},
    package_data={"kh": ["py.typed"], "kh.show": ["*.js", "*.css"]},
    options={"build": {"build_base": WRITTEN}, "egg_info": {"egg_base": WRITTEN}},
)
