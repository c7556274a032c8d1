"""How the prover is called for one crate alone, where `rt` would first build the crates below it."""
import os
import pathlib
import shutil

TOP = pathlib.Path(__file__).resolve().parent.parent
KIT = pathlib.Path(os.path.realpath(shutil.which("rt"))).parent.parent


def libraries_of():
    """Returns what crates.txt says that each crate stands on, in the order of that file."""
    lines = (line.partition("#")[0] for line in (TOP / "crates.txt").read_text(encoding="utf-8").splitlines())
    return {name.split()[0]: below.split() for name, colon, below in (line.partition(":") for line in lines) if colon}


def crates_below(crate):
    """Returns the crates of the repository on which a crate stands, directly or through others."""
    named, found = libraries_of(), [crate]
    for it in found:
        found += [below for below in named[it] if below in named and below not in found]
    return found[1:]


def library(crate):
    """Returns where the library of a crate stands, as `rt ci` and `rt lib` leave it."""
    return TOP / f"crates/{crate}/out/rlib/{crate}.rlib"


def check(crate, sources=None):
    """Returns the words that check a crate in its folder, over the libraries of the crates below it, or over their sources
    in a folder of crates."""
    named, below = libraries_of(), crates_below(crate)
    words = [f"{KIT}/bin/rattle", "check", "--crate-name", crate, "src/lib.rt", "--jobs", "1"]
    words += ["--antt-project", f"{KIT}/rattle/logic/antt-project.json", "--logic-built", f"{KIT}/logic_built"]
    folders = [KIT / "rlibs"]
    if sources:
        of_kit = {it for of in [crate, *below] for it in ["core", "std", *named[of]]}
        own = []
        for it in below:
            words += ["--lib", f"{it}:{','.join(['core', 'std', *named[it]])}={sources / it}/src/lib.rt"]
    else:
        of_kit = {"std", *named[crate]}
        own = [f"{it}={library(it)}" for it in below if it in named[crate]]
        folders += [library(it).parent for it in below]
    for it in [*own, *(f"{it}={KIT}/rlibs/{it}.rlib" for it in sorted(of_kit - named.keys()))]:
        words += ["--extern", it]
    for it in folders:
        words += ["-L", f"dependency={it}"]
    return words
