"""The programs of this checkout as cargo builds them, and what the toolchain builds beside `rt ci`."""
import functools
import json
import os
import re
import shutil

from shared import ROOT, Refused, below, ran, read_text, said_by, uses_of_crates

# The programs, each with its page for users and the package that cargo builds it from.
PAGES = {"trie_tool": "docs/PROGRAM.md", "route_tool": "docs/ROUTES.md", "trie_shell": "docs/SHELL.md"}
PACKAGES = {"trie_shell": "shell", "trie_bench": "bench"}
# The programs that are proved.
PROVED = ("trie_tool", "route_tool")
ARCHIVE, BY_LLVM = "out/libnifazombi_c.a", ".by-llvm"
LEAST = re.compile(r'^rust-version = "(\d+\.\d+)', re.M)


def least_rust():
    """The least version of Rust that builds the programs."""
    found = LEAST.search(read_text(f"{ROOT}/Cargo.toml"))
    if not found:
        raise Refused("Cargo.toml names no rust-version")
    return found[1]


def lack_of_cargo():
    """What stands in the way of a build by cargo, or nothing."""
    if not shutil.which("cargo"):
        return "cargo is not on the path"
    said = ran(["cargo", "--version"], cwd=ROOT, text=True, errors="replace")
    found = re.match(r"cargo (\d+)\.(\d+)", said.stdout)
    if not found:
        told = " ".join((said.stdout + said.stderr).split())
        return f"cargo --version ends with status {said.returncode}: {told[:200]}"
    is_new = [*map(int, found.groups())] >= [*map(int, least_rust().split("."))]
    return "" if is_new else f"cargo is {said.stdout.split()[1]}"


@functools.cache
def extracted(name):
    """The path of a program, which cargo builds where that has to be done."""
    if lack := lack_of_cargo():
        raise Refused(f"it needs cargo, {least_rust()} or later: {lack}")
    words = ["cargo", "build", "--release", "--locked", "--offline", "--bin", name]
    words += ["--package", PACKAGES.get(name, "programs"), "--message-format", "json-render-diagnostics"]
    done = ran(words, cwd=ROOT, text=True, errors="replace")
    told = [json.loads(it) for it in done.stdout.split("\n") if it.startswith("{")]
    paths = [it["executable"] for it in told if it.get("executable")]
    if done.returncode or not paths:
        raise Refused(f"cargo could not build {name}: {done.stderr.strip()[-2000:]}")
    return paths[-1]


def over_built(kit, top, crate, uses):
    """What the toolchain's rattle is told of a crate, to read it over the libraries that were built in a checkout."""
    def rlib(name):
        return f"{top}/crates/{name}/out/rlib/{name}.rlib" if name in uses else f"{kit}/rlibs/{name}.rlib"

    words = ["--crate-name", crate, "--links", f"{crate}="]
    words += ["--antt-project", f"{kit}/rattle/logic/antt-project.json", "--logic-built", f"{kit}/logic_built"]
    for name in ["std", *uses[crate]]:
        words += ["--extern", f"{name}={rlib(name)}"]
    for folder in [f"{kit}/rlibs", *(os.path.dirname(rlib(it)) for it in below(crate, uses))]:
        words += ["-L", f"dependency={folder}"]
    return words


def kit_folder():
    """The toolchain's folder."""
    return os.path.dirname(said_by(["rt", "doc"]).strip())


def build_archives(top):
    """Builds the library for other languages by both compilers, over the libraries that `rt ci` has left in a checkout.
    What went wrong, if anything."""
    kit, crate = kit_folder(), f"{top}/crates/nifazombi_c"
    words = [f"{kit}/bin/rattle", "build", "src/lib.rt", "--crate-type", "staticlib", "--toolchain", f"{kit}/toolchain"]
    words += over_built(kit, top, "nifazombi_c", uses_of_crates())
    for compiler, ending in (("llvm", BY_LLVM), ("rattle", "")):
        os.makedirs(f"{crate}/out", exist_ok=True)
        done = ran([*words, "--backend", compiler, "-o", f"{ARCHIVE}{ending}"], cwd=crate, text=True)
        if done.returncode:
            return f"{compiler}: {done.stdout[-2000:]}{done.stderr[-2000:]}"
    return ""
