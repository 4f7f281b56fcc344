"""The declarations of what nifazombi_c exports, for C, Rust and Python, as its sources have them."""
import functools
import re

from shared import text_of
from sources import paths

CRATE, HEADER, RUST = "crates/nifazombi_c", "bindings/c/nifazombi.h", "rust/nifazombi_c/src/exports.rs"
PYTHON = "bindings/python/nifazombi/_exports.py"
# Structs that callers pass stand there, and in these sources below, by the modules of their calls.
BELOW = {"ipv4": "crates/flat_routes/src/ipv4.rt", "ipv6": "crates/flat_routes/src/ipv6.rt",
         "texts": "crates/flat_texts/src/pair.rt"}
DOCUMENTED = r"((?:^///.*\n)+)"
EXPORT = re.compile(DOCUMENTED + r'^#\[unsafe\(no_mangle\)\]\npub extern "C" fn (\w+)\(([^)]*)\)(?: -> (\w+))?', re.M)
STRUCT = re.compile(DOCUMENTED +
                    r"^#\[repr\(C\)\]\n(?:#\[.*\]\n)*pub struct (\w+)(?:<'a>)? \{\n((?:    .*\n)*)\}", re.M)
CONSTANT = re.compile(DOCUMENTED + r"^pub const (\w+): u32 = (\d+);", re.M)
FIELD = re.compile(r"^    pub (\w+: .+),$", re.M)
OCTETS = re.compile(r"\[u8; (\d+)\]")
# What C and Python call Rust's own types.
NUMBERS = {"u8": ("uint8_t", "c_uint8"), "u32": ("uint32_t", "c_uint32"), "u64": ("uint64_t", "c_uint64"),
           "usize": ("size_t", "c_size_t"), "bool": ("bool", "c_bool")}
HEAD = """// Made by `tools/checks/texts --write` of the sources of crates/nifazombi_c.
//
// Tables in one run of bytes, searched where they lie. Each call takes any bytes whatever, ends, and reads only inside
// them. Nothing is kept between two calls, and nothing allocated, but in a library that Cargo built by a call that is
// passed pairs: where there is no memory for a list of them, `nifazombi_texts_image_len` returns 0, and
// `nifazombi_texts_write` NIFAZOMBI_ERROR_FULL. A pointer may be anything where its length is 0, and else it is never
// NULL, nor is one without a length, such as `at`. What a call only reads, nobody may write to during the call, and
// what it writes to is of no use to anybody else. A list of IPv6 addresses is of arrays of 16 octets, or of `struct
// in6_addr`, and its length is how many they are.
"""
C_HEAD = """#ifndef NIFAZOMBI_H
#define NIFAZOMBI_H

#include <stdbool.h>
#include <stddef.h>
#include <stdint.h>

#ifdef __cplusplus
extern "C" {
#endif
"""
RUST_HEAD = """//! Made by `tools/checks/texts --write` of the sources of crates/nifazombi_c.
//!
//! What C calls, by the declarations of `nifazombi.h`: each export makes slices and references of
//! its pointers, and has the extracted call of its name do the rest.
#![allow(clippy::missing_safety_doc, reason = "the header says it of all")]

use crate::nifazombi_c::results::{NIFAZOMBI_ERROR_FULL, Span};
use crate::nifazombi_c::{ipv4, ipv6, results, texts};
use nifazombi::flat_routes::ipv4::{Change as Ipv4Change, Row as Ipv4Row};
use nifazombi::flat_routes::ipv6::{Change as Ipv6Change, Row as Ipv6Row};
use nifazombi::flat_texts::{Pair, Place as TextsPlace};
use std::slice::{from_raw_parts, from_raw_parts_mut};

/// A slice of C's, whose pointer may be anything where it has no elements.
///
/// # Safety
///
/// So many elements are there, and nobody writes to them meanwhile.
unsafe fn slice<'a, T>(first: *const T, len: usize) -> &'a [T] {
    if len == 0 {
        return &[];
    }
    // SAFETY: the caller's.
    unsafe { from_raw_parts(first, len) }
}

/// A slice of C's that is written to.
///
/// # Safety
///
/// So many elements are there, and nobody else reads or writes them meanwhile. To Rust memory of
/// another language has some bytes, also where nothing was stored there, and any will do for `T`.
unsafe fn slice_mut<'a, T>(first: *mut T, len: usize) -> &'a mut [T] {
    if len == 0 {
        return &mut [];
    }
    // SAFETY: the caller's.
    unsafe { from_raw_parts_mut(first, len) }
}

/// C's pairs as Rust's, in a list of their own, since Rust doesn't say how a slice is laid out, or
/// None where there is no memory for it.
///
/// # Safety
///
/// So many pairs are there, and the key of each, and nobody writes to them meanwhile.
unsafe fn pairs_of<'a>(first: *const TextsPair, len: usize) -> Option<Vec<Pair<'a>>> {
    let mut made = Vec::new();
    made.try_reserve_exact(len).ok()?;
    // SAFETY: the caller's.
    made.extend(unsafe { slice(first, len) }.iter().map(|it| Pair {
        // SAFETY: the caller's.
        key: unsafe { slice(it.key, it.key_len) },
        value: it.value,
    }));
    Some(made)
}
"""
# Why an export may make slices and references of what it is passed.
SAFE = "    // SAFETY: callers pass live memory, and share only what is read, as the header asks.\n"
# What an export returns where there is no memory for a list of pairs.
NO_MEMORY = {"usize": "0", "u32": "NIFAZOMBI_ERROR_FULL"}
PYTHON_HEAD = """# Made by `tools/checks/texts --write` of the sources of crates/nifazombi_c.
from ctypes import POINTER, Structure, c_bool, c_size_t, c_uint8, c_uint32, c_uint64, c_void_p
"""


class Passed:
    """A field or a parameter: its name and its kind, and of that whether it points, to a slice or not, whether it may
    be written to, of how many octets it is, if of these alone, and what C, Rust and Python call what it is of."""

    def __init__(self, text, module, structs):
        self.name, self.kind = text.strip().split(": ", 1)
        self.inner = re.sub("^&(?:'a )?(?:mut )?", "", self.kind)
        self.points, self.is_written = self.inner != self.kind, self.kind.startswith("&mut ")
        self.is_slice = self.inner.startswith("[") and not OCTETS.fullmatch(self.inner)
        self.inner = self.inner[1:-1] if self.is_slice else self.inner
        self.is_lent = "<" in self.inner
        self.octets, of = OCTETS.fullmatch(self.inner), self.inner.partition("<")[0]
        if not self.octets and of not in NUMBERS:
            home = module if (module, of) in structs else next(at for at, it in structs if it == of)
            self.c, self.python = c_name(home, of), rust_name(home, of)
            self.kind, self.inner = (it.replace(of, self.python) for it in (self.kind, self.inner))
        elif not self.octets:
            self.c, self.python = NUMBERS[of]

    def in_c(self):
        """Its declarations in C: a slice is a pointer and a length. One of arrays is a pointer to anything: before C23 a
        pointer to arrays doesn't pass for one to constant arrays."""
        access = "const " if self.points and not self.is_written else ""
        if self.octets:
            text = f"void *{self.name}" if self.is_slice else f"uint8_t {self.name}[{self.octets[1]}]"
        else:
            text = f"{self.c} {'*' * self.points}{self.name}"
        return [access + text, *[f"size_t {self.name}_len"] * self.is_slice]

    def in_rust(self):
        """How Rust declares it to C."""
        pointer = f"{self.name}: *{'mut' if self.is_written else 'const'} {self.inner.partition('<')[0]}"
        return [pointer if self.points else f"{self.name}: {self.kind}", *[f"{self.name}_len: usize"] * self.is_slice]

    def made_in_rust(self):
        """What Rust makes of what C passes. A list of pairs is one by then."""
        if self.is_slice:
            given = f"slice{'_mut' * self.is_written}({self.name}, {self.name}_len)"
            return f"&{self.name}" if self.is_lent else given
        return f"&{'mut ' * self.is_written}*{self.name}" if self.points else self.name

    def in_python(self):
        """What ctypes calls it."""
        if self.is_slice or self.octets:
            return ["c_void_p", *["c_size_t"] * self.is_slice] if self.points else [f"c_uint8 * {self.octets[1]}"]
        return [f"POINTER({self.python})" if self.points else self.python]


def c_name(module, name):
    return f"nifazombi_{name.lower()}" if module == "results" else f"nifazombi_{module}_{name.lower()}"


def rust_name(module, name):
    return name if module == "results" else f"{module.capitalize()}{name}"


@functools.cache
def declared():
    """The constants, the structs and the exports of all sources, each with its comment."""
    own = {re.search(r"(\w+)\.rt", it)[1]: it for it in paths(f"{CRATE}/src/*.rt")}
    texts = [(module, text_of(it)) for module, it in (*BELOW.items(), *own.items())]
    known = [(module, it[2]) for module, text in texts for it in STRUCT.finditer(text)]
    constants = [it for _, text in texts for it in CONSTANT.findall(text)]
    structs = [(lines, module, name, [Passed(it, module, known) for it in FIELD.findall(rows)])
               for module, text in texts for lines, name, rows in STRUCT.findall(text)]
    exports = [(lines, module, name, [Passed(it, module, known) for it in passed.split(",") if it.strip()], result)
               for module, text in texts for lines, name, passed, result in EXPORT.findall(text)]
    return constants, structs, exports


def comment(lines, by):
    """A comment's lines with another beginning."""
    return re.sub(r"^/// ?", by, lines, flags=re.M).replace(f"{by}\n", f"{by.rstrip()}\n")


def folded(head, items):
    """A declaration in one line, or with each parameter in a line of its own."""
    line = f"{head}({', '.join(items)})"
    return line if len(line) < 120 else f"{head}(\n    " + ",\n    ".join(items) + ")"


def header():
    """The header for C."""
    (constants, structs, exports), made = declared(), [HEAD, C_HEAD]
    for lines, name, number in constants:
        made.append(f"{comment(lines, '// ')}#define {name} {number}\n")
    for lines, module, name, fields in structs:
        rows = "".join(f"    {row};\n" for it in fields for row in it.in_c())
        made.append(f"{comment(lines, '// ')}typedef struct {{\n{rows}}} {c_name(module, name)};\n")
    for lines, _, name, passed, result in exports:
        head = f"{NUMBERS[result][0] if result else 'void'} {name}"
        made.append(f"{comment(lines, '// ')}{folded(head, [', '.join(it.in_c()) for it in passed])};\n")
    return "\n".join([*made, "#ifdef __cplusplus\n}\n#endif\n\n#endif\n"])


def rust_call(head, items, tail=""):
    """A call as rustfmt has it: in one line where that isn't long, or with each item in a line of its own."""
    line, margin = f"{head}({', '.join(items)}){tail}", re.match(" *", head)[0]
    rows = "".join(f"{margin}    {it},\n" for it in items)
    return line if len(line) <= 100 else f"{head}(\n{rows}{margin}){tail}"


def rust_export(lines, module, name, passed, result):
    """An export for C, by the extracted call of its name."""
    rows, back = [it for one in passed for it in one.in_rust()], f" -> {result}" if result else ""
    made = [comment(lines, "/// "), "#[unsafe(no_mangle)]\n",
            rust_call(f'pub unsafe extern "C" fn {name}', rows, f"{back} {{"), "\n"]
    for it in (it for it in passed if it.is_lent):
        made.append(f"{SAFE}    let Some({it.name}) = (unsafe {{ pairs_of({it.name}, {it.name}_len) }}) else {{\n"
                    f"        return {NO_MEMORY[result]};\n    }};\n")
    given = [it.made_in_rust() for it in passed]
    if any(it.points and not it.is_lent for it in passed):
        call = rust_call(f"    unsafe {{ {module}::{name}", given, " }")
        made += [SAFE, call if "\n" not in call else
                 f"    unsafe {{\n{rust_call(f'        {module}::{name}', given)}\n    }}"]
    else:
        made.append(rust_call(f"    {module}::{name}", given))
    return "".join([*made, "\n}\n"])


def rust():
    """The exports for C as Rust, around the extracted calls."""
    (_, structs, exports), made = declared(), []
    for lines, module, name, fields in structs:
        if any(it.is_slice for it in fields):
            rows = "".join(f"    pub {row},\n" for it in fields for row in it.in_rust())
            made.append(f"{comment(lines, '/// ')}#[repr(C)]\npub struct {rust_name(module, name)} {{\n{rows}}}\n")
    return "\n".join([RUST_HEAD, *made, *(rust_export(*it) for it in exports)])


def python():
    """The declarations for Python's ctypes."""
    (constants, structs, exports), made = declared(), [PYTHON_HEAD]
    made += [f"{name.removeprefix('NIFAZOMBI_')} = {number}" for _, name, number in constants]
    for _, module, name, fields in structs:
        each = [pair for it in fields for pair in zip((f'"{it.name}"', f'"{it.name}_len"'), it.in_python())]
        rows = ", ".join(f"({it}, {kind})" for it, kind in each)
        made.append(f"\n\nclass {rust_name(module, name)}(Structure):\n    _fields_ = [{rows}]")
    made.append("\n\n# The name of each export, its result and its parameters.\nEXPORTS = [")
    for _, _, name, passed, result in exports:
        kinds = ", ".join(kind for it in passed for kind in it.in_python())
        made.append(f'    ("{name}", {NUMBERS[result][1] if result else None}, [{kinds}]),')
    return "\n".join([*made, "]\n"])


def made():
    """Each file of declarations, and what it has to say."""
    return {HEADER: header(), RUST: rust(), PYTHON: python()}
