#!/usr/bin/env python3
"""Compares what `c/mtapi_c.h` declares with what the static library `mtapi_c` exports: each function with the type of its result
and its parameters, by order, name and type, and each struct with its fields. Prints each difference, and fails if there is one.

No proof compares the two, and a call by other types than the library's is undefined behaviour.
"""

import glob
import os
import re
import sys

from common import TOP

HEADER = os.path.join(TOP, "c", "mtapi_c.h")
CRATES = ("node_handle", "mtapi_c")
SCALARS = {"u8": "uint8_t", "u32": "uint32_t", "u64": "uint64_t", "i64": "int64_t", "usize": "size_t", "bool": "bool", "*mut u8": "void *"}
STRUCTS = {"NodeHandle": "mtapi_c_node", "PickedTask": "mtapi_c_picked", "Settings": "mtapi_c_settings"}


def in_c(name, kind):
    """The C parameters of a parameter, each with its type and its name: a slice is a pointer and a number, which may have any
    name, and an allocator takes no place."""
    if kind == "Global":
        return []
    mutable = kind.startswith("&mut ")
    plain = kind[5:] if mutable else kind.lstrip("&")
    const = "" if mutable else "const "
    if plain.startswith("["):
        return [(f"{const}{SCALARS[plain[1:-1]]} *", name), ("size_t", None)]
    if kind.startswith("&"):
        return [(f"{const}{STRUCTS.get(plain) or SCALARS[plain]} *", name)]
    return [(SCALARS[kind], name)]


def exported():
    """The exports, each with the type of its result and its parameters, and the structs with their fields, as C has them."""
    functions, structs = {}, {}
    for path in sorted(path for crate in CRATES for path in glob.glob(os.path.join(TOP, "crates", crate, "src", "*.rt"))):
        with open(path) as file:
            text = re.sub(r"//[^\n]*", "", file.read())
        for name, parameters, result in re.findall(r'extern "C" fn (\w+)\(([^)]*)\)(?: -> (\w+))?', text):
            pairs = [tuple(word.strip() for word in one.split(":")) for one in parameters.split(",") if one.strip()]
            functions[name] = (SCALARS.get(result, "void"), [each for pair in pairs for each in in_c(*pair)])
        for name, fields in re.findall(r"#\[repr\(C\)\][^{]*pub struct (\w+) \{([^}]*(?:\{[^}]*\}[^}]*)*)\n\}", text):
            pairs = re.findall(r"(?m)^\s*pub(?:\(crate\))? (\w+): ([^,\n]+),", fields)
            structs[STRUCTS.get(name, name)] = [(SCALARS[kind], field) for field, kind in pairs if kind != "Global"]
    return functions, structs


def typed(text):
    """The type and the name of a parameter or a field."""
    kind, name = " ".join(text.replace("*", "* ").split()).rsplit(" ", 1)
    return kind, name


def declared():
    """The same of the header."""
    with open(HEADER) as file:
        text = re.sub(r"/\*.*?\*/", "", file.read(), flags=re.S)
    functions, structs = {}, {}
    for result, name, parameters in re.findall(r"^(\w+) (mtapi_c_\w+)\(([^)]*)\);", text, re.M):
        functions[name] = (result, [typed(one) for one in parameters.split(",")])
    for fields, name in re.findall(r"typedef struct \{([^}]*)\} (\w+);", text):
        structs[name] = [typed(one) for one in fields.split(";") if one.strip()]
    return functions, structs


def is_same(here, there):
    """Whether an export is what is declared."""
    if not here or not there or here[0] != there[0] or len(here[1]) != len(there[1]):
        return False
    return all(one[0] == other[0] and one[1] in (None, other[1]) for one, other in zip(here[1], there[1]))


def main():
    (functions, structs), (of_header, structs_of_header) = exported(), declared()
    differ = [name for name in sorted(functions.keys() | of_header.keys()) if not is_same(functions.get(name), of_header.get(name))]
    for name in differ:
        print(f"{name}: exported {functions.get(name)}, declared {of_header.get(name)}")
    for name in STRUCTS.values():
        if structs.get(name) != structs_of_header.get(name):
            differ.append(name)
            print(f"{name}: exported {structs.get(name)}, declared {structs_of_header.get(name)}")
    print(f"{len(functions)} functions and {len(STRUCTS)} structs, {len(differ)} of which differ")
    sys.exit(1 if differ or not functions else 0)


if __name__ == "__main__":
    main()
