"""Compares what is written more than once: the exports of bsc_embed and its faults in Rattle, bsc.h,
and bsc.py. It prints the C program of which the output are the sizes in C, or compares these with the sizes in Python.

    python3 header.py CRATES BSC_H              compares calls and numbers
    python3 header.py --sizes                   prints a C program
    python3 header.py --sizes FILE              compares what that program printed"""

import ctypes
import glob
import re
import sys

import bsc

# A parameter is a pointer, a pointer behind which nothing is written, a size or a number.
OF_CTYPES = {ctypes.c_void_p: "pointer", ctypes.c_char_p: "const pointer", ctypes.c_size_t: "size",
             ctypes.c_uint32: "number"}
STRUCTS = {"terminal": bsc._Handle, "control": bsc._Handle, "line": bsc._Handle, "setup": bsc._Setup,
           "address": bsc._Address, "addresses": bsc._Addresses, "sending": bsc._Sending, "kept": bsc._Kept,
           "unit": bsc._Unit, "content": bsc._Content}


def of_rattle(kind: str) -> list:
    """What C passes for a parameter of this type."""
    if kind == "Global":
        return []
    if kind.startswith("&"):
        pointer = "pointer" if kind.startswith("&mut") else "const pointer"
        return [pointer, "size"] if "[" in kind else [pointer]
    return {"usize": ["size"], "u32": ["number"]}[kind]


def of_c(parameter: str) -> str:
    if "*" in parameter:
        return "const pointer" if parameter.startswith("const") else "pointer"
    return "size" if parameter.startswith("size_t") else "number"


def rattle_calls(crates: str) -> dict:
    calls = {}
    for path in glob.glob(f"{crates}/bsc_embed/src/*.rt"):
        with open(path, encoding="utf-8") as file:
            text = file.read()
        for name, parameters in re.findall(r'extern "C" fn (bsc_\w+)\((.*?)\)\s*->', text, re.S):
            kinds = [parameter.split(":", 1)[1].strip() for parameter in parameters.split(",") if parameter.strip()]
            calls[name] = [each for kind in kinds for each in of_rattle(kind)]
    return calls


def c_calls(header: str) -> dict:
    declared = re.findall(r"(?:uint32_t|size_t) (bsc_\w+)\((.*?)\) BSC_NO_NULL;", header, re.S)
    return {name: [of_c(" ".join(each.split())) for each in parameters.split(",")] for name, parameters in declared}


def python_calls() -> dict:
    names = ["error_text", "decode", "encode", *bsc._CALLS]
    functions = {"bsc_" + name: getattr(bsc._library, "bsc_" + name) for name in names}
    return {name: [OF_CTYPES[kind] for kind in function.argtypes] for name, function in functions.items()}


def without_const(calls: dict) -> dict:
    """Python does not tell pointers behind which nothing is written."""
    return {name: [kind.replace("const ", "") for kind in kinds] for name, kinds in calls.items()}


def compare(what: str, first: dict, second: dict) -> None:
    for name in sorted(first.keys() | second.keys()):
        if first.get(name) != second.get(name):
            sys.exit(f"header.py: {what}: {name} is {first.get(name)} and {second.get(name)}")


def enum_of(header: str, name: str) -> dict:
    body = re.search(rf"enum {name} {{(.*?)}};", header, re.S).group(1)
    return {key: int(number, 0) for key, number in re.findall(r"BSC_(\w+) = (\w+)", body)}


def compare_all(crates: str, path: str) -> None:
    with open(path, encoding="utf-8") as file:
        header = re.sub(r"/\*.*?\*/", "", file.read(), flags=re.S)
    with open(f"{crates}/bsc_embed/src/interface/fault.rt", encoding="utf-8") as file:
        faults = {int(number) for number in re.findall(r"Fault::\w+ => (\d+),", file.read())}
    compare("bsc_embed and bsc.h", rattle_calls(crates), c_calls(header))
    compare("bsc.h and bsc.py", without_const(c_calls(header)), without_const(python_calls()))
    errors = enum_of(header, "bsc_error")
    compare("enum bsc_error", errors, {"OK": 0, **{error.name: error.value for error in bsc.Error}})
    compare("enum bsc_kind", enum_of(header, "bsc_kind"), {kind.name: kind.value for kind in bsc.Kind})
    compare("enum bsc_end", enum_of(header, "bsc_end"), {"ETX": bsc.ETX, "ETB": bsc.ETB})
    if set(errors.values()) != faults | {0}:
        sys.exit("header.py: bsc_embed and bsc.h have other faults")
    print(f"bsc_embed, bsc.h and bsc.py have the same {len(c_calls(header))} calls and {len(faults)} faults")


def sizes() -> list:
    """The size of each struct, and the place of each of its fields, by its name in C."""
    numbers = []
    for name, struct in STRUCTS.items():
        numbers.append((f"sizeof(struct bsc_{name})", ctypes.sizeof(struct)))
        for field, *_ in struct._fields_:
            numbers.append((f"offsetof(struct bsc_{name}, {field})", getattr(struct, field).offset))
    return numbers


def print_sizes() -> None:
    print('#include "bsc.h"\n#include <stdio.h>\nint main(void)\n{')
    for name, _ in sizes():
        print(f'    printf("{name} %zu\\n", {name});')
    print("    return 0;\n}")


def compare_sizes(path: str) -> None:
    with open(path, encoding="utf-8") as file:
        in_c = [line.rstrip("\n") for line in file]
    compare("sizes", dict(enumerate(in_c)), {place: f"{name} {size}" for place, (name, size) in enumerate(sizes())})


if __name__ == "__main__":
    if sys.argv[1:] == ["--sizes"]:
        print_sizes()
    elif sys.argv[1] == "--sizes":
        compare_sizes(sys.argv[2])
    else:
        compare_all(*sys.argv[1:])
