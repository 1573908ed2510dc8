#!/usr/bin/env python3
"""Makes the C source of the library, for any compiler: wasm2c's translation of the page's module, with the calls of pigale.h.

  tools/c_source.py MODULE FOLDER    writes pigale.c and what is packed with it into a folder

Of the translation it keeps the functions and the data; what these ask of C stands in library/source/runtime.c, and
library/source/calls.c has what the calls share. A call's wrapper is made of its line in include/pigale.h: an array is lent to
the module for the time of the call. It fails where the translation asks for what runtime.c has not."""
import os
import re
import shutil
import subprocess
import sys
import tempfile

import calls
from calls import ROOT

SOURCE = f"{ROOT}/library/source"
WIDTHS = {"char": 1, "uint8_t": 1, "int8_t": 1, "uint16_t": 2, "int16_t": 2, "uint32_t": 4, "int32_t": 4, "uint64_t": 8, "int64_t": 8,
          "size_t": 8, "pigale_status": 1}
NAMES = r"Z_pigale\w*"


def text_of(path):
    with open(path, encoding="utf-8") as file:
        return file.read()


def translated(module):
    """Returns the header and the source that wasm2c makes of a module."""
    with tempfile.TemporaryDirectory() as room:
        subprocess.run(["wasm2c", module, "--module-name=pigale", "-o", f"{room}/pigale.c"], check=True)
        return text_of(f"{room}/pigale.h"), text_of(f"{room}/pigale.c")


def body_of(module):
    """Returns the type of an instance, the functions and the data that a module is translated to."""
    header, source = translated(module)
    instance = re.search(r"typedef struct Z_pigale_instance_t \{.*?\} Z_pigale_instance_t;\n", header, re.S)[0]
    body = source[source.index("static bool s_module_initialized"):]
    if re.search(r"\bCALL_INDIRECT\(|\bwasm_rt_funcref|import: ", body):
        sys.exit("c_source: the module calls by pointers, or imports: runtime.c has nothing for these")
    # with no call by pointer nobody asks for the types of functions
    body = body[body.index("}\n", body.index("static void init_func_types(void)")) + 2:]
    body = body[:body.index("void Z_pigale_init_module(void)")] + body[body.index("void Z_pigale_instantiate("):]
    body = re.sub(r"^  assert\(.*\);\n", "", body, flags=re.M)
    body = re.sub(r"^static void init_data_instances\(.*?^}\n|^ *init_data_instances\([^\n]*\n", "", body, flags=re.M | re.S)
    for name in ("memory", "memory_back"):
        body = re.sub(rf"^[^\n]* Z_pigaleZ_{name}\(.*?^}}\n", "", body, flags=re.M | re.S)
    # the first global is the top of the stack
    body, tops = re.subn(r"^( *)(instance->w2c_g0) = (\w+);$", r"\g<0>\n\1STACK_CHECK(\3);", body, flags=re.M)
    if not tops or "w2c_g1" in body:
        sys.exit("c_source: the module has not one global, the top of its stack")
    # only the calls of the header are seen from outside
    return instance + re.sub(rf"^((?:void|u32|u64|wasm_rt_memory_t\*) {NAMES}\()", r"static \1", body, flags=re.M)


def structs():
    """Returns for each struct of the header how many numbers it has, and their type; all of them have one."""
    found = {}
    for fields, name in re.findall(r"typedef struct \{([^{}]*)\} (\w+);", re.sub(r"/\*[\s\S]*?\*/", "", text_of(calls.HEADER))):
        parts = [it.split() for it in fields.split(";") if it.strip()]
        types = {words[0] for words in parts}
        if len(types) != 1 or not types < set(WIDTHS):
            sys.exit(f"c_source: the fields of {name} are not of one width")
        found[name] = (sum(len(words) - 1 for words in parts), types.pop())
    return found


def wrapper(call, of_structs):
    """Returns the C of a call: it lends its arrays, answers by the module's function, and gives the arrays back."""
    lent, given, lines = [], [], []
    for it in call.parameters:
        if it.is_pointer:
            per, unit = of_structs.get(it.type, (1, it.type))
            count = it.count or f"{it.name} ? 1 : 0"
            is_filled = any(other.name == f"{it.name}_length" and other.is_pointer for other in call.parameters)
            use = "READ" if it.is_const else "FILLED" if is_filled else "WRITTEN"
            lent.append(f"{{(void *){it.name}, {count}, {per}, sizeof({unit}), {WIDTHS[unit]}, {use}, 0}}")
            given.append(f"all[{len(lent) - 1}].at")
            if it.type == "size_t" and not it.count and not it.is_const and it.name.endswith("_length"):
                # what was written tells how much of its array is; no other number is touched where a call says no
                lines.append(f"    *{it.name} = 0;\n")
        else:
            given.append(f"(u64){it.name}" if it.type == "size_t" else f"(u32){it.name}")
    none = {"pigale_run": "6", "pigale_status": "PIGALE_NO_MEMORY"}
    none = none.get(call.name) or none.get(call.result) or "0"
    arrays = ", ".join(lent) or "{0}"
    return (f"{call.declaration}\n{{\n    lent all[] = {{{arrays}}};\n{''.join(lines)}"
            f"    ANSWER({call.result}, {none}, {len(lent)}, Z_pigaleZ_{call.name}({', '.join(['it', *given])}));\n}}\n")


def pigale_c(module):
    """Returns the text of pigale.c for a module."""
    head = "/* Pigale in one file of C: the proved library as WebAssembly, translated by wasm2c. README.md says how to compile it. */\n"
    of_structs = structs()
    parts = [head, text_of(f"{SOURCE}/runtime.c"), "/* The translation. */\n" + body_of(module), text_of(f"{SOURCE}/calls.c"),
             *(wrapper(call, of_structs) for call in calls.calls())]
    return "\n".join(parts)


def make(module, to):
    """Writes the C source of a module, and all that is packed with it, into a folder."""
    os.makedirs(to, exist_ok=True)
    with open(f"{to}/pigale.c", "w", encoding="utf-8") as file:
        file.write(pigale_c(module))
    for path in (calls.HEADER, f"{ROOT}/library/program.c", f"{ROOT}/LICENSE", *(f"{SOURCE}/{it}" for it in ("Makefile", "CMakeLists.txt", "README.md"))):
        shutil.copy(path, to)


if __name__ == "__main__":
    if len(sys.argv) != 3:
        sys.exit(__doc__)
    make(*sys.argv[1:])
