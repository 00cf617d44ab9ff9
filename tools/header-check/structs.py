#!/usr/bin/env python3
"""structs.py [ROOT]: holds the C interface to itself, field by field in order with types: the structs of the sources
that cross (#[repr(C)] in crates), those of include/vvc_pps.h and those of tools/compare; with them the functions, each
with its result and the names and types of its parameters in order, the constants, the version, and the header's own
assertions of the layout; and that the programs of src leave out no field and no function. What is missing on every side
is different too. Prints each difference; the last line is `N held, M different`, and the exit status is 1 where M is
not 0."""

import pathlib
import re
import sys

ROOT = pathlib.Path(sys.argv[1] if len(sys.argv) > 1 else pathlib.Path(__file__).parents[2])
HEADER = "include/vvc_pps.h"
MIRROR = "tools/compare/src/ours"

# Names that C has otherwise, since it has no modules.
C_NAMES = {"Cursor": "VvcCursor", "BitsRead": "VvcBitsRead", "SignedRead": "VvcSignedRead", "Sink": "VvcSink"}
# What the header puts before the names of the mirror.
MIRROR_NAMES = ("Vvc", "VvcPps")
# The places of a row of the slice entries, and the fields that C gives them.
ROW = {
    "WIDTH": "pps_slice_width_in_tiles_minus1",
    "HEIGHT": "pps_slice_height_in_tiles_minus1",
    "SPLIT_PRESENT": "split_present",
    "SPLIT_COUNT": "pps_num_exp_slices_in_tile",
    "DELTA_PRESENT": "delta_present",
    "DELTA_BITS": "pps_tile_idx_delta_val",
}
# Constants of the header, and those of the sources.
LIMITS = {
    "VVC_MAX_TILE_COLUMNS": "MAX_TILE_COLUMNS",
    "VVC_MAX_TILES": "MAX_TILES",
    "VVC_MAX_SLICES": "MAX_SLICES",
    "VVC_SUBPIC_IDS": "SUBPIC_IDS",
    "VVC_TILE_COLUMN_WIDTHS": "TILE_COLUMN_WIDTHS",
    "VVC_TILE_ROW_HEIGHTS": "TILE_ROW_HEIGHTS",
    "VVC_RECT_SLICES": "RECT_SLICES",
    "VVC_SPLIT_HEIGHTS": "SPLIT_HEIGHTS",
    "VVC_COVER_NONE": "COVER_NONE",
    "VVC_COVER_WHOLE": "COVER_WHOLE",
    "VVC_COVER_GAP": "COVER_GAP",
    "VVC_COVER_DOUBLE": "COVER_DOUBLE",
    "VVC_COVER_REFUSED": "COVER_REFUSED",
    "VVC_PPS_VERSION_MAJOR": "VERSION_MAJOR",
    "VVC_PPS_VERSION_MINOR": "VERSION_MINOR",
    "VVC_PPS_VERSION_PATCH": "VERSION_PATCH",
}
C_TYPES = {"u8": "uint8_t", "u32": "uint32_t", "i32": "int32_t", "usize": "size_t", "bool": "bool"}
SIZES = {"uint8_t": 1, "uint32_t": 4, "int32_t": 4, "size_t": 8, "bool": 1}

held = different = 0


def hold(what, *sides):
    """Each side is where it stands and what is there, None for what is missing."""
    global held, different
    held += 1
    if any(value is None or value != sides[0][1] for _, value in sides):
        different += 1
        print(f"different: {what}")
        for where, value in sides:
            print(f"    {where}: {value}")


def text(path):
    return (ROOT / path).read_text(encoding="utf-8")


def program(name):
    """A program of src, without comments and strings."""
    return re.sub(r'/\*.*?\*/|"[^"\n]*"', "", text(f"tools/header-check/src/{name}"), flags=re.S)


def rust_text(paths):
    """The files of a folder or a file, without comments."""
    files = sorted(ROOT.glob(paths))
    if not files:
        sys.exit(f"structs.py: no {paths} under {ROOT}")
    return re.sub(r"//.*", "", "\n".join(file.read_text(encoding="utf-8") for file in files))


def constants(source, values):
    """The named numbers of a text, in any order; a right side may name others and cast them."""
    left = dict(re.findall(r"(?:const|#define) (\w+)(?:: \w+ =)? ([^;\n]+?);?\n", source))
    for body in re.findall(r"enum \{(.*?)\}", source, re.S):
        left.update(re.findall(r"(\w+) = ([^,]+),", body))
    while True:
        found = {}
        for name, right in left.items():
            right = re.sub(r" as \w+", "", right)
            words = set(re.findall(r"[A-Za-z_]\w*", right))
            if words <= values.keys() and re.fullmatch(r"[\w\s+*()-]+", right):
                found[name] = eval(right, {}, dict(values))  # numbers, names of numbers and + - *
        left = {name: right for name, right in left.items() if name not in found}
        values.update(found)
        if not found:
            return values


def rust_type(name, numbers, prefix=None):
    """A type as C has it: its name and how many, 0 for one that is no array. Structs of the mirror have no Vvc."""
    array = re.fullmatch(r"\[(.+); (.+)\]", name)
    if array:
        length = re.sub(r" as usize$", "", array[2])
        inner, many = rust_type(array[1], numbers, prefix)
        return inner, (many or 1) * (int(length) if length.isdigit() else numbers[length])
    if name in C_TYPES:
        return C_TYPES[name], 0
    if prefix:
        return next((p + name for p in prefix if p + name in c_structs), name), 0
    return C_NAMES.get(name, name), 0


def rust_structs(source, numbers, prefix=None):
    """Structs that are #[repr(C)]: each a list of name, type, how many. A tuple struct has no names."""
    structs = {}
    attributes = r"#\[repr\(C\)\]\s*(?:#\[[^\]]*\]\s*)*(?:pub )?struct (\w+)"
    for name, body in re.findall(attributes + r" \{(.*?)\n\}", source, re.S):
        fields = re.findall(r"(\w+): ([^,\n]+),", body)
        structs[rust_type(name, numbers, prefix)[0]] = [(f, *rust_type(t, numbers, prefix)) for f, t in fields]
    for name, body in re.findall(attributes + r"\((.*?)\);", source, re.S):
        inner, many = rust_type(body.replace("pub ", "").strip(), numbers, prefix)
        structs[rust_type(name, numbers, prefix)[0]] = [(None, inner, 0)] * (many or 1)
    return structs


def c_fields(body, numbers):
    fields = re.findall(r"(\w+) (\w+)(?:\[(\w+)\])?;", body)
    return [(f, t, 0 if not n else int(n) if n.isdigit() else numbers[n]) for t, f, n in fields]


def layout(name):
    """The size, the alignment and the places of the fields, by C's rule."""
    at, align, places = 0, 1, {}
    for field, kind, many in c_structs[name]:
        size, most = (SIZES[kind], SIZES[kind]) if kind in SIZES else layout(kind)[:2]
        at = -(-at // most) * most
        places[field], align = at, max(align, most)
        at += size * (many or 1)
    return -(-at // align) * align, align, places


# ---- what there is
code = "\n".join(rust_text(f"crates/{name}/src/**/*.rt")
                 for name in ("tile_sizes", "pps_record", "pps_tables", "h266", "bit_reader", "bit_writer", "vvc_pps"))
header = re.sub(r"/\*.*?\*/", "", text(HEADER), flags=re.S)
header_lines = header.replace("\\\n", " ")
mirror = rust_text(f"{MIRROR}.rs") + rust_text(f"{MIRROR}/*.rs")

code_numbers, c_numbers = constants(code, {}), constants(header_lines, {})
c_structs = {}
for name, body in re.findall(r"typedef struct (\w+) \{(.*?)\n\} \1;", header, re.S):
    c_structs[name] = c_fields(body, c_numbers)
code_structs = rust_structs(code, code_numbers)
mirror_structs = rust_structs(mirror, {}, MIRROR_NAMES)

# ---- functions: a slice is a pointer and a length
def c_parameters(parameters):
    for name, kind in re.findall(r"(\w+): ([^,]+)", parameters):
        slice_of = re.fullmatch(r"&(mut )?\[(.*)\]", kind.strip())
        if slice_of:
            inner = "VvcPpsRectSlice" if slice_of[2] == "[u32; ENTRY_LEN]" else C_TYPES[slice_of[2]]
            yield f"{'' if slice_of[1] else 'const '}{inner} *{name}"
            yield f"size_t {name}_len"
        else:
            yield f"{rust_type(kind.strip(), code_numbers)[0]} {name}"


def mirror_parameters(parameters):
    """Those of a function in over_tables! stand around a semicolon, and the macro puts the tables there."""
    if ";" in parameters:
        beside, more = parameters.split(";")
        parameters = over_tables.replace("$($beside: $beside_type,)*", f"{beside},")
        parameters = parameters.replace("$($more: $type),*", more)
    for name, kind in re.findall(r"(\w+): ([^,]+)", parameters):
        _, pointer, inner = re.fullmatch(r"(\*(const|mut) )?(.*)", kind.strip()).groups()
        inner = rust_type(inner, {}, MIRROR_NAMES)[0]
        yield f"{'const ' if pointer == 'const' else ''}{inner} {'*' if pointer else ''}{name}"


code_functions, c_functions, mirror_functions = {}, {}, {}
for name, parameters, answer in re.findall(r'#\[unsafe\(no_mangle\)\]\s+pub extern "C" fn (\w+)\((.*?)\) -> (\w+)', code, re.S):
    code_functions[name] = (rust_type(answer, code_numbers)[0], *(list(c_parameters(parameters)) or ["void"]))
for answer, name, parameters in re.findall(r"^(\w+) (vvc_\w+)\(([^)]*)\);", header, re.M):
    c_functions[name] = (answer, *(p.strip() for p in re.sub(r"\s+", " ", parameters).split(",")))
over_tables = "".join(re.findall(r"\$\(fn \$name\((.*?)\) -> \$answer;\)\*", mirror, re.S))
for name, parameters, answer in re.findall(r"fn (vvc_\w+)\(([^)]*)\) -> (\w+);", mirror):
    mirror_functions[name] = (rust_type(answer, {}, MIRROR_NAMES)[0], *mirror_parameters(parameters))
mirrored = re.findall(r"fn (vvc_\w+)\(", mirror)
hold("the functions", ("crates", sorted(code_functions)), (HEADER, sorted(c_functions)),
     (MIRROR, sorted([*mirrored, "vvc_version"])))
for name in sorted(code_functions.keys() & c_functions.keys()):
    sides = [("crates", code_functions[name]), (HEADER, c_functions[name])]
    if name != "vvc_version":
        sides.append((MIRROR, mirror_functions.get(name)))
    hold(f"the signature of {name}", *sides)

# ---- structs: those that functions take and give, and those inside them
row = sorted((code_numbers[place], field) for place, field in ROW.items())
hold("the places of a row", ("crates", [place for place, _ in row]), ("wanted", list(range(code_numbers["ENTRY_LEN"]))))
row_type = {ROW["DELTA_BITS"]: "int32_t"}
code_structs["VvcPpsRectSlice"] = [(field, row_type.get(field, "uint32_t"), 0) for _, field in row]
reached = {re.sub(r"^const | .*", "", word) for function in code_functions.values() for word in function}
while not reached >= (inner := {kind for name in reached for _, kind, _ in code_structs.get(name, [])}):
    reached |= inner
code_structs = {name: fields for name, fields in code_structs.items() if name in reached}
crossing = [name for name in c_structs if name != "VvcPpsTables"]
hold("the structs", (HEADER, sorted(crossing)), ("crates", sorted(code_structs)), (MIRROR, sorted(mirror_structs)))
for name in crossing:
    sides = [code_structs.get(name, []), c_structs[name], mirror_structs.get(name, [])]
    hold(f"the number of fields of {name}", *zip(("crates", HEADER, MIRROR), map(len, sides)))
    for ours, field, mirrored in zip(*sides):
        # A tuple struct has no names.
        ours = (ours[0] or field[0], *ours[1:])
        hold(f"a field of {name}", ("crates", ours), (HEADER, field), (MIRROR, mirrored))

# ---- constants
for c_name, name in LIMITS.items():
    hold(c_name, (HEADER, c_numbers.get(c_name)), ("crates", code_numbers.get(name)))
lengths = [c_numbers[name] for name in ("VVC_SUBPIC_IDS", "VVC_TILE_COLUMN_WIDTHS", "VVC_TILE_ROW_HEIGHTS",
                                        "VVC_RECT_SLICES", "VVC_SPLIT_HEIGHTS")]
least = re.search(r"const LEAST: \[usize; 5\] = \[([\d, ]+)\];", text("tools/compare/src/reading/lent.rs"))
hold("the lengths of the tables", (HEADER, lengths),
     ("tools/compare", [int(n) for n in least[1].split(",")] if least else None))
refusals = re.search(r"VVC_ACCEPTED = 0,.*?\}", header, re.S)[0]
hold("the numbers of refusals", (HEADER, [int(n) for n in re.findall(r"= (\d+)", refusals)]),
     ("docs/BEHAVIOUR.md", [0] + [int(n) for n in re.findall(r"^\| (\d+) \|", text("docs/BEHAVIOUR.md"), re.M)]))

# ---- the version
version = tuple(c_numbers[f"VVC_PPS_VERSION_{part}"] for part in ("MAJOR", "MINOR", "PATCH"))
stated = re.search(r"version_of (\d+) (\d+) (\d+)", code)
hold("the version", (HEADER, version), ("its contract", stated and tuple(map(int, stated.groups()))))
newest = re.search(r"^## [^\d\n]*(\d+)\.(\d+)\.(\d+)", text("CHANGELOG.md"), re.M)
hold("the version", (HEADER, version), ("CHANGELOG.md", newest and tuple(map(int, newest.groups()))))

# ---- the header's assertions, each struct and each field
sizes = dict(re.findall(r"VVC_PPS_SIZE_\((\w+), (\d+)\);", header))
places = {(name, field): int(at) for name, field, at in re.findall(r"VVC_PPS_AT_\((\w+), (\w+), (\d+)\);", header)}
wanted = {(name, field): at for name in crossing for field, at in layout(name)[2].items()}
hold("the sizes asserted", (HEADER, {name: int(size) for name, size in sizes.items()}),
     ("by C's rule", {name: layout(name)[0] for name in c_structs}))
hold("the places asserted", (HEADER, places), ("by C's rule", wanted))

# ---- the programs of src: every field of every struct, as a variable or a field of that type has it
fields_c, stack_c, nulls_c = program("fields.c"), program("stack.c"), program("nulls.c")


def leaves(name):
    """The fields of a record, those of its blocks behind a point."""
    for field, kind, _ in c_structs[name]:
        yield from (f"{field}.{inner}" for inner in leaves(kind)) if kind in c_structs else [field]


unread = []
for name in crossing:
    owners = re.findall(rf"\b{name} \*?(\w+)", fields_c)
    owners += [field for fields in c_structs.values() for field, kind, _ in fields if kind == name]
    owner = rf"\b(?:{'|'.join(owners)})(?:\[\w+\])?" if owners else "(?!)"
    unread += [f"{name}.{field}" for field, _, _ in c_structs[name]
               if not re.search(rf"{owner}(?:\.|->){field}\b", fields_c)]
hold("fields that src/fields.c does not name", ("there", unread), ("wanted", []))
hold("the fields of a record", (HEADER, list(leaves("VvcPps"))),
     ("src/fields.c", re.findall(r"^    IS\(([\w.]+)\)", fields_c, re.M)))

# ---- and every function: all with their stack, those over the tables too, and all that take a pointer with nulls
over_struct = re.findall(r"^static inline \w+ (vvc_pps_\w*[a-z])\(", header, re.M)
hold("functions that src/stack.c measures", (HEADER, sorted([*c_functions, *over_struct])),
     ("there", sorted(re.findall(r"CALL\((vvc_\w+),", stack_c))))
with_pointer = [name for name, words in c_functions.items() if "*" in "".join(words)]
hold("functions with a pointer that src/nulls.c does not call",
     ("there", [name for name in with_pointer if not re.search(rf"\b{name}\(", nulls_c)]), ("wanted", []))

print(f"{held} held, {different} different")
sys.exit(different != 0)
