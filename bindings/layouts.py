#!/usr/bin/env python3
"""The layout of the structs that the library and its callers share, by each of their declarations.

    layouts.py code     of the code: the fields stand in crates/*/src, and are laid out here by the rules of C
    layouts.py c        prints a program in C that prints what a compiler makes of clubcard.h
    layouts.py module   of the module for Python
    layouts.py fields   the names of the files' fields by the code, in the order of their numbers from 1 on

A line is `STRUCT SIZE ALIGNMENT` or `STRUCT.FIELD OFFSET SIZE`, in bytes, with the names of clubcard.h. A struct of the
code is the one of clubcard.h that has the same names of fields. tools/bindings_test.sh compares them.
"""

import ctypes
import pathlib
import re
import sys
from typing import Dict, Iterator, List, NamedTuple, Tuple, Type

HERE = pathlib.Path(__file__).resolve().parent
CRATES = HERE.parent / "crates"
SOURCES = [CRATES / crate / "src" for crate in ("lending_core", "clubcard_c")]
HEADER = HERE / "c" / "clubcard.h"
# The class of the module by the struct of clubcard.h.
CLASSES = {
    "clubcard_sighting": "LentSighting",
    "clubcard_one_query": "LentQuery",
    "clubcard_facts": "LentFacts",
    "clubcard_store_facts": "LentStoreFacts",
    "clubcard_part_facts": "LentPartFacts",
    "clubcard_install_facts": "LentInstallFacts",
}
STRUCT = re.compile(r"#\[repr\(C\)\]\n(?:#[^\n]*\n)*pub struct (\w+) \{\n(.*?)^\}", re.DOTALL | re.MULTILINE)
FIELD = re.compile(r"^ *pub (\w+): (?:(u\d+)|\[(u\d+); (\d+)\]),$", re.MULTILINE)
STRUCT_OF_C = re.compile(r"^typedef struct (\w+) \{\n(.*?)^\} \1;", re.DOTALL | re.MULTILINE)
FIELD_OF_C = re.compile(r"^    \w+ (\w+)(?:\[\d+\])?;", re.MULTILINE)


class Field(NamedTuple):
    """A field's name, its bytes, and the alignment that they want."""

    name: str
    size: int
    alignment: int


def bytes_of(unsigned: str) -> int:
    """The bytes of an unsigned type, such as u64."""
    return int(unsigned[1:]) // 8


def fields_of(body: str) -> List[Field]:
    """The fields of a struct of the code. A line of another form is an error."""
    declared = [line for line in body.splitlines() if line.strip() and not line.strip().startswith("//")]
    fields = []
    for name, alone, element, count in FIELD.findall(body):
        alignment = bytes_of(alone or element)
        fields.append(Field(name, alignment * int(count or 1), alignment))
    if len(fields) != len(declared):
        raise SystemExit(f"layouts.py: a field isn't read, of these: {body}")
    return fields


def structs_of_header() -> Dict[str, Tuple[str, ...]]:
    """The names of fields of each struct of clubcard.h."""
    found = STRUCT_OF_C.findall(HEADER.read_text(encoding="utf-8"))
    structs = {name: tuple(FIELD_OF_C.findall(body)) for name, body in found}
    if set(structs) != set(CLASSES):
        raise SystemExit(f"layouts.py: clubcard.h has the structs {sorted(structs)}, and not {sorted(CLASSES)}")
    return structs


def structs() -> Dict[str, List[Field]]:
    """The structs of the code that cross to C, by their names in clubcard.h, in its order."""
    found = {}
    for source in (file for folder in SOURCES for file in sorted(folder.glob("*.rt"))):
        for _, body in STRUCT.findall(source.read_text(encoding="utf-8")):
            fields = fields_of(body)
            found[tuple(field.name for field in fields)] = fields
    wanted = structs_of_header()
    if set(found) != set(wanted.values()):
        raise SystemExit(f"layouts.py: the code has structs of the fields {sorted(found)}, and not {wanted}")
    return {name: found[fields] for name, fields in wanted.items()}


def up_to(offset: int, alignment: int) -> int:
    """The first multiple of the alignment that isn't below the offset."""
    return -(-offset // alignment) * alignment


def lines_of_code() -> Iterator[str]:
    """The layout of the code's structs by the rules of C."""
    for struct, fields in structs().items():
        behind, lines = 0, []
        for field in fields:
            offset = up_to(behind, field.alignment)
            lines.append(f"{struct}.{field.name} {offset} {field.size}")
            behind = offset + field.size
        alignment = max(field.alignment for field in fields)
        yield f"{struct} {up_to(behind, alignment)} {alignment}"
        yield from lines


def lines_of_program() -> Iterator[str]:
    """A program that prints the layout of clubcard.h."""
    yield '#include <stdio.h>\n#include "clubcard.h"\nint main(void) {'
    for struct, fields in structs_of_header().items():
        yield f'    printf("{struct} %zu %zu\\n", sizeof({struct}), _Alignof({struct}));'
        for field in fields:
            place, size = f"{struct}, {field}", f"sizeof((({struct} *)0)->{field})"
            yield f'    printf("{struct}.{field} %zu %zu\\n", offsetof({place}), {size});'
    yield "    return 0;\n}"


def classes() -> List[Tuple[str, Type[ctypes.Structure]]]:
    """The names of structs, and the module's classes for them. It is loaded here alone, since it loads the library."""
    sys.path.insert(0, str(HERE.parent / "python"))
    from clubcard import library

    return [(struct, getattr(library, CLASSES[struct])) for struct in structs_of_header()]


def lines_of_module() -> Iterator[str]:
    """The layout of the module's structs, as ctypes makes it."""
    for struct, layout in classes():
        yield f"{struct} {ctypes.sizeof(layout)} {ctypes.alignment(layout)}"
        for name, *_ in layout._fields_:
            field = getattr(layout, name)
            yield f"{struct}.{name} {field.offset} {field.size}"


def lines_of_fields() -> Iterator[str]:
    """The names of the fields of files, in the order of the code's enum."""
    code = (CRATES / "octets_core" / "src" / "field.rt").read_text(encoding="utf-8")
    names = dict(re.findall(r"Field::(\w+) => \"([^\"]+)\"", code))
    enum = re.search(r"pub enum Field \{\n(.*?)^\}", code, re.DOTALL | re.MULTILINE)
    for field in re.findall(r"^    (\w+),$", enum.group(1) if enum else "", re.MULTILINE):
        yield names[field]


def main() -> int:
    kinds = {"code": lines_of_code, "c": lines_of_program, "module": lines_of_module, "fields": lines_of_fields}
    if len(sys.argv) != 2 or sys.argv[1] not in kinds:
        print("usage: layouts.py code | c | module | fields", file=sys.stderr)
        return 2
    for line in kinds[sys.argv[1]]():
        print(line)
    return 0


if __name__ == "__main__":
    sys.exit(main())
