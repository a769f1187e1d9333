"""Writes a program in C that prints, as assertions in Rust, where C's compiler puts each field of each struct of the
header. What it prints is compiled beside the crate: a field that rustc puts elsewhere is an error. Where private fields
are, rows of exports.txt show, whose numbers differ."""
import ffi
from parts import shim


def program(library):
    """The source of the program."""
    where, rows = shim.modules(), []
    for name in sorted(library.done):
        rust, c = where.get(name, name), ffi.c_struct(name)
        rows.append((f"size_of::<{rust}>()", f"sizeof({c})"))
        rows += [(f"offset_of!({rust}, {it.name})", f"offsetof({c}, {it.name})") for it in library.structs[name].members
                 if it.is_public]
    return "\n".join(['#include "net_base.h"', "#include <stdio.h>", "int main(void) {",
                      '    puts("#![no_std]\\nuse core::mem::{offset_of, size_of};\\nuse proved::exports::*;");',
                      *[f'    printf("const _: () = assert!({rust} == %u);\\n", (unsigned){c});' for rust, c in rows],
                      "    return 0;", "}"]) + "\n"
