"""The unit that each module of an output has of its own: the type of the module's context, in which its memory is found, and that of an
address in this memory. (This project's own tree, of names of DWARF 4 and 5, section 7.5.)"""

from plain_entries import AT_ARTIFICIAL, AT_BYTE_SIZE, AT_ENCODING, AT_LANGUAGE, AT_LINKAGE_NAME, AT_MEMBER_LOCATION, AT_NAME, AT_PRODUCER, AT_TYPE, Refused
from plain_entries import TAG_BASE_TYPE, TAG_COMPILE_UNIT, TAG_FORMAL_PARAMETER, TAG_MEMBER, TAG_POINTER_TYPE, TAG_STRUCTURE_TYPE, TAG_SUBPROGRAM
from plain_made import DATA1, DATA2, DATA4, UDATA, Made, constant, in_unit, text

C11, UNSIGNED = 0x1D, 7  # a language and an encoding

# What the keys of entries are beside the number of their module.
BYTE, POINTER_TO_BYTES, CONTEXT, CONTEXT_POINTER, WASM_POINTER = "byte", "pointer to bytes", "context", "pointer to the context", "address in the memory"


def own_unit(module, set_name, memory):
    """The entries of the own unit of a module. `set_name` is what a debugger calls to choose the memory that it looks at."""
    to = lambda what: in_unit((module, what))
    unsigned = constant(DATA1, UNSIGNED)
    return [
        Made(0, TAG_COMPILE_UNIT, {AT_NAME: text("WasmtimeModuleSyntheticUnit"), AT_PRODUCER: text("wasmtime"), AT_LANGUAGE: constant(DATA2, C11)}),
        Made(1, TAG_BASE_TYPE, {AT_NAME: text("u8"), AT_ENCODING: unsigned, AT_BYTE_SIZE: constant(DATA1, 1)}, (module, BYTE)),
        Made(1, TAG_POINTER_TYPE, {AT_NAME: text("u8*"), AT_TYPE: to(BYTE)}, (module, POINTER_TO_BYTES)),
        *context(module, memory),
        Made(2, TAG_SUBPROGRAM, {AT_LINKAGE_NAME: text(set_name), AT_NAME: text("set")}),
        Made(3, TAG_FORMAL_PARAMETER, {AT_TYPE: to(CONTEXT_POINTER), AT_ARTIFICIAL: ("flag", True)}),
        Made(1, TAG_POINTER_TYPE, {AT_NAME: text("WasmtimeVMContext*"), AT_TYPE: to(CONTEXT)}, (module, CONTEXT_POINTER)),
        Made(1, TAG_BASE_TYPE, {AT_NAME: text("WebAssemblyPtr"), AT_BYTE_SIZE: constant(DATA1, 4), AT_ENCODING: unsigned}, (module, WASM_POINTER)),
    ]


def context(module, memory):
    """The context, up to the pointer to a memory that the module defines; of another memory it says nothing."""
    made = Made(1, TAG_STRUCTURE_TYPE, {AT_NAME: text("WasmtimeVMContext")}, (module, CONTEXT))
    if memory is None or "defined" not in memory:
        return [made]
    offset = memory["defined"]
    if offset + 8 >= 1 << 32:
        raise Refused("TooLarge Vmctx")
    made.attributes[AT_BYTE_SIZE] = constant(DATA4, offset + 8)
    to_bytes = in_unit((module, POINTER_TO_BYTES))
    return [made, Made(2, TAG_MEMBER, {AT_NAME: text("memory"), AT_TYPE: to_bytes, AT_MEMBER_LOCATION: constant(UDATA, offset)})]
