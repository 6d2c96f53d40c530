"""For gdb: `source wasm_pointers.py` shows pointers of WebAssembly and what they point to, without a call in the process.

    print node            (node *) 0x410
    print $at(node)       what a pointer or a reference points to
    print $native(node)   the same pointer as a native one, for x/s, casts and items behind it
    print *node           the same as $at(node); also node->next, node[2], node + 1 and node == 0

The last line holds where the language is C++. In a C program `set language c++` makes it so; without that gdb calls a function of the
process for `*` and `->`, and refuses the others.

A pointer stands as a structure WebAssemblyPtrWrapper<T>, a reference as WebAssemblyRefWrapper<T>. The linear memory is found by the
variable __vmctx of the function's frame; so all of this works in a core file too, and needs no `call __vmctx->set()`.
"""

import re

import gdb
import gdb.xmethod

WRAPPER = re.compile(r"(?:struct |class )?WebAssembly(Ptr|Ref)Wrapper<(.*)>")
SIGNS = {"Ptr": "*", "Ref": "&"}
ADDRESS = "__ptr"
SHOWN_CHARACTERS = 200


def wrapper_of(kind):
    """What names the type of a pointer or a reference; None for any other type."""
    return WRAPPER.fullmatch(kind.strip_typedefs().unqualified().name or "")


def memory_begin():
    """The native address of the linear memory, by the context of the selected frame."""
    frame = gdb.selected_frame()
    while frame.type() == gdb.INLINE_FRAME:  # the context is a variable of the function that holds the inlined one
        frame = frame.older()
    try:
        return int(frame.read_var("__vmctx").dereference()["memory"])
    except (ValueError, gdb.error):
        raise gdb.GdbError("the context of this frame tells no linear memory here") from None


def number_of(pointer):
    return int(pointer[ADDRESS])


def target_of(kind):
    """The type that a pointer or a reference goes to."""
    try:
        return kind.strip_typedefs().template_argument(0)
    except RuntimeError:
        return gdb.lookup_type("void")


def native(pointer):
    """A pointer or a reference as a native pointer, which is null where that is."""
    if not wrapper_of(pointer.type):
        raise gdb.GdbError("this is no pointer of WebAssembly")
    number = number_of(pointer)
    address = memory_begin() + number if number else 0
    return gdb.Value(address).cast(target_of(pointer.type).pointer())


def pointed_at(pointer):
    """What a pointer or a reference goes to."""
    found = native(pointer)
    if int(found) == 0:
        raise gdb.GdbError("a null pointer")
    if found.type.target().strip_typedefs().code == gdb.TYPE_CODE_VOID:
        raise gdb.GdbError("a pointer to no type; cast $native(..) to one")
    return found.dereference()


class Printer:
    """Shows a pointer by its type and its number, and a text that it points to."""

    def __init__(self, pointer, named):
        self.pointer, self.named = pointer, named

    def to_string(self):
        number = number_of(self.pointer)
        head = f"({self.named.group(2)} {SIGNS[self.named.group(1)]}) "
        return head + f"{number:#x}" + self.text() if number else head + "null"

    def text(self):
        if target_of(self.pointer.type).strip_typedefs().unqualified().name != "char":
            return ""
        try:
            return ' "' + native(self.pointer).string(errors="replace", length=-1)[:SHOWN_CHARACTERS] + '"'
        except (gdb.error, gdb.GdbError):
            return ""


def find_printer(value):
    named = wrapper_of(value.type)
    return Printer(value, named) if named else None


class Function(gdb.Function):
    """A function of gdb that is one of Python."""

    def __init__(self, name, made):
        super().__init__(name)
        self.made = made

    def invoke(self, pointer):
        return self.made(pointer)


def number_beside(other):
    """The number of another pointer, or a number itself."""
    return number_of(other) if wrapper_of(other.type) else int(other)


def moved(pointer, count):
    """A native pointer, so many items behind a pointer."""
    return native(pointer) + int(count)


def item_type(kind):
    return target_of(kind)


def pointer_type(kind):
    return target_of(kind).pointer()


def truth_type(_):
    return gdb.Value(True).type


# What stands for each operator, how many operands it has beside the pointer, and what its type is by that of the pointer.
OPERATORS = {
    "ptr": (native, 0, pointer_type),
    "operator*": (pointed_at, 0, item_type),
    "operator->": (native, 0, pointer_type),
    "operator+": (moved, 1, pointer_type),
    "operator-": (lambda pointer, count: moved(pointer, -int(count)), 1, pointer_type),
    "operator[]": (lambda pointer, count: moved(pointer, count).dereference(), 1, item_type),
    "operator==": (lambda pointer, other: number_of(pointer) == number_beside(other), 1, truth_type),
    "operator!=": (lambda pointer, other: number_of(pointer) != number_beside(other), 1, truth_type),
}
COMPARISONS = ("operator==", "operator!=")


class Worker(gdb.xmethod.XMethodWorker):
    """Does what an operator of a pointer says, in place of the process."""

    def __init__(self, made, operand_types, result_type):
        self.made, self.operand_types, self.result_type = made, operand_types, result_type

    def get_arg_types(self):
        return self.operand_types

    def get_result_type(self, *_):
        return self.result_type

    def __call__(self, pointer, *operands):
        if pointer.type.strip_typedefs().code in (gdb.TYPE_CODE_PTR, gdb.TYPE_CODE_REF):
            pointer = pointer.referenced_value()
        return self.made(pointer, *operands)


class Matcher(gdb.xmethod.XMethodMatcher):
    def __init__(self):
        super().__init__("WebAssembly pointers")
        self.methods = []

    def match(self, class_type, method_name):
        if method_name not in OPERATORS or not wrapper_of(class_type):
            return None
        made, operands, result_type = OPERATORS[method_name]
        operand_types = [[gdb.lookup_type("long")] * operands]
        if method_name in COMPARISONS:
            operand_types.append([class_type])
        return [Worker(made, types, result_type(class_type)) for types in operand_types]


gdb.pretty_printers.append(find_printer)
gdb.xmethod.register_xmethod_matcher(None, Matcher(), replace=True)
Function("native", native)
Function("at", pointed_at)
