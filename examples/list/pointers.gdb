# The commands of the second transcript in README.md, in which nothing is called in the process.
set startup-with-shell off
set disable-randomization off
set print inferior-events off
set may-call-functions off
source ../../tools/wasm_pointers.py
set trace-commands on
break list.c:25 if index == 2
run
info locals
print count
print node
print $at(node)
print $at($at(node).next).value
print $native(node)
ptype squares
ptype node
ptype __vmctx
set language c++
print *node
print node->next->value
print head == 0
print node[0].next == head
whatis *node
print __vmctx->memory + node.__ptr
up
info locals
