# The commands of the first transcript in README.md.
set startup-with-shell off
set disable-randomization off
set libthread-db-search-path none
set print inferior-events off
set print address off
set may-call-functions off
source ../../tools/wasm_pointers.py
set trace-commands on
break tree.cc:40 if key == 30
run
backtrace
info locals
print *__this
print *added
print *__this->root
print __this->root->left->key
next
print *place
step
finish
tbreak tree::depth_of if top != 0 && top->key == 90
continue
backtrace
next
next
next
info locals
step
up
print *top
print top->left == 0
ptype node
ptype tree
