# The commands of the second transcript in README.md.
set startup-with-shell off
set disable-randomization off
set libthread-db-search-path none
set print inferior-events off
set print address off
set may-call-functions off
source ../../tools/wasm_pointers.py
set trace-commands on
tbreak tree.cc:34 if key == 30
run
backtrace
info locals
print *found
next
tbreak tree.cc:40
continue
print *added
tbreak larger
continue
backtrace
up
print *top
up
print *top
