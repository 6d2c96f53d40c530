# The commands of the third transcript in README.md.
set startup-with-shell off
set disable-randomization off
set libthread-db-search-path none
set print inferior-events off
set print address off
set may-call-functions off
source ../../tools/wasm_pointers.py
set trace-commands on
break classes.cc:39
run
backtrace
info locals
print four
print label
print owner
print *owner.held
print owner.held->side
ptype four
ptype label
ptype owner
