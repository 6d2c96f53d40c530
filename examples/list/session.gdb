# The commands of the transcript in README.md.
set startup-with-shell off
set disable-randomization off
set print inferior-events off
set trace-commands on
ptype struct node
break list.c:24 if index == 2
run
backtrace
info locals
call __vmctx->set()
print *node
next
print *node
print node->next->value
tbreak new_node
continue
backtrace
delete
tbreak list.c:44
continue
step
print list
print *list
print list->next->next->next->value
finish
