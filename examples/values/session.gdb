# The commands of the transcript in README.md.
set startup-with-shell off
set disable-randomization off
set libthread-db-search-path none
set print inferior-events off
source moments.py
set trace-commands on
break values.c:20
ignore 1 2
run
moment high
tbreak make_next
continue
up
moment high
down
finish
moment made made.number
