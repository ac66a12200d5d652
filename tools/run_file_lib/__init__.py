"""The parts of tools/run_file, which writes a run file from the tables of a machine.

command      writes the run file, or what the program answers to it
gather       reads the zones, the tables and the script of a run file
daemons      which tables the machine's own cron ignores, and what it takes otherwise
cron_lines   how Debian's cron and cronie read a line
options      the words of the command line, and the limits of the first lines of a run file
places       where a machine has its tables, and how files below a root are read
users        the users of a machine, and what in a spool is no user's table
labels       the label of a table, from its path
tables       a table's lines: which the program takes, and what is wrong with the others
crontabs     what is wrong with a line of a crontab or of a system table
anacrontabs  the same of an anacrontab
fields       the same of a field of an entry
zones        the zones that are named, and their files
clocks       what the clock of a zone shows, and its changes, by Python's zoneinfo
stamps       the stamps of the command line, and the window
machine_zone the zone of a machine
origins      where the jobs and the lines of a run file come from
program      the built program, and its refusals
windows      the due list of the program, over a window of any length
due_list     its rows, with where each comes from
matching     when an entry is due by its fields
explain      why an entry is due at a minute, or isn't
changes      what a new table changes
versions     the versions of the tables that changes at a time make
hints        what a table says and its writer hardly means
formats      the rows as text, as JSON and as comma-separated values
findings     what is wrong with the tables, by the script and by the program
causes       the causes for which the program refuses a line or a run file
faults       what is told: a fault that ends the command, and the words of a fault
streams      standard output and standard error
"""
