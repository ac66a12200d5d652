"""The parts of tools/ran, which judges a log by when entries were due.

command   the words of the command line, and what is read and written
lines     the lines of a log: their stamps, and which launches they tell of
clock     what the clock of the tables' zone shows
stamps    the instants of a log's stamps, with the years and the zone that some of them lack
commands  how cron writes a command into its log
tables    the entries of a machine's tables, and when the program says that each is due
verdicts  which launches are missing, late, twice there or not due
rows      what is told of them, as text and as JSON
"""
