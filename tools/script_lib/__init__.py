"""What a script may say, line by line, for who writes one.

command   the command of tools/explain: its words, what it reads and what it tells
run_lines the lines of a run file: where its script stands, and what a script may name
lines     what is wrong with a line of a script, as a whole
forms     the form of each command
operands  what is wrong with a word behind a command
plain     a script without its comments and empty lines, which the program doesn't take
"""
