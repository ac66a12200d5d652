"""The causes for which the program refuses a line or a run file."""

# What is wrong, by the cause's number, as docs/RUN_FILE.md has it.
CAUSES = {
    1: "nothing stands where a number or a name should",
    2: "a number of more than nine digits, or a step that is no number",
    3: "a number that the field doesn't take",
    4: "a word that is no name of this field",
    5: "a range that ends below its beginning",
    6: "a step of 0",
    7: "a step behind a single number or name",
    8: "`~` in a field, which is a random value in cronie",
    9: "something else that is no number and no name",
    10: "fewer than five fields, or in an anacrontab no period, delay or identifier",
    11: "no command",
    12: "in a system table, no user or none that may be one",
    13: "a word that begins with `@` and is no nickname",
    14: "a command of more than 1,000 bytes",
    15: "not UTF-8, or a zero byte",
    16: "in an anacrontab, a period that is neither 1 to 9,999 days nor the name of one",
    17: "in an anacrontab, a delay that isn't 0 to 9,999 minutes",
    18: "in an anacrontab, an identifier of more than 64 bytes, or with `/`",
    19: "in an anacrontab, a `START_HOURS_RANGE` that isn't two hours from 0 to 24 that rise",
    20: "in an anacrontab, a `RANDOM_DELAY` that isn't 0 to 9,999",
    21: "a zone that the run doesn't have",
    22: "a job whose name is there already in the same version",
    23: "more than 1,000 jobs, over all versions",
    24: "more than 20,000 due instants, over all versions",
    25: "not `cronrun 1`",
    26: "not `replicas N` with N from 1 to 7",
    27: "not `window STAMP STAMP` within the limits",
    28: "not `grace G` within the limits",
    29: "`crontab`, `system` or `anacrontab` with another form, or with more lines than there are",
    30: "in the script, neither a command nor `end`, or a command too many; or a line behind `end`",
    31: "before the script, neither a zone, a table, a version nor `script`; or the file ends before `end`",
    32: "a zone whose rule or file `jiff` refuses",
    33: "more than 1,048,576 bytes",
    34: "`zone` with another form; or the name `UTC`, a name that is there, or a 33rd zone",
    36: "`version` with another form; or a number that isn't the next one from 1 or is above 7, or a stamp that is outside the window "
    "or before that of the version above",
}
# Those of a single line of a table, which a check tells. The script tells the others itself.
OF_LINES = {*range(1, 21)} - {15}


def meaning(cause):
    """What is wrong by a cause."""
    return CAUSES.get(cause, "a fault that the script doesn't know")
