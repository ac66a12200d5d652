"""How cron writes a command into its log."""
import itertools


def cut(command, strips_backslashes):
    """A command up to its first `%`. Of a `%` with a backslash before it the backslash goes, and in Debian's cron that of a
    backslash too (do_command.c)."""
    said, place = [], 0
    while place < len(command) and command[place] != "%":
        after = command[place + 1 : place + 2]
        if command[place] == "\\" and (after == "%" or (after == "\\" and strips_backslashes)):
            place += 1
        elif command[place] == "\\" and after == "\\":
            said.append("\\")
            place += 1
        said.append(command[place])
        place += 1
    return "".join(said)


def printed(command, is_octal):
    """A command with what can't be printed in other signs, as misc.c of cron does it: all bytes beyond ASCII too, or none."""
    said = []
    for byte in command.encode("utf-8", "surrogateescape"):
        if byte < 32:
            said.append(b"^%c" % (byte + 64))
        elif byte == 127:
            said.append(b"^?")
        else:
            said.append(b"\\%03o" % byte if byte > 127 and is_octal else b"%c" % byte)
    return b"".join(said).decode("utf-8", "surrogateescape")


def forms_of(command):
    """The texts that a command may have in a log, each once. Blanks around it count for nothing."""
    ways = itertools.product((True, False), (True, False))
    return list(dict.fromkeys(printed(cut(command, strips), octal).strip(" ") for strips, octal in ways))
