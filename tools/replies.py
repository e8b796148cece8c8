#!/usr/bin/env python3
"""Says which lines of control a play refused, and why.

    replies.py CONTROL OUT

CONTROL is the file of the lines that the play read, OUT what it wrote to standard output, or `-` for standard input, which is read to
its end. Each line of CONTROL is held against the answer to it, and of each refused one its number, the line and the answer are printed:

    line 7: mute drumz on: refused no-route drumz

Blank lines, comments and what stands behind an accepted `quit` have no answer. The status is 0 where no line was refused, 1 where one was,
and 2 where a file can't be read or OUT doesn't fit CONTROL: an answer is missing, is left over, or can't be one to its line."""
import os
import re
import signal
import sys

COMMANDS = frozenset((b"roll stop quit record locate loop arm solo mute gain pan mode point unpoint connect send unsend add remove move"
                      b" trim layer opaque rgain fade shape wait sync").split())
# So many bytes are read of control, and a line may have so many.
CONTROL_BYTES, LINE_BYTES = 16777216, 4096
# How many characters of a line are printed.
PRINTED = 160


class Misfit(Exception):
    pass


def read(path):
    if path == "-":
        return sys.stdin.buffer.read()
    with open(path, "rb") as file:
        return file.read()


def printed(line):
    text = line.decode("ascii", "backslashreplace")
    text = "".join(c if c.isprintable() else "\\x%02x" % ord(c) for c in text.replace("\t", " "))
    return text if len(text) <= PRINTED else text[:PRINTED] + ".."


def answered_lines(control):
    """The number of each line that has an answer, and its bytes without line feed and the carriage return before it."""
    lines = control[:CONTROL_BYTES].split(b"\n")
    # (behind the last line feed nothing ends by one)
    bare = [line.removesuffix(b"\r") for line in lines[:-1]] + lines[-1:]
    for number, line in enumerate(bare, 1):
        words = line.split()
        if whole_refusal(line) or (words and not words[0].startswith(b"#")):
            yield number, line


def whole_refusal(line):
    """The refusal of a line whose words aren't looked at, if it has one."""
    if len(line) > LINE_BYTES:
        return b"refused long"
    return b"refused text" if re.search(rb"[^\t -~]", line) else None


def may_answer(line, answer, edition):
    """Whether a play that has accepted so many edits may give this answer to a line."""
    whole = whole_refusal(line)
    command = line.split()[:1]
    if whole or command[0] not in COMMANDS:
        return answer == (whole or b"refused not-command")
    if answer.startswith(b"refused "):
        return answer not in (b"refused long", b"refused text", b"refused not-command")
    if command[0] == b"wait":
        return answer == b"done"
    if command[0] == b"sync":
        return bool(re.fullmatch(b"synced %d [0-9]+|not synced %d" % (edition, edition), answer))
    return answer == b"ok %d" % (edition + 1)


def answers_of(out, name):
    """What stands before the report."""
    lines = out.split(b"\n")
    if b"report 1" not in lines:
        last = [line for line in lines if line][-1:]
        raise Misfit("%s has no line `report 1`%s" % (name, "; its last line is: " + printed(last[0]) if last else ""))
    return lines[: lines.index(b"report 1")]


def refused(control, out, names):
    """What was refused, line by line."""
    answers, found, edition, count = answers_of(out, names[1]), [], 0, 0
    for number, line in answered_lines(control):
        place = "line %d of %s: %s" % (number, names[0], printed(line))
        if count == len(answers):
            last = out.rstrip(b"\n").split(b"\n")[-1]
            ended = "; the run ended so: " + printed(last) if last.startswith(b"error ") else ""
            raise Misfit("%s has no answer to %s%s" % (names[1], place, ended))
        answer = answers[count]
        count += 1
        if not may_answer(line, answer, edition):
            raise Misfit("line %d of %s is no answer to %s: %s" % (count, names[1], place, printed(answer)))
        if answer.startswith(b"refused "):
            found.append("line %d: %s: %s" % (number, printed(line), printed(answer)))
        elif answer.startswith(b"ok "):
            edition += 1
            if line.split() == [b"quit"]:
                break
    if count < len(answers):
        raise Misfit("line %d of %s answers no line of %s: %s" % (count + 1, names[1], names[0], printed(answers[count])))
    return found


def main(words):
    if len(words) != 2:
        print("usage: replies.py CONTROL OUT", file=sys.stderr)
        return 2
    try:
        found = refused(read(words[0]), read(words[1]), [it if it != "-" else "standard input" for it in words])
    except Misfit as why:
        print("replies.py: %s" % why, file=sys.stderr)
        return 2
    for line in found:
        print(line)
    return 1 if found else 0


if __name__ == "__main__":
    signal.signal(signal.SIGPIPE, signal.SIG_DFL)
    try:
        status = main(sys.argv[1:])
        sys.stdout.flush()
    except OSError as fault:
        print("replies.py: %s" % ": ".join(it for it in (fault.filename, fault.strerror or str(fault)) if it), file=sys.stderr)
        # (what a full disk didn't take isn't written once more)
        os._exit(2)
    sys.exit(status)
