#!/usr/bin/env python3
"""Says in which line of a session's file that stands for which the program refuses it.

    ardour_engine check SESSION | where.py SESSION
    where.py SESSION error session unknown region 1 1

SESSION is the file, and the words are the program's last line, which is taken from standard input where there are none. What is printed is
the file, the line, and what is wrong there, as `t.toml:24: unknown key fadein`. The status is 0 where a line was found, 1 where none was
(tables that are written inside of a line aren't looked into), 2 where the file can't be read or the words are no refusal of a session."""
import re
import sys
import tomllib

ROUTE = "name channels out gain mute left right mode lane send"
KEYS = {
    "top": "session source track bus master",
    "session": "version rate bits channels block depth takes",
    "source": "name file channels",
    "track": ROUTE + " input solo arm region",
    "region": "id source start length at layer gain opaque fade_in fade_out shape_in shape_out",
    "track-send": "to pre gain",
    "bus": ROUTE,
    "bus-send": "to pre gain",
    "master": "gain mute mode lane",
}
HEADERS = {"region": "track.region", "track-send": "track.send", "bus-send": "bus.send"}
HEADER = re.compile(r"\s*\[{1,2}\s*([A-Za-z0-9_.-]+)\s*\]{1,2}\s*(#.*)?")
KEY = re.compile(r"\s*([A-Za-z0-9_-]+)\s*=\s*(.*?)\s*")


class Part:
    def __init__(self, kind, line):
        self.kind, self.line, self.keys = kind, line, []

    def named(self, key, text):
        """The lines in which the key has this text."""
        return [line for name, value, line in self.keys if name == key and re.fullmatch(r"[\"']%s[\"']\s*(#.*)?" % re.escape(text), value)]


def parts_of(text):
    """The parts that stand under headers, in their order, each with its keys: name, value and line."""
    parts = [Part("top", 1)]
    for number, line in enumerate(text.splitlines(), 1):
        header, key = HEADER.fullmatch(line), KEY.fullmatch(line)
        if header:
            parts.append(Part(header[1], number))
        elif key:
            parts[-1].keys.append((key[1], key[2], number))
    return parts


def part_at(parts, kind, row, item):
    """The part of that kind, by its number, and the number within its track or bus."""
    above, rows, items = kind.split("-")[0] if kind != "region" else "track", 0, 0
    for part in parts:
        if kind in ("top", "session", "master"):
            if part.kind == kind:
                return part
        elif part.kind == above:
            rows, items = rows + 1, 0
            if item == 0 and rows == row:
                return part
        elif part.kind == HEADERS.get(kind) and rows == row:
            items += 1
            if items == item:
                return part
    return None


def at_place(parts, word, place, version):
    """What is wrong of one part: `unknown`, `missing`, `kind`, `range`."""
    kind, numbers = place[0], [int(n) for n in place[1:] if n.isdigit()]
    part = part_at(parts, kind, numbers[0] if numbers else 1, numbers[1] if len(numbers) > 1 else 0)
    if part is None:
        return []
    if word == "unknown":
        known = set(KEYS[kind].split()) - ({"shape_in", "shape_out"} if version == 1 else set())
        return [(line, "unknown key " + key) for key, _, line in part.keys if key not in known]
    key = place[-1]
    if word == "missing":
        return [(part.line, "has no key " + key)]
    wrong = {"kind": "is of another kind", "range": "isn't allowed"}[word]
    lines = [(line, "%s = %s %s" % (name, value, wrong)) for name, value, line in part.keys if name == key]
    return lines or [(part.line, "%s %s" % (key, wrong))]


def of_name(parts, word, name, number):
    """What is wrong of a name."""
    routes = [part for part in parts if part.kind in ("track", "bus") and part.named("name", name)]
    if word == "twice":
        return [(line, "name = %s stands twice" % name) for part in parts if part.kind in ("track", "bus", "source") for line in part.named("name", name)]
    if word == "no-source":
        return [(line, "there is no source " + name) for part in parts for line in part.named("source", name)]
    if word in ("no-route", "not-bus"):
        why = "there is no route " + name if word == "no-route" else name + " is no bus"
        return [(line, why) for part in parts for key in ("out", "to") for line in part.named(key, name)]
    if word == "region-twice":
        own = parts[parts.index(routes[0]) + 1:] if routes else []
        end = next((i for i, part in enumerate(own) if "." not in part.kind), len(own))
        return [(line, "id = %s stands twice" % number) for part in own[:end] if part.kind == "track.region"
                for key, value, line in part.keys if key == "id" and value.split("#")[0].strip() == number]
    why = {"send-twice": "has two sends to one route", "channels": "has sources or leads of another number of channels", "cycle": "leads back to itself"}
    return [(part.line, "%s %s" % (name, why[word])) for part in routes] if word in why else []


def found(text, words):
    """The lines, and what is wrong there."""
    if words[0] == "not-toml":
        try:
            tomllib.loads(text)
        except tomllib.TOMLDecodeError as error:
            at = re.search(r"at line (\d+), column (\d+)", str(error))
            return [(int(at[1]), "column %s: %s" % (at[2], str(error).split(" (at")[0]))] if at else [(len(text.splitlines()), str(error))]
        return []
    parts = parts_of(text)
    versions = [value for key, value, _ in next((part.keys for part in parts if part.kind == "session"), []) if key == "version"]
    if words[0] in ("unknown", "missing", "kind", "range"):
        return at_place(parts, words[0], words[1:], 1 if versions[:1] == ["1"] else 2)
    return of_name(parts, words[0], words[1] if len(words) > 1 else "", words[-1])


def main():
    if len(sys.argv) < 2:
        sys.exit(__doc__)
    path, words = sys.argv[1], sys.argv[2:]
    if not words:
        told = [line.split() for line in sys.stdin if line.startswith("error ")]
        words = told[-1] if told else []
    if words[:2] != ["error", "session"] or len(words) < 3:
        if words:
            print("where.py: no refusal of a session: " + " ".join(words), file=sys.stderr)
        return 2 if words else 0
    try:
        with open(path, "rb") as file:
            text = file.read().decode("utf-8", "replace")
    except OSError as error:
        print("where.py: %s: %s" % (path, error.strerror), file=sys.stderr)
        return 2
    lines = found(text, words[2:])
    for line, what in lines:
        print("%s:%d: %s" % (path, line, what))
    if not lines:
        print("where.py: %s: no line was found for: %s" % (path, " ".join(words)), file=sys.stderr)
    return 0 if lines else 1


if __name__ == "__main__":
    sys.exit(main())
