"""Draws docs/session.svg: the regions of example/session.toml over time with its busses, and below it a block's way through a cycle."""
import os
import tomllib

HERE = os.path.dirname(os.path.abspath(__file__))
EXAMPLE = os.path.join(HERE, "..", "example")
WIDE, HIGH = 1040, 760
LEFT, SCALE, TOP, ROW = 96, 560 / 1280000, 70, 46
BAR = 128000
COLOURS = {"drums": "#c0504d", "bass": "#8064a2", "guitar": "#d08a2e", "strings": "#3d8a8a", "lead": "#3f6fb5", "echo": "#7fa3d6", "flute": "#5a9a4a"}
INK, PALE, LINE = "#222", "#f4f1ea", "#8a8578"
out = []


def put(shape, **keys):
    out.append("<%s %s/>" % (shape, " ".join('%s="%s"' % (key.replace("_", "-"), value) for key, value in keys.items())))


def say(x, y, text, size=13, anchor="start", **keys):
    more = "".join(' %s="%s"' % (key.replace("_", "-"), value) for key, value in keys.items())
    out.append('<text x="%g" y="%g" font-size="%g" text-anchor="%s"%s>%s</text>' % (x, y, size, anchor, more, text))


def arrow(points, colour=LINE, dash=None, width=1.6):
    keys = {"stroke_dasharray": dash} if dash else {}
    path = "M" + " L".join("%g,%g" % point for point in points) if isinstance(points, list) else points
    put("path", d=path, fill="none", stroke=colour, stroke_width=width, marker_end="url(#tip)", **keys)


def box(x, y, wide, high, *lines, fill="#fff"):
    put("rect", x=x, y=y, width=wide, height=high, rx=5, fill=fill, stroke=LINE, stroke_width=1.2)
    first = y + high / 2 - 8 * (len(lines) - 1) + 4
    for i, text in enumerate(lines):
        say(x + wide / 2, first + 16 * i, text, 13 if i == 0 else 11.5, "middle", font_weight="bold" if i == 0 else "normal")


def fade(x, wide, y, high, rising, slow):
    """What a fade takes away, as a pale corner of a region."""
    steps = [i / 16 for i in range(17)]
    curve = [(x + (t if rising else 1 - t) * wide, y + high * (1 - (t * t if slow else t))) for t in steps]
    corner = [(x if rising else x + wide, y), (x + wide if rising else x, y)]
    put("polygon", points=" ".join("%g,%g" % p for p in [corner[0]] + curve), fill="#fff", fill_opacity=0.72)


def regions(track, y):
    colour = COLOURS[track["name"]]
    for r in sorted(track.get("region", []), key=lambda r: (r.get("layer", 0), r["id"])):
        x, wide = LEFT + r["at"] * SCALE, r["length"] * SCALE
        above = r.get("layer", 0) > 0
        top, high = (y + 4, 17) if above else (y + 14, 26)
        through = not r.get("opaque", True)
        put("rect", x=round(x, 1), y=top, width=round(wide, 1), height=high, rx=2, fill=colour, fill_opacity=0.45 if through else 0.95 if above else 0.8,
            stroke="#fff", stroke_width=1)
        if r.get("fade_in"):
            fade(x, r["fade_in"] * SCALE, top, high, True, r.get("shape_in") == "slow")
        if r.get("fade_out"):
            fade(x + wide - r["fade_out"] * SCALE, r["fade_out"] * SCALE, top, high, False, r.get("shape_out") == "slow")
        if not above or wide > 100:
            word = r["source"] + (" from bar %d" % (r["start"] // BAR + 1) if r.get("start") and not above else "")
            say(x + 5 + (r.get("fade_in", 0) * SCALE if not above else 0), top + high - (5 if above else 8), "fill" if r.get("start") == BAR else "cymbal" if through else word, 11, fill="#fff" if not through else INK)


def lane(route, y):
    if route.get("mode") == "play":
        points = [(0, route["lane"][0][1])] + [tuple(p) for p in route["lane"]] + [(1280000, route["lane"][-1][1])]
        put("polyline", points=" ".join("%g,%g" % (LEFT + x * SCALE, y + 40 - g / 65536 * 40) for x, g in points), fill="none", stroke=INK,
            stroke_width=1.4, stroke_dasharray="2 2")


def song():
    session = tomllib.loads(open(os.path.join(EXAMPLE, "session.toml")).read() + open(os.path.join(EXAMPLE, "flute.toml")).read())
    say(24, 30, "A session: regions on tracks over time, and where the tracks lead", 16, font_weight="bold")
    for bar in range(11):
        x = LEFT + bar * BAR * SCALE
        put("line", x1=x, y1=TOP - 8, x2=x, y2=TOP + 7 * ROW, stroke="#ddd6c8", stroke_width=1)
        if bar < 10:
            say(x + 4, TOP - 12, "bar %d" % (bar + 1) if bar == 0 else bar + 1, 11, fill="#6b665b")
    place = {"master": (946, TOP + 3.5 * ROW)}
    for bus, at in zip(session["bus"], (1, 2.5, 5)):
        place[bus["name"]] = (806, TOP + at * ROW)
    end = LEFT + 1280000 * SCALE
    for i, track in enumerate(session["track"]):
        y = TOP + i * ROW
        put("rect", x=LEFT, y=y + 2, width=1280000 * SCALE, height=ROW - 4, fill=PALE)
        say(LEFT - 8, y + 26, track["name"], 13, "end", font_weight="bold", fill=COLOURS[track["name"]])
        say(LEFT - 8, y + 39, "stereo" if track["channels"] == 2 else "mono", 10, "end", fill="#6b665b")
        regions(track, y)
        lane(track, y)
        for to, dash in [(track.get("out", "master"), None)] + [(send["to"], "1 3" if send.get("pre") else "6 3") for send in track.get("send", [])]:
            x1, y1 = end + 4, y + ROW / 2 + (8 if dash else 0)
            x2, y2 = place[to]
            x2 -= 44
            arrow("M%g,%g C%g,%g %g,%g %g,%g" % (x1, y1, (x1 + x2) / 2, y1, (x1 + x2) / 2, y2, x2, y2 + (5 if dash else 0)), COLOURS[track["name"]], dash)
    for bus in session["bus"]:
        x, y = place[bus["name"]]
        arrow("M%g,%g C%g,%g %g,%g %g,%g" % (x + 42, y, x + 75, y, place["master"][0] - 75, place["master"][1], place["master"][0] - 46, place["master"][1]))
        box(x - 42, y - 20, 84, 40, bus["name"], "bus, " + ("stereo" if bus["channels"] == 2 else "mono"))
    box(place["master"][0] - 44, place["master"][1] - 24, 88, 48, "master", "stereo")
    y = TOP + 7 * ROW + 20
    say(LEFT, y, "The upper regions of drums, lead and echo lie on a higher layer. Pale corners are fades; the dotted line is the lane of a fader.", 11.5)
    for x, dash, text in ((LEFT, None, "output"), (LEFT + 90, "6 3", "send behind the fader"), (LEFT + 275, "1 3", "send before it")):
        put("line", x1=x, y1=y + 18, x2=x + 30, y2=y + 18, stroke=INK, stroke_width=1.6, **({"stroke_dasharray": dash} if dash else {}))
        say(x + 36, y + 22, text, 11.5)


def cycle():
    top = 470
    say(24, top, "A cycle: how a block comes from the disk to the master, and from the microphone to the disk", 16, font_weight="bold")
    put("rect", x=24, y=top + 16, width=430, height=244, rx=8, fill="#eef3ec", stroke="none")
    put("rect", x=594, y=top + 16, width=424, height=244, rx=8, fill="#eef0f6", stroke="none")
    say(36, top + 35, "the butler may wait for the disk", 12, fill="#4c6b43", font_style="italic")
    say(606, top + 35, "the process never waits", 12, fill="#435a86", font_style="italic")
    play, take = top + 62, top + 192
    box(36, play, 92, 52, "sources", "WAV files")
    box(210, play, 232, 52, "butler", "renders blocks of a track ahead")
    box(36, take, 92, 52, "takes", "WAV files")
    box(468, play, 114, 52, "ring", "%d blocks a track" % 16)
    box(468, take, 114, 52, "ring", "recorded blocks")
    box(606, play, 138, 52, "window", "newest of each block")
    box(770, play, 138, 52, "desk", "faders, sends, busses")
    box(934, play, 76, 52, "master", "WAV file")
    box(934, take, 76, 52, "input", "WAV file")
    box(606, take, 302, 52, "process", "one block a cycle, and an entry of the report")
    box(468, play + 82, 114, 30, "control lines")
    middle = play + 26
    arrow([(128, middle), (207, middle)])
    arrow([(442, middle), (465, middle)])
    arrow([(582, middle), (603, middle)])
    arrow([(744, middle), (767, middle)])
    arrow([(908, middle), (931, middle)])
    low = take + 26
    arrow([(934, low), (911, low)])
    arrow([(606, low), (585, low)])
    arrow([(468, low), (131, low)])
    say(300, low - 7, "the butler writes them", 11.5, "middle")
    arrow([(468, play + 97), (330, play + 97), (330, play + 55)], dash="4 3")
    arrow([(582, play + 97), (672, play + 97), (672, take - 3)], dash="4 3")
    say(322, play + 92, "edits", 11.5, "end")
    say(680, play + 92, "edits", 11.5)
    arrow([(640, take), (640, take - 12), (250, take - 12), (250, play + 55)], dash="1 3")
    say(452, take - 16, "what was played", 11.5, "end")
    arrow([(829, take), (829, play + 55)])
    say(836, take - 34, "mixes", 11.5)


song()
cycle()
with open(os.path.join(HERE, "session.svg"), "w") as file:
    file.write('<svg xmlns="http://www.w3.org/2000/svg" viewBox="0 0 %d %d" font-family="Helvetica, Arial, sans-serif" fill="%s">\n' % (WIDE, HIGH, INK))
    file.write('<defs><marker id="tip" viewBox="0 0 8 8" refX="7" refY="4" markerWidth="6" markerHeight="6" orient="auto"><path d="M0,0 L8,4 L0,8 z" fill="context-stroke"/></marker></defs>\n')
    file.write('<rect width="%d" height="%d" fill="#fff"/>\n' % (WIDE, HIGH))
    file.write("\n".join(out) + "\n</svg>\n")
