#!/usr/bin/env python3
"""Draws a trace as an SVG: `bench/trace_picture.py <TRACE >SVG`. That of docs/trace.md is of crates/mtapi_trace/stdout.

It shows what a viewer of traces shows: the counters, and below them the tracks with their slices and the arrows of the
flows.
"""

import html
import json
import sys

LEFT, WIDTH, ROW, BAR = 190, 1120, 34, 22
STYLE = """svg{background:#fff}text{fill:#1f2328}.note,.mark text{font-size:10px}.note{fill:#59636e}.even{fill:#f3f5f8}
.guide{stroke:#d1d9e0}.task{fill:#9fd3ae}.wait{fill:#e3e7ec}.call{fill:#a8c7f0}.count{fill:#d9c8f5;stroke:#8250df}
.mark rect{stroke:#59636e;stroke-width:.5}.flow{fill:none;stroke:#bc4c00;stroke-width:1.2}.head{fill:#bc4c00}
@media (prefers-color-scheme:dark){svg{background:#0d1117}text{fill:#e6edf3}.note{fill:#9198a1}.even{fill:#161b22}
.guide{stroke:#30363d}.task{fill:#1c5a30}.wait{fill:#30363d}.call{fill:#1d3f6e}.count{fill:#4c3a78;stroke:#bc8cff}
.flow{stroke:#ff9248}.head{fill:#ff9248}}"""


def step_of(last):
    """A round number of microseconds between two guides."""
    return next(step for power in range(9) for step in (10**power, 2 * 10**power, 5 * 10**power) if last / step <= 12)


class Drawing:
    """The picture of a list of events."""

    def __init__(self, events):
        self.events = events
        self.last = max(it["ts"] + it.get("dur", 1) for it in events if "ts" in it)
        self.lines = []
        self.row = 0
        self.tops = {}

    def x(self, time):
        return round(LEFT + time * WIDTH / self.last, 1)

    def add(self, line):
        self.lines.append(line)

    def begin_row(self, name):
        top = 40 + self.row * ROW
        if self.row % 2 == 0:
            self.add(f'<rect class="even" x="0" y="{top}" width="{LEFT + WIDTH}" height="{ROW}"/>')
        self.add(f'<text x="8" y="{top + 21}">{html.escape(name)}</text>')
        self.row += 1
        return top

    def counters(self):
        names = list(dict.fromkeys(it["name"] for it in self.events if it["ph"] == "C"))
        for name in names:
            top = self.begin_row(name)
            levels = [(it["ts"], it["args"]["tasks"]) for it in self.events if it["ph"] == "C" and it["name"] == name]
            most, base = max(count for _, count in levels) or 1, top + ROW - 4
            path = "".join(f"H{self.x(time)}V{round(base - count * BAR / most, 1)}" for time, count in levels)
            self.add(f'<path class="count" d="M{LEFT} {base}{path}H{self.x(self.last)}V{base}Z"/>')
            self.add(f'<text class="note" x="{LEFT - 8}" y="{top + 14}" text-anchor="end">{most}</text>')

    def tracks(self):
        tracks = [it for it in self.events if it["ph"] == "M" and it["name"] == "thread_name"]
        for track in sorted(tracks, key=lambda it: it["tid"]):
            top = self.tops[track["tid"]] = self.begin_row(track["args"]["name"])
            slices = [it for it in self.events if it["ph"] == "X" and it["tid"] == track["tid"]]
            for it in sorted(slices, key=lambda it: -it["dur"]):
                self.slice(top + 6, it)

    def slice(self, top, it):
        x, width, name = self.x(it["ts"]), round(it["dur"] * WIDTH / self.last - 1, 1), html.escape(it["name"])
        room = int((width - 4) / 5.6)
        words = f'<text x="{x + 3}" y="{top + 14}">{name[:room]}</text>' if room >= 4 else ""
        self.add(f'<g class="mark"><title>{name}: {it["args"]["answer"]}</title>'
                 f'<rect class="{it["cat"]}" x="{x}" y="{top}" width="{width}" height="{BAR}"/>{words}</g>')

    def flows(self):
        ends = {it["id"]: it for it in self.events if it["ph"] == "f"}
        for it in (it for it in self.events if it["ph"] == "s"):
            end = ends[it["id"]]
            x, y, to_x, to_y = self.x(it["ts"] + 0.5), self.tops[it["tid"]] + 28, self.x(end["ts"]) + 4, self.tops[end["tid"]] + 6
            self.add(f'<path class="flow" d="M{x} {y}C{x} {y + 40} {to_x} {to_y - 60} {to_x} {to_y - 5}"/>'
                     f'<path class="head" d="M{to_x} {to_y}l-3 -6h6z"/>')

    def text(self):
        self.counters()
        self.tracks()
        self.flows()
        height = 40 + self.row * ROW + 8
        guides = "".join(f'<path class="guide" d="M{self.x(time)} 34V{height - 8}"/><text class="note" x="{self.x(time)}" y="28" '
                         f'text-anchor="middle">{time} µs</text>' for time in range(0, self.last + 1, step_of(self.last)))
        body = "\n".join(self.lines)
        return (f'<svg xmlns="http://www.w3.org/2000/svg" viewBox="0 0 {LEFT + WIDTH + 10} {height}" width="{LEFT + WIDTH + 10}" '
                f'height="{height}" font-family="system-ui,sans-serif" font-size="12">\n<title>mtapi: the trace of a run</title>\n'
                f"<style>\n{STYLE}\n</style>\n{guides}\n{body}\n</svg>")


print(Drawing(json.load(sys.stdin)["traceEvents"]).text())
