#!/usr/bin/env python3
"""Draws docs/speed.svg from bench/peers.csv: megabytes a second of each reader, as the geometric mean over all kinds that it reads.

    python3 bench/chart.py

Colours follow the reader's setting (light or dark); the text is read at 700 pixels of width.
"""

import csv
import math
import os

TOP = os.path.dirname(os.path.dirname(os.path.abspath(__file__)))
TITLES = {"events": "to events", "format": "to a text again", "load": "to documents"}
WIDTH, ROW, LEFT, RIGHT, GAP, TOP_ROOM = 720, 24, 110, 70, 34, 46
STYLE = """
    text { font: 14px system-ui, sans-serif; fill: #1f2328 } .small { font-size: 12px; fill: #59636e } .head { font-weight: 600 }
    .ours { fill: #1a7f5a } .other { fill: #9aa7b4 } .ground { fill: #ffffff }
    @media (prefers-color-scheme: dark) { text { fill: #e6edf3 } .small { fill: #9198a1 } .ours { fill: #3fb98a } .other { fill: #5b6673 } .ground { fill: #0d1117 } }
"""


def means(rows, names, command):
    """Of each reader that reads the command: megabytes a second. Files have about a megabyte."""
    found = {}
    for name in names:
        taken = [float(row[name]) for row in rows if row["command"] == command and row[name]]
        if taken:
            found[name] = 1 / math.exp(sum(math.log(max(it, 0.0005)) for it in taken) / len(taken))
    return found


def main():
    with open(f"{TOP}/bench/peers.csv", encoding="utf-8") as file:
        rows = list(csv.DictReader(file))
    names = [it for it in rows[0] if it not in ("command", "kind")]
    parts, y = [], TOP_ROOM
    for command, title in TITLES.items():
        speeds = means(rows, names, command)
        most = max(speeds.values())
        parts.append(f'<text class="head" x="12" y="{y}">{title}</text>')
        y += 10
        for name, speed in speeds.items():
            length = (WIDTH - LEFT - RIGHT) * speed / most
            kind = "ours" if name == "yaml_cli" else "other"
            parts.append(f'<text class="small" x="{LEFT - 8}" y="{y + 16}" text-anchor="end">{name}</text>')
            parts.append(f'<rect class="{kind}" x="{LEFT}" y="{y + 4}" width="{max(length, 1):.1f}" height="{ROW - 8}" rx="2"/>')
            parts.append(f'<text class="small" x="{LEFT + length + 6:.1f}" y="{y + 16}">{speed:.0f} MB/s</text>' if speed >= 10 else
                         f'<text class="small" x="{LEFT + length + 6:.1f}" y="{y + 16}">{speed:.1f} MB/s</text>')
            y += ROW
        y += GAP
    height = y - GAP + 12
    label = "Megabytes of YAML a second, by reader"
    head = f'<svg xmlns="http://www.w3.org/2000/svg" viewBox="0 0 {WIDTH} {height}" width="{WIDTH}" height="{height}" role="img" aria-label="{label}">'
    body = "\n  ".join([f"<style>{STYLE}  </style>", f'<rect class="ground" width="{WIDTH}" height="{height}"/>',
                        f'<text class="small" x="12" y="22">{label}: 1 MB files of 13 kinds, one processor, geometric mean; longer is faster</text>', *parts])
    with open(f"{TOP}/docs/speed.svg", "w", encoding="utf-8") as file:
        file.write(f"{head}\n  {body}\n</svg>\n")


if __name__ == "__main__":
    main()
