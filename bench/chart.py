"""The picture chart.svg, from last_run.txt. `bash test.sh -k pages --fix` writes it."""

from math import ceil, floor, log10

import bench

JOBS = ["small", "typical", "rustc", "sub60", "many", "long", "files"]
# For each column of last_run.txt: its name in the picture, a colour, and the path of a marker.
LIBRARIES = {
    "clap": ("clap", "#c8553d", "M-4 0a4 4 0 1 0 8 0a4 4 0 1 0-8 0z"),
    "pico-args": ("pico-args", "#e0a030", "M-4-4h8v8h-8z"),
    "lexopt": ("lexopt", "#5079a8", "M0-5l5 9h-10z"),
    "Rust crate": ("the original", "#808080", "M-1.5-6h3v12h-3z"),
    "bindings/rust": ("proved-getopts", "#0b8e65", "M0-5l5 5l-5 5l-5-5z"),
}
STYLE = """text { font: 12px sans-serif; fill: #1f2328 } .middle { text-anchor: middle } .end { text-anchor: end }
line { stroke: #808080; stroke-width: 0.4 }
@media (prefers-color-scheme: dark) { text { fill: #e6edf3 } }"""


def recorded(job, column):
    """The instructions of an iteration, as last_run.txt has them: with a star if the program's results differ from the others'."""
    return bench.recorded()["Instructions per iteration", job][column]


def instructions(job, column):
    return int(recorded(job, column).rstrip("*"))


def text(x, y, said, of=""):
    return f'<text x="{x:.1f}" y="{y:.1f}"{of and f" class={of!r}"}>{said}</text>'


def line(x, y, to_x, to_y):
    return f'<line x1="{x:.1f}" y1="{y:.1f}" x2="{to_x:.1f}" y2="{to_y:.1f}"/>'


def marker(x, y, column, star=""):
    _, colour, path = LIBRARIES[column]
    return f'<path d="{path}" fill="{colour}" transform="translate({x:.1f} {y:.1f})"/>{star and text(x + 5, y + 2, star)}'


def draw():
    """For each job, the instructions of five libraries, divided by those of the crate getopts."""
    ratios = {(job, column): instructions(job, column) / instructions(job, "Rust crate") for job in JOBS for column in LIBRARIES}
    low, high = log10(min(ratios.values())) - 0.1, log10(max(ratios.values())) + 0.1
    place = lambda ratio: 225 + (log10(ratio) - low) / (high - low) * 475
    bottom, parts, x = 40 + 28 * len(JOBS), [], 90
    for column, (name, *_) in LIBRARIES.items():
        parts += [marker(x, 12, column), text(x + 9, 16, name)]
        x += 40 + 6.5 * len(name)
    for at, job in enumerate(JOBS):
        options, words = map(len, bench.parts(job))
        y = 50 + 28 * at
        parts += [text(215, y + 4, f"{job}: {options} options, {words:,} words", "end"), line(225, y, 700, y),
                  *(marker(place(ratios[job, column]), y, column, recorded(job, column).strip("0123456789")) for column in LIBRARIES)]
    parts += [text(place(10 ** power), bottom + 16, f"{10 ** power:g}×", "middle") for power in range(ceil(low), floor(high) + 1)]
    parts.append(text(462, bottom + 36, "instructions, as a multiple of the original's (log scale; left is better; *: other results)",
                      "middle"))
    return "\n".join([f'<svg xmlns="http://www.w3.org/2000/svg" viewBox="0 0 720 {bottom + 46}" role="img">',
                      "<title>Instructions of seven jobs</title>", f"<style>{STYLE}</style>", *parts, "</svg>\n"])
