"""The picture reading.svg: a command line, the role of each word, and what the library returns, as getopts_show prints it.
`bash test.sh -k pages --fix` writes it."""

import re
from html import escape

WORDS = ["-vLd", "--color=red", "-o", "x.txt", "in.txt", "--", "-v"]
STYLE = """text { font: 14px sans-serif; fill: #1f2328 } .code { font: 14px monospace } .small { font-size: 12px }
rect { stroke-width: 1; rx: 4 } .option { fill: #d7f0e3; stroke: #0b6e4f } .argument { fill: #f2faf6; stroke: #0b6e4f }
.free { fill: #dde8f8; stroke: #3d5a80 } .stop { fill: #eeeeee; stroke: #888888 }
@media (prefers-color-scheme: dark) { text { fill: #e6edf3 } .option { fill: #0e4433; stroke: #57c99b }
.argument { fill: #11251e; stroke: #57c99b } .free { fill: #1d3350; stroke: #84a9dd } .stop { fill: #333333; stroke: #999999 } }"""


def roles(occurrences, free):
    """The class and the name of each word's role, and what the word gives."""
    found, free = [], list(free)
    for at, word in enumerate(WORDS):
        given = [f"{name} = {value}" if value else name for name, position, value in occurrences if position == at]
        before = [value for _, position, value in occurrences if position == at - 1 and value]
        if given:
            found.append(("option", "option" if word.startswith("--") else "cluster", given))
        elif word in before and not WORDS[at - 1].endswith(word):
            found.append(("argument", "argument", []))
        elif free[:1] == [word]:
            found.append(("free", "free word", [free.pop(0)]))
        else:
            found.append(("stop", "stop", []))
    return found


def draw(answers):
    """The picture, from what getopts_show prints for WORDS."""
    values = {(name, int(at)): value for name, at, value in re.findall(r"^(\w+) @(\d+) = (.*)$", answers, re.M)}
    positions = [(name, int(at)) for name, _, of in re.findall(r"^(\w+): (\d+)((?: @\d+)+)$", answers, re.M)
                 for at in re.findall(r"\d+", of)]
    occurrences = sorted(((name, at, values.get((name, at))) for name, at in positions),
                         key=lambda it: (it[1], WORDS[it[1]].find(it[0][0])))
    free, line = (re.findall(rf"^{kind}: (.*)$", answers, re.M) for kind in ("free", "line"))
    parts, left = [], 120
    for word, (kind, name, given) in zip(WORDS, roles(occurrences, free)):
        width = max(8.6 * len(word) + 20, 7.2 * max(map(len, [name, *given])))
        middle = f'x="{left + width / 2:.0f}" text-anchor="middle"'
        parts += [f'<rect class="{kind}" x="{left:.0f}" y="12" width="{width:.0f}" height="28"/>',
                  f'<text class="code" {middle} y="31">{escape(word)}</text>', f'<text class="small" {middle} y="62">{name}</text>',
                  *(f'<text class="small" {middle} y="{92 + 18 * at}">{escape(it)}</text>' for at, it in enumerate(given))]
        left += width + 12
    for y, label in (31, "words"), (62, "roles"), (92, "result"), (144, "canonical line"):
        parts.append(f'<text x="0" y="{y}">{label}</text>')
    parts.append(f'<text class="code" x="120" y="144">{escape(" ".join(line))}</text>')
    told = "; ".join(f"{word}: {', '.join([name, *given])}" for word, (_, name, given) in zip(WORDS, roles(occurrences, free)))
    return "\n".join([f'<svg xmlns="http://www.w3.org/2000/svg" viewBox="0 0 {left:.0f} 156" role="img">',
                      f"<title>A reading</title><desc>{escape(told)}. Canonical line: {escape(' '.join(line))}</desc>",
                      f"<style>{STYLE}</style>", *parts, "</svg>\n"])
