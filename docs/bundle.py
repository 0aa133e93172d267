#!/usr/bin/env python3
"""Writes the formal definitions, compiled to JavaScript, into the page try.html.

usage: bundle.py

`agda/check.sh --compile` has Agda compile them. This keeps those that the page names, and those on which they depend, each in a
line, and gives shorter names to modules and to the two ways in which Agda writes a choice.
"""

import re
import subprocess
import sys
from pathlib import Path

ROOT = Path(__file__).resolve().parents[1]
PAGE = ROOT / "docs/try.html"
PLACE = re.compile(r"(?<=^// generated: definitions\n).*?(?=^// end$)", re.M | re.S)
SHORTER = {
    "\n": "", "z_jAgda_Agda_": "", "z_jAgda_": "",
    'function (x,v) { return ((x)? v["true"]() : v["false"]()); }': "ofBool",
    'function(x,v) { if (x.length < 1) { return v["[]"](); } else { return v["_∷_"](x[0], x.slice(1)); } }': "ofList",
}


def statements(folder, file, seen):
    """The statements of a file, each as (module, name, text), after those of the files that it needs, unless these are seen."""
    if file in seen:
        return
    seen.add(file)
    text = (folder / f"{file}.js").read_text(encoding="utf-8")
    for other in re.findall(r'require\("(.*?)"\)', text):
        yield from statements(folder, other, seen)
    if file == "agda-rts":
        for name, value in re.findall(r"^exports\.(\w+) = (.*?);\n(?![ }])", text, re.M | re.S):
            yield "agdaRTS", name, f'agdaRTS["{name}"]={" ".join(value.split())}'
        return
    module = re.sub(r"jAgda\.(Agda\.)?", "", file).replace(".", "_")
    for long, short in SHORTER.items():
        text = text.replace(long, short)
    text = re.sub(r'agdaRTS\.primIntegerFromString\("(\d+)"\)', r"\1n", text)
    text = re.sub(r"agdaRTS\.(\w+)", r'agdaRTS["\1"]', text)
    # Agda numbers modules without names, such as those of `where`, by all names before them.
    for number, name in enumerate(dict.fromkeys(re.findall(r'"(_NameId .*?)"', text)), 1):
        text = text.replace(name, f"where {number}")
    for each in re.split(r';(?=exports\[")', text)[1:]:
        each = each.removesuffix(";").replace("exports[", f"{module}[")
        yield module, re.match(r'\w+\["([^"]*)"', each)[1], each


def bundle(page, folder):
    """The definitions that a page needs, as JavaScript. The page itself has some of Agda's modules, as constants."""
    given = re.findall(r"^const (\w+)", page, re.M)
    found = [it for it in statements(folder, "jAgda.Run", set()) if it[0] not in given]
    modules, needed, todo = {module for module, *_ in found}, set(), [page]
    while todo:
        for name in {*re.findall(r'\b(\w+)\["([^"]+)"\]', todo.pop())} - needed:
            texts = [text for module, own, text in found if (module, own) == name]
            if name[0] in modules and not texts:
                sys.exit(f"bundle.py: nothing defines {name[1]} of {name[0]}")
            needed.add(name)
            todo += texts
    kept = [(module, text) for module, name, text in found if (module, name) in needed]
    names = ", ".join(f"{module} = {{}}" for module in dict(kept))
    return f"const {names};\n" + "".join(f"{text};\n" for _, text in kept)


def written(page, folder):
    """The text of the page with the definitions of this folder."""
    return PLACE.sub(lambda _: bundle(PLACE.sub("", page), Path(folder)), page)


if __name__ == "__main__":
    if sys.argv[1:] in (["--help"], ["-h"]):
        sys.exit(print(__doc__.strip()))
    if len(sys.argv) > 1:
        sys.exit("usage: bundle.py")
    done = subprocess.run([ROOT / "agda/check.sh", "--compile"], stdout=subprocess.PIPE, text=True)
    if done.returncode:
        sys.exit(done.returncode)
    PAGE.write_text(written(PAGE.read_text(encoding="utf-8"), done.stdout.strip()), encoding="utf-8")
