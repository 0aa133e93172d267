"""Tries wrong definitions, which Agda must reject at the lemma that they are for. `check.sh --wrong`
runs this after it has checked all.

usage: wrong.py
"""
import re
import shutil
import subprocess
import sys
import tempfile
import time
from concurrent.futures import ThreadPoolExecutor
from pathlib import Path

if sys.argv[1:] in (["--help"], ["-h"]):
    sys.exit(print(__doc__.strip()))
if len(sys.argv) > 1:
    print(__doc__.strip(), file=sys.stderr)
    sys.exit(2)
AGDA = Path(__file__).resolve().parent
# The clause that becomes false, what the definitions say instead, old text, new text, lemma.
WRONG = [
    ("one_reading", "in long form, an optional argument may be the next word",
     "FitsLong Maybe (separate word) = ⊥", "FitsLong Maybe (separate word) = ⊤",
     "03-Reads.long-chosen"),
    ("accepted", "matches are accepted whatever their counts",
     "pub counts : KeepsCounts matches.groups", "pub counts : matches ≡ matches",
     "06-Accepted.accepted-or-refused"),
    ("refused", "in short form, an unknown byte needn't be ASCII",
     "→ byte < 128 → HasAfterFlags", "→ byte < 256 → HasAfterFlags", "03-Reads.fault-fails"),
    ("results", "a parsed line's counts aren't checked",
     "made_of (matches_of options) (accepted_reading options words)",
     "made_of (matches_of options) (reading_or_error options words)", "09-Computed.only-parse"),
    ("holds_same", "equal contents have equal trailing starts",
     "pub free : other.free ≡ matches.free",
     "pub free : other.trailing_start ≡ matches.trailing_start", "07-Canonical.same-values"),
    ("one_line_one_content", "the other content needn't be plain",
     "→ Says options others other → IsPlain options.groups other",
     "→ Says options others other → IsPlain options.groups content",
     "07-Canonical.one-line-one-content"),
    ("canonical_lines", "a canonical line ends its options without `--`",
     "content.mentions ++ stop_word ∷ content.free", "content.mentions ++ content.free",
     "07-Canonical.canonical-reads"),
    ("reading_laws", "lines may be joined after a bare cluster",
     "→ is_last_bare first.items ≡ false",
     "→ is_last_bare first.items ≡ is_last_bare first.items", "08-Laws.lines-law"),
    ("empty", "an empty short name is an alias",
     "not (is_empty names.long) && not (is_empty names.short)",
     "not (is_empty names.long) && not (is_empty names.long)", "05-Resolved.alias"),
    ("order", "a loop ends at `--`",
     "(ends tail) = next_free (tail_frees tail)", "(ends tail) = Ok None",
     "10-Loops.tail-yields"),
    ("fewest", "a row has no room for all of the next row",
     "¬ FitsIn limit (run ++ take 1 next)", "¬ FitsIn limit (run ++ next)",
     "10-Rows.takes-no-more"),
]


def rejected_at(said, folder):
    """The lemma of the first error."""
    module, line = re.search(r"([\w-]+)\.agda:(\d+)", said).groups()
    path = folder / f"{module}.agda"
    lines = path.read_text(encoding="utf-8").split("\n")[:int(line)] if path.exists() else []
    names = [found[1] for text in lines if (found := re.match(r"(?:  )?([^\s:]+) : ", text))]
    return f"{module}.{names[-1]}" if names else module


def failure(wrong):
    """What is wrong with Agda's answer, if anything. What hasn't changed isn't checked again."""
    clause, what, old, new, lemma = wrong
    with tempfile.TemporaryDirectory() as room:
        folder, crate = Path(room) / "agda", Path(room) / "crate"
        shutil.copytree(AGDA, folder)
        for part in ("specs", "src"):
            shutil.copytree(AGDA.parent / "crates/getopts" / part, crate / part)
        texts = {path: path.read_text(encoding="utf-8") for path in crate.rglob("specs/**/*.antt")}
        found = [path for path, text in texts.items() for _ in range(text.count(old))]
        if len(found) != 1:
            return f"{clause}: found {len(found)} times, not once: {old}"
        found[0].write_text(texts[found[0]].replace(old, new), encoding="utf-8")
        subprocess.run([sys.executable, "translate.py", crate, "gen"], cwd=folder,
                       check=True, stdout=subprocess.DEVNULL)
        run = subprocess.run(["agda", f"{lemma.split('.')[0]}.agda"], cwd=folder, text=True,
                             capture_output=True)
        said = "\n".join(line for line in run.stdout.split("\n") if "Checking" not in line)
        at = rejected_at(said, folder) if run.returncode else "nowhere"
    return at != lemma and f"{clause}, if {what}: expected an error at {lemma}, not at {at}\n{said}"


start = time.time()
with ThreadPoolExecutor(2) as pool:
    failures = [it for it in pool.map(failure, WRONG) if it]
for it in failures:
    print(f"wrong.py: {it}", file=sys.stderr)
print(f"wrong.py: Agda rejects {len(WRONG) - len(failures)} of {len(WRONG)} wrong definitions at "
      f"the expected lemma, in {time.time() - start:.0f} s")
sys.exit(len(failures) > 0)
