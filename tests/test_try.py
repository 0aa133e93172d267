"""The page docs/try.html in a browser. `test_rust.py` compares what it shows for random lines with the Rust package."""

import json
import random
import re
import shlex
from urllib.parse import parse_qs, urlencode

import bundle
import generate
import pytest
import texts
from conftest import ROOT, answer, tracked
from model import line, parts, rows_of

# One worker runs all of them, and so one browser.
pytestmark = pytest.mark.xdist_group("browser")
PAGE = ROOT / "docs/try.html"
FIELDS = "short", "long", "kind", "occur", "hint", "description"
# What the page shows.
SHOWN = """
var textOf = (of, selector = "*") => [...of.querySelectorAll(`:scope > ${selector}`)].map(it => it.textContent);
var shown = () => ({
  verdict: at("verdict").textContent, split: at("split").textContent,
  words: [...at("words").children].map(it => ({ word: textOf(it, ".word")[0], role: textOf(it, "div")[0],
    kind: it.className, gives: textOf(it, "code:not(.word)") })),
  result: at("accepted").hidden ? null :
    [...at("result").rows].map(it => [...textOf(it, ":not(:last-child)"), textOf(it.lastChild)]),
  canonical: at("accepted").hidden ? null : at("canonical").textContent,
  usage: at("help").hidden ? null : at("usage").textContent, estimated: !at("estimated").hidden,
  mistakes: [...at("options").children].map(it => [...it.querySelectorAll("small")].map(it => it.textContent)) });
"""


def fragment(line, options=None, modes=()):
    """The fragment of a link to a line and, if they are given, to options, with FIELDS each."""
    own = [] if options is None else [("table", "own"), *(pair for option in options for pair in zip(FIELDS, option))]
    return urlencode([("line", line), *((mode, "on") for mode in modes), *own])


@pytest.fixture(scope="module")
def visit(browser):
    """visit(LINE, OPTIONS, MODES, width=.., scheme=..) returns what the page shows on a screen."""
    browser.open(f"file://{PAGE}")

    def shown(*said, **screen):
        browser.set_screen(**screen)
        return browser.run(f"{SHOWN} show({json.dumps(fragment(*said))}); shown()")

    return shown


# ---- the file

def test_definitions_are_up_to_date(request):
    """The page contains what Agda makes of the definitions now."""
    said, status = answer(ROOT / "agda/check.sh", "--compile")
    said = said.decode().strip()
    if "agda not found" in said:
        pytest.skip(said)
    assert status == 0, said
    page = PAGE.read_text(encoding="utf-8")
    wanted = bundle.written(page, said)
    if request.config.getoption("--fix"):
        PAGE.write_text(wanted, encoding="utf-8")
    assert PAGE.read_text(encoding="utf-8") == wanted, "out of date: run 'bash test.sh -k test_try --fix'"


def test_page_loads_nothing(visit, browser):
    visit("-v")
    assert browser.run("performance.getEntriesByType('resource').length") == 0
    assert "content=\"default-src 'none';" in PAGE.read_text(encoding="utf-8")


def test_links_to_pages():
    found = re.findall('href="(.*?)"', PAGE.read_text(encoding="utf-8"))
    assert len(found) > 5 and all((PAGE.parent / it).exists() for it in found)


# ---- what the page shows

# The pages' links to lines and, if they are in a table, the next two cells.
LINK = r"\[`([^`]*)`\]\([./]*(?:docs/)?try\.html#([^)]*)\)(?: \| (.*?) \|(?: (.*))? \|$)?"
LINKS = [(page, *found) for page in tracked() if page.endswith(".md")
         for found in re.findall(LINK, (ROOT / page).read_text(encoding="utf-8"), re.M)]


@pytest.mark.parametrize("page, line, target, options, free_words", LINKS, ids=lambda text: text or "-")
def test_linked_lines(visit, page, line, target, options, free_words):
    """A link from a page shows the line that it names. In a table, the next cells say what the line gives."""
    assert parse_qs(target) == {"line": [line]}
    said = visit(line)
    if options:
        free = [it["word"] for it in said["words"] if it["kind"] == "free"] if said["result"] else []
        given = [it for word in said["words"] for it in word["gives"]] if said["result"] else [said["verdict"]]
        assert [options.replace("`", ""), free_words.replace("`", "").strip()] == [", ".join(given), ", ".join(free)]


def test_pages_link_to_the_page():
    assert ("README.md", "-o=5") in [it[:2] for it in LINKS] and sum(it[3] != "" for it in LINKS) == 10


@pytest.mark.parametrize("line, roles", [
    ("-vofile in", "cluster, free word"), ("-c red", "short option, argument of -c"), ("--color red", "long option, free word"),
    ("--output x", "long option, argument of --output"), ("-- -v", "end of options, free word"),
    ("in --nope x", "free word, error, not read"), ("in -vx -v", "free word, error, not read"), ("in -o", "free word, error"),
    ("--verbose=5 in", "error, not read"), ("-oa -v -ob", "short option, short option, short option: error"),
    ("-oa -o -ob", "short option, short option: error, argument of -o"),
    ("-c '' \"\" x", "short option, argument of -c, free word, free word")])
def test_roles(visit, line, roles):
    assert ", ".join(it["role"] for it in visit(line)["words"]) == roles


@pytest.mark.parametrize("mode, line, roles", [
    ("stops", "-v in -v", "short option, free word, free word"),
    ("long-only", "-output in -vv", "long option, argument of -output, error")])
def test_modes(visit, mode, line, roles):
    assert ", ".join(it["role"] for it in visit(line, None, [mode])["words"]) == roles


OPTION = "o", "output", "Yes", "Optional", "", ""


@pytest.mark.parametrize("options, mistakes, verdict", [
    ([OPTION, ("", "", *OPTION[2:])], ["needs a name", ""], "Option 2 has an invalid name: see below."),
    ([OPTION, ("oo", "", *OPTION[2:])], ["one ASCII character", ""], "Option 2 has an invalid name: see below."),
    ([OPTION, ("é", "", *OPTION[2:])], ["one ASCII character", ""], "Option 2 has an invalid name: see below."),
    ([OPTION, ("", "p", *OPTION[2:])], ["", "two or more characters"], "Option 2 has an invalid name: see below."),
    ([OPTION, ("o", "other", *OPTION[2:])], ["‘o’ means option 1", ""], "Accepted"),
    ([OPTION, ("p", "output", *OPTION[2:])], ["‘p’ means option 1", "‘output’ means option 1"], "Accepted"),
    ([OPTION, ("o", "", *OPTION[2:])], ["", ""], "Accepted"),
])
def test_invalid_and_shared_names(visit, options, mistakes, verdict):
    said = visit("x", options)
    assert (said["mistakes"][1], said["verdict"], said["usage"] is None) == (mistakes, verdict, verdict != "Accepted")


@pytest.mark.parametrize("line, words, marks", [
    ("", [], ""), ("  a\t'b c' \"d\\\"\" \\ e f'g'\"h\" '' ", ["a", "b c", 'd"', " e", "fgh", "''"], ""),
    ("'*' * \"$x\" \"\\$y\" ~ a~ '#' \\; \\\\", ["*", "*", "$x", "$y", "~", "a~", "#", ";", "\\"], "‘*’ ‘$’ ‘~’")])
def test_words_of_a_line(visit, line, words, marks):
    said = visit(line)
    assert [it["word"] for it in said["words"]] == words and said["split"].startswith(f"{len(words)} word")
    assert said["split"].partition(" A shell, but not this page, would give ")[2] == (marks and f"{marks} a meaning.")


@pytest.mark.parametrize("line, error", [("-o 'a b", "The quote ' isn't closed."), ('"a\\"', 'The quote " isn\'t closed.'),
                                         ("a\\", "Nothing follows the last \\.")])
def test_unfinished_lines(visit, line, error):
    said = visit(line)
    assert (said["split"], said["verdict"], said["words"]) == (error, "The line isn't complete: see above.", [])


def test_texts_arent_html(visit, browser):
    html = '<img src=x onerror="document.title = 1">'
    said = visit(f"-\\< '{html}' '{html}'", [("<", html, "Maybe", "Multi", html, html), ("", html, "No", "Multi", html, html)])
    assert [it["word"] for it in said["words"]] == ["-<", html, html] and said["words"][0]["gives"] == [f"{html} = {html}"]
    assert said["result"][0] == [html, "1", [f"{html} @0"]] and html in said["usage"] and html in said["mistakes"][1][1]
    assert visit(f"'-{html}'")["verdict"] == "Unrecognized option: '<'" and html in visit(f"'{html}'")["canonical"]
    assert browser.run("document.images.length + document.title") == "0How is this command line read? · getopts"


def test_long_lines(visit):
    words = visit(" ".join(["-v"] * 1_000))
    assert words["result"][1][1] == visit("-" + "v" * 1_000)["result"][1][1] == "1000"
    # What is far longer gets an error, and what is then typed is read again.
    for long in (" ".join(["-v"] * 20_000),), ("-v", [("", "n" * 20_000, *OPTION[2:])] * 2):
        assert visit(*long)["verdict"] == "This is too long for the stack of this page."
        assert visit("-v")["verdict"] == "Accepted"


# ---- what a visitor does

def test_keyboard(browser):
    """All controls can be reached and used without a mouse, and have names."""
    browser.open(f"file://{PAGE}")
    focused = "document.activeElement.name || document.activeElement.id || document.activeElement.textContent"
    reached = []
    while "add" not in reached:
        browser.press("Tab")
        reached.append(browser.run(focused))
    assert reached == ["getopts", "rules", "line", "link", *browser.run("EXAMPLES"), *[*FIELDS, "✕"] * 3, "add"]
    assert browser.run("""[...at("form").querySelectorAll("input:not([type=hidden]), select, button")].filter(it =>
        !it.ariaLabel && !it.textContent.trim() && !it.labels[0].textContent.trim()).length""") == 0
    browser.press("Enter", "n", "Tab", "new", "Tab", "ArrowDown", *["Tab"] * 6, " ")
    assert browser.run(focused) == "stops"
    browser.run("at('line').select()")
    browser.press("--new 5 in --new")
    roles = "[...document.querySelectorAll('#words div')].map(it => it.textContent).join(', ')"
    assert browser.run(roles) == "long option, argument of --new, free word, free word"
    browser.run("at('options').lastChild.querySelector('button').focus()")
    browser.press("Enter")
    assert (browser.run(focused), browser.run(roles)) == ("add", "error, not read, not read, not read")
    browser.run("at('examples').querySelectorAll('button')[1].focus()")
    browser.press(" ")
    assert browser.run("at('words').textContent") == "0-o=5short optionoutput = =5"
    browser.run("var followed = new Promise(it => addEventListener('hashchange', it)); at('link').focus()")
    browser.press("Enter")
    assert browser.run("followed.then(() => location.hash)").startswith("#table=own&line=-o%3D5&short=o&")


def test_links(browser, visit):
    """A link shows again what the page showed."""
    options = [("a", "all & more", "Maybe", "Req", "<b>", "é + %41"), ("", "b=c", "Yes", "Multi", "", "")]
    for modes in [], ["stops"], ["long-only"]:
        for own in options, [], None:
            said = visit("'all & more' -aé --b=c=%41 +", own, modes)
            browser.open(browser.run("at('link').href"))
            assert browser.run(f"{SHOWN} shown()") == said


@pytest.mark.parametrize("fragment, verdict", [
    ("", "Accepted"), ("x", "Accepted"), ("%", "Accepted"), ("line", "Accepted"), ("short=x", "Accepted"),
    ("table", "Unrecognized option: 'v'"), ("table=own&short=v&kind=x&occur=toString&line=-v", "Accepted")])
def test_other_fragments(browser, fragment, verdict):
    browser.open(f"file://{PAGE}#{fragment}")
    assert browser.run("at('verdict').textContent") == verdict


@pytest.mark.parametrize("width", [320, 390, 700, 1000])
def test_narrow_screens(visit, browser, width):
    long = "a" * 300
    visit(f"--{long}={long} {long} -v", [("", long, "Maybe", "Req", long, long), ("v", "", "No", "Multi", "", "")], width=width)
    assert browser.run("document.documentElement.scrollWidth <= document.documentElement.clientWidth")
    assert browser.run("at('line').getBoundingClientRect().top < at('options').getBoundingClientRect().top")


# The least contrasts, by WCAG 2: of texts, which need 4.5, and of the edges of fields, which need 3.
CONTRASTS = """(() => {
  const numbers = color => color.match(/[\\d.]+/g).map(Number);
  const light = color => numbers(color).slice(0, 3).map(it => it / 255)
    .map(it => it <= .04045 ? it / 12.92 : ((it + .055) / 1.055) ** 2.4)
    .reduce((sum, it, at) => sum + it * [.2126, .7152, .0722][at], 0);
  const style = (of, what) => getComputedStyle(of)[what];
  const ground = it => numbers(style(it, "backgroundColor"))[3] === 0 ? ground(it.parentElement) : style(it, "backgroundColor");
  const contrast = (it, what) => {
    const [less, more] = [light(style(it, what)), light(ground(it))].sort((one, other) => one - other);
    return (more + .05) / (less + .05);
  };
  const shown = [...document.body.querySelectorAll("*")].filter(it => it.checkVisibility());
  const texts = shown.filter(it => it.value || [...it.childNodes].some(it => it.nodeType === Node.TEXT_NODE && it.data.trim()));
  return [Math.min(...texts.map(it => contrast(it, "color"))),
          Math.min(...shown.filter(it => it.matches("input:not([type]), select")).map(it => contrast(it, "borderTopColor")))];
})()"""


@pytest.mark.parametrize("scheme, ground", [("light", "rgb(255, 255, 255)"), ("dark", "rgb(13, 17, 23)")])
@pytest.mark.parametrize("line, options", [("-vofile -c x in -- a", None), ("-oa -ob", None), ("--nope x", [OPTION, OPTION])])
def test_contrast(visit, browser, scheme, ground, line, options):
    visit(line, options, scheme=scheme)
    text, edge = browser.run(CONTRASTS)
    assert text >= 4.5 and edge >= 3 and browser.run("getComputedStyle(document.body).backgroundColor") == ground


# ---- random options and lines, for test_rust.py

def typed(dice, word):
    """A word as somebody may type it."""
    return dice.choice([shlex.quote(word), '"' + re.sub(r'([$`"\\])', r"\\\1", word) + '"', re.sub("(.)", r"\\\1", word) or "''"])


def random_case(dice):
    """Random options, with descriptions, and words. No field of the page accepts line ends."""
    while True:
        case = generate.short_line(dice)
        words = next(row[1:] for row in case.rows if row[0] == "words")
        for one in case.groups:
            one.call, one.desc = "opt", " ".join(texts.description(dice).split()) if dice.randrange(3) == 0 else ""
        if not re.search("[\r\n]", "".join([*words, *(one.short + one.long + one.hint for one in case.groups)])):
            return case, words


def rows_about(case, words):
    """The rows that ask for what the page shows."""
    declared = generate.Case(case.groups, case.stop, case.long_only).declare().rows
    rows = [("case", "random"), *declared, ("words", *words), ("error",), ("canonical", *words), ("short", "program"),
            ("usage", ""), *(("positions", one.main) for one in case.groups)]
    return b"".join(line(*row) + b"\n" for row in rows)


def check_random_lines(browser, count, answered):
    """For random options and lines, the page shows what a program answers to the rows about them."""
    dice = random.Random(18)
    tried = [random_case(dice) for _ in range(count)]
    asked = [fragment(" ".join(typed(dice, word) for word in words),
                      [(one.short, one.long, one.kind.title(), one.occur.title(), one.hint, one.desc) for one in case.groups],
                      ["stops"] * case.stop + ["long-only"] * case.long_only) for case, words in tried]
    browser.open(f"file://{PAGE}")
    pages = browser.run(f"{SHOWN} {json.dumps(asked)}.map(it => {{ show(it); return shown(); }})")
    answers = answered(b"".join(rows_about(*it) for it in tried)).split(b"case\trandom\n")[1:]
    for (case, words), page, own in zip(tried, pages, answers, strict=True):
        own = [[parts(it)[1] for it in lines] for _, lines in rows_of(own) if lines]
        try:
            check_shown([one.main for one in case.groups], words, page, own)
        except AssertionError as error:
            raise AssertionError(f"{words} {[vars(one) for one in case.groups]}\n{page}\n{own}") from error


def check_shown(names, words, page, answers):
    """Compares what the page shows for options with these main names with the answers to `rows_about`."""
    (words_read, ), ((error,), ), (canonical, ), ((short,), ), ((usage,), ), *positions = [
        [[text.decode() for text in fields] for fields in answer] for answer in answers]
    boxes = page["words"]
    assert page["verdict"] == ("Accepted" if error == "nothing" else error)
    assert [it["word"] for it in boxes] == [word or "''" for word in words]
    assert page["usage"] == short + usage or page["estimated"]
    wrong = [at for at, it in enumerate(boxes) if it["kind"] == "error"]
    if error.startswith("Required option") or error == "nothing":
        assert not wrong
    elif error.endswith("given more than once"):
        name = error.removeprefix("Option '").removesuffix("' given more than once")
        assert wrong == [at for at, it in enumerate(boxes) for given in it["gives"] if given.partition(" = ")[0] == name][1:2]
    else:
        assert len(wrong) == 1 and all(it["kind"] == "" for it in boxes[wrong[0] + 1:])
        assert re.search("'(.*)'", error)[1] in words[wrong[0]]
    if error != "nothing":
        return
    start, *free = words_read
    assert page["result"][-1] == ["free words", str(len(free)), [
        (word or "''") + (" after --" if start != "-" and at >= int(start) else "") for at, word in enumerate(free)]]
    given = [[] for _ in words]
    for place, (name, ((_, *own), pairs)) in enumerate(zip(names, positions)):
        values = dict(zip(pairs[::2], pairs[1::2]))
        # No line gives an option that has the main name of an earlier one.
        own = own if names.index(name) == place else []
        assert page["result"][place] == [name, str(len(own)), [
            (values[at] or "''" if at in values else "") + f" @{at}" for at in own]]
        for at in own:
            given[int(at)].append(f"{name} = {values[at] or chr(39) * 2}" if at in values else name)
    assert [sorted(it["gives"]) for it in boxes] == [sorted(it) for it in given]
    assert [it["word"] for it in boxes if it["kind"] == "free"] == [word or "''" for word in free]
    if canonical == ["none"]:
        assert page["canonical"] == "None, because an option's main name contains ‘=’."
    else:
        assert ["line", *shlex.split(page["canonical"])] == canonical
