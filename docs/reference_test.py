#!/usr/bin/env python3
"""Builds the reference and looks at it in a browser. The last line is 'N passed, M failed'.

No link may be dead, no anchor stand twice on a page, and no word of the toolchain on a headline's page lack its
meaning. In Debian's chromium search has to find types, a word of a headline and then a word in its definition to
unfold and fold again, rows to be filtered, what no user calls to be hidden, and no page to be wider than its window.
Without the script a word leads to its definition. Without chromium these are skipped.
"""
import collections
import html
import pathlib
import re
import shutil
import subprocess
import sys
import tempfile
import urllib.parse

import reference

# what a user does on a page, and then what is written into its title
DONE = {
    "search finds types and a variant": ("index.html",
        "config_color.color.html#Color config_file.errors.html#FileError config_text.errors.html#Fault.OutOfRange", """
        const box = document.getElementById("search");
        document.title = ["Color", "FileError", "outofrange"].map(text => {
            box.value = text; box.dispatchEvent(new Event("input"));
            return document.querySelector("#found a").getAttribute("href") }).join(" ")"""),
    "search finds paths, other languages, options, and words of comments": ("index.html",
        "gix_config_value.canonical.html#normalize gix_config_value.color.html uses.setting_headline.html#value_of "
        "options.html#config_check.fix settings.html#core.bare CALLING.html#a-first-program", """
        const box = document.getElementById("search");
        document.title = ["canonical::normalize", "gix_config_value::color", "value_of", "--fix", "core.bare",
                          "a first program"].map(text => {
            box.value = text; box.dispatchEvent(new Event("input"));
            return document.querySelector("#found a").getAttribute("href") }).join(" ")"""),
    "search finds nothing": ("setting.html", "nothing has this name", """
        const box = document.getElementById("search"); box.value = "no-such"; box.dispatchEvent(new Event("input"));
        document.title = document.getElementById("found").textContent"""),
    "a word unfolds, and a word in it": ("headline.html", "abbrev pub Means, abbrev pub IsRefused", """
        document.querySelector("pre.clauses a.w").click(); await loaded();
        document.querySelector(".unfolded a.w[href$=IsRefused]").click();
        document.title = [...document.querySelectorAll(".unfolded > pre")].map(it => it.textContent.split(" :")[0])
            .join(", ")"""),
    "a word folds again": ("config_text.value.html", "1 then 0", """
        const word = document.querySelector("pre.clauses a.w");
        const count = () => document.querySelectorAll(".unfolded").length;
        word.click(); await loaded(); const before = count(); word.click();
        document.title = `${before} then ${count()}`"""),
    "rows are filtered": ("settings.html", "merge.conflictStyle", """
        const box = document.getElementById("filter"); box.value = "conflictst zdiff3";
        box.dispatchEvent(new Event("input"));
        document.title = [...document.querySelectorAll(".rows tbody tr:not([hidden])")].map(row => row.id).join()"""),
    "rows have versions and marks": ("settings.html",
        "index.skipHash|bool||2.40| merge.stat|bool|||until=2.51 core.fsyncObjectFiles|bool|||instead=core.fsync", """
        document.title = ["index.skipHash", "merge.stat", "core.fsyncObjectFiles"].map(key =>
            [...document.getElementById(key).cells].map(cell => cell.textContent).join("|")).join(" ")"""),
    "what no user calls is hidden": ("config_text.digits.html", "nothing has this name", """
        const box = document.getElementById("search"); box.value = "digit_of"; box.dispatchEvent(new Event("input"));
        document.title = document.getElementById("found").textContent"""),
    "a crate lists its types first, with their calls": ("gix_config_value.html",
        "Types Modules Laws; is_true, to_json", """
        document.title = [...document.querySelectorAll("h3")].map(it => it.textContent).join(" ") + "; "
            + document.querySelector("dd .small").textContent"""),
    "the kinds have their grammars": ("headline.html", "Amount Integer Suffix Boolean Attribute Name Color", """
        const links = [...document.querySelectorAll("table td:first-child a")];
        document.title = links.map(it => it.textContent).join(" ")"""),
    "what users call is shown": ("config_text.settings.html", "lookup fn, source", """
        document.title = document.getElementById("lookup").textContent.replace("fn", " fn")"""),
}
# pages that are looked at in windows of 400 and 1,400 pixels, with and without the script
LOOKED_AT = ("index", "headline", "setting", "settings", "options", "gix_config_value.canonical", "CALLING",
             "config_file.settings", "words.config_file", "source.config_file.src.settings.rt")
FRAMES = """addEventListener("load", () => { document.title = [...document.querySelectorAll("iframe")].map(frame => {
    const page = frame.contentDocument, root = page.documentElement, has = page.getElementById("search") !== null;
    const word = page.querySelector("a.w[href^='#']");
    const leads = !word || page.getElementById(decodeURIComponent(word.hash.slice(1))) !== null;
    const is_wide = root.scrollWidth > root.clientWidth;
    return `${frame.title} ${frame.width}${is_wide ? " is too wide" : ""}${leads ? "" : " leads nowhere"}`
        + (has ? " with search" : "") }).join(", ") })"""


def browse(page, *flags):
    """The page after its scripts have run, as chromium prints it."""
    words = ["chromium", "--headless=new", "--no-sandbox", "--disable-gpu", "--dump-dom",
             "--virtual-time-budget=10000", *flags, page.as_uri()]
    kept = {"stdout": subprocess.PIPE, "stderr": subprocess.DEVNULL, "text": True}
    return subprocess.run(words, timeout=30, check=False, **kept).stdout


def title(page, script, *flags):
    """What a script writes into the title of a copy of the page."""
    copy = page.with_name("copy.html")
    wait = "const loaded = () => new Promise(done => setTimeout(done, 1000));"
    made = f"<script>{wait} (async () => {{{script}}})()</script>"
    copy.write_text(page.read_text("utf-8") + made, encoding="utf-8")
    return (re.findall("<title>(.*?)</title>", browse(copy, *flags), re.DOTALL) or ["no page"])[0]


def links(folder):
    """Each anchor that stands twice, and each dead link; and how many links there are."""
    texts = {page.name: page.read_text("utf-8") for page in folder.glob("*.html")}
    anchors = {name: collections.Counter(re.findall(r'\bid="?([^">\s]+)', text)) for name, text in texts.items()}
    faults = [f"{name}: {it} stands twice" for name, found in anchors.items() for it in found if found[it] > 1]
    texts |= {name: (folder / name).read_text("utf-8").replace('\\"', '"') for name in ("words.js", "found.js")}
    count = 0
    # the words of words.js are put into pages of the same folder
    for name, text in texts.items():
        for to in re.findall(r'\b(?:href|src)="?([^">\s]+)', text) + re.findall(r', "([^" ]*\.html[^" ]*)", ', text):
            page, _, anchor = urllib.parse.unquote(to).partition("#")
            is_there = (folder / page).exists() and (not anchor or html.escape(anchor) in anchors[page or name])
            faults += [] if is_there else [f"{name}: {to} leads nowhere"]
            count += 1
    return faults, count


def main():
    results = []
    with tempfile.TemporaryDirectory() as work:
        folder = pathlib.Path(work)
        reference.Reference(folder).write()
        faults, count = links(folder)
        results.append((f"{count} links: {faults[:20]}", not faults))
        # of this repository's words some have a definition that says all, such as the number of a sign
        texts = "".join((folder / f"{name}.html").read_text("utf-8") for name in ("headline", "setting"))
        untold = set(re.findall(r"<h3><code>([^<]*)</code></h3><pre (?:(?!</div>).)*toolchain, ", texts))
        results.append((f"words of the toolchain without a meaning: {untold}", not untold))
        items = [it for file in reference.SOURCES for it in reference.opened(file).items if it.is_public]
        public = {name for it in items for name in (it.name, it.id)}
        results.append((f"hidden, but not there: {set(reference.INNER) - public}", public.issuperset(reference.INNER)))
        if not shutil.which("chromium"):
            print("skipped: the browser, since there is no chromium")
        else:
            for what, (page, wanted, script) in DONE.items():
                seen = title(folder / page, script)
                results.append((f"{what}: {seen}, not {wanted}", seen == wanted))
            frames = [(name, width, plain) for name in LOOKED_AT for width in (400, 1400) for plain in (False, True)]
            (folder / "frames.html").write_text("".join(
                f"<iframe width={width} height=800 title={name} src={name}.html {'sandbox=allow-same-origin' * plain}>"
                "</iframe>" for name, width, plain in frames), encoding="utf-8")
            seen = title(folder / "frames.html", FRAMES, "--allow-file-access-from-files").split(", ")
            for name, width, plain in frames:
                wanted = f"{name} {width}{' with search' * (not plain)}"
                found = [it for it in seen if it.startswith(f"{name} {width}")]
                results.append((f"{found} without {wanted}", wanted in found))
    for fault, is_right in results:
        if not is_right:
            print(fault)
    passed = sum(is_right for _, is_right in results)
    print(f"{passed} passed, {len(results) - passed} failed")
    return passed != len(results)


if __name__ == "__main__":
    sys.exit(main())
