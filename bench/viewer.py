"""Tests of viewer/trace.html: see viewer.sh. Each check says in a line what does not hold; the last line counts them."""
import json
import os
import shutil
import subprocess
import sys
import tempfile

import browser

HERE = os.path.dirname(os.path.dirname(os.path.abspath(__file__)))
TESTS = os.path.join(HERE, "viewer", "tests")
PICTURES = os.path.join(HERE, "docs", "pictures")
PROGRAM = os.environ.get("ATSPI", os.path.join(HERE, "atspi"))
failures, done = [], 0


def holds(condition, what):
    global done
    done += 1
    if not condition:
        failures.append(what)
        print(f"viewer: does not hold: {what}", flush=True)


def replay(script, *words):
    with open(script, "rb") as source:
        return subprocess.run(
            [PROGRAM, "replay", *words], stdin=source, stdout=subprocess.PIPE, stderr=subprocess.DEVNULL
        ).stdout.decode()


def make_page(folder, name, trace, script=None):
    trace_path, page = os.path.join(folder, f"{name}.trace"), os.path.join(folder, f"{name}.html")
    with open(trace_path, "w", encoding="utf-8", newline="") as file:
        file.write(trace)
    with open(page, "wb") as file:
        subprocess.run(
            [os.path.join(HERE, "viewer", "make"), trace_path] + ([script] if script else []), stdout=file, check=True
        )
    return page


def shows_of(brief):
    """The rows of each `show` line of a brief output: (reader, application, rows or None), in order."""
    shows = []
    for line in brief.split("\n"):
        words = line.split(" ")
        if words[0] == "show":
            shows.append((words[1], words[2], None if words[3] == "none" else []))
        elif line.startswith("|"):
            shows[-1][2].append(line)
    return shows


# what stands in the trees of the page: for each application and column its title and its rows, or None where it holds nothing
ROWS = """JSON.stringify([...document.querySelectorAll('.forest:not([hidden])')].flatMap(forest =>
  [...forest.querySelectorAll('.forest-sheet > *')].map((tree, k) => ({ app: forest.querySelector('h3 .party').textContent,
    title: forest.querySelectorAll('.column-head')[k].textContent, role: tree.getAttribute('role'),
    rows: tree.getAttribute('role') === 'tree' ? [...tree.querySelectorAll('[role=treeitem][data-row]')]
      .sort((a, b) => a.offsetTop - b.offsetTop).map(item => item.dataset.row) : null }))))"""
SETTLED = "new Promise(done => requestAnimationFrame(() => requestAnimationFrame(done)))"


def at_event(page, event):
    page.run(
        f"(() => {{ const number = document.getElementById('number'); number.value = {event}; number.dispatchEvent(new Event('change')); }})()"
    )
    page.run(SETTLED)


def held(page, reader, app):
    columns = json.loads(page.run(ROWS))
    return next(
        (column["rows"] for column in columns if column["app"] == app and column["title"].startswith(reader + " ")),
        None,
    )


def test_shown_rows(page, folder):
    """At each `show` the trees of the page have its rows, which are folded from the bytes; at the last event those of the last one."""
    scripts = sorted(name[:-7] for name in os.listdir(TESTS) if name.endswith(".script"))
    for name in scripts + ["../../examples/first"]:
        script = os.path.join(TESTS, f"{name}.script")
        with open(script[:-6] + "expected", encoding="utf-8", newline="") as file:
            brief = file.read()
        wire = replay(script, "--wire")
        events = [line for line in wire.split("\n") if line and not line.startswith(("= ", "| ", "refused "))]
        places = [k + 1 for k, line in enumerate(events) if line.startswith("show ")]
        path = make_page(folder, os.path.basename(name), wire, script)
        page.open(path, f"#event={len(events)}")
        holds(not page.faults(), f"{name}: the page throws: {str(page.faults())[:300]}")
        holds(
            "does not fit" not in page.run("document.getElementById('facts').textContent"),
            f"{name}: the script fits its trace",
        )
        shows = shows_of(brief)
        holds(len(shows) == len(places), f"{name}: the trace has the shows of {name}.expected")
        spoken = page.run("JSON.stringify([...document.querySelectorAll('.spoken q')].map(line => line.textContent))")
        said = [line for line in brief.split("\n") if line.startswith("say ")]
        holds(len(json.loads(spoken)) == len(said), f"{name}: {len(said)} lines are spoken at the last event")
        if places and places[-1] == len(events):
            holds(
                held(page, shows[-1][0], shows[-1][1]) == shows[-1][2],
                f"{name}: at the last event stand the rows of its last show",
            )
        for place, (reader, app, rows) in zip(places, shows):
            at_event(page, place)
            holds(
                held(page, reader, app) == rows,
                f"{name}: at event {place} stand the rows of its show of {app} to {reader}",
            )
            holds(
                page.run("!document.querySelector('#message .fault')"),
                f"{name}: the page says that the rows shown are those of the bytes",
            )
        holds(page.run("document.title !== 'taken'"), f"{name}: nothing of a trace is taken for markup")


def test_refusals(page, folder):
    """A trace that is not understood is refused at its line, and nothing of it is shown."""
    trace = replay(os.path.join(TESTS, "a_race.script"), "--wire")
    lines = trace.split("\n")
    step = next(k for k, line in enumerate(lines) if line.startswith("step "))
    got = next(k for k, line in enumerate(lines) if line.startswith("got "))
    show = next(k for k, line in enumerate(lines) if line.startswith("show ") and not line.endswith("none"))
    broken = {
        "a word that begins no event": (got, lines[got].replace("got", "gets")),
        "a party that cannot be": (got, lines[got].replace("bus", "b9")),
        "a step that is none": (step, lines[step].replace("add", "adds")),
        "an unknown role": (step, lines[step].replace("push-button", "push-buttons")),
        "a message without its serial": (1, lines[1].replace(" 0 1 path", " 0 path")),
        "a digit that is none": (2, lines[2][:-1] + "g"),
        "half a byte": (2, lines[2][:-1]),
        "a row that is none": (show + 1, lines[show + 1].replace("|", "/")),
        "a blank too much": (got, lines[got] + " "),
        "an empty line": (got, "\n" + lines[got]),
        "an open quote": (step, lines[step][:-1]),
    }
    for name, (place, line) in broken.items():
        page.open(make_page(folder, "broken", "\n".join(lines[:place] + [line] + lines[place + 1 :])))
        words = page.run(
            "document.getElementById('refusal').hidden ? '' : document.getElementById('refusal-words').textContent"
        )
        holds(f"line {place + 1}:" in words, f"{name} is refused at line {place + 1}: {words!r}")
        holds(page.run("document.getElementById('viewer').hidden"), f"{name}: nothing else is shown")


def test_other_traces(page, folder):
    """A trace without bytes, a brief one, one that goes wrong, and the verdict of audit."""
    script = os.path.join(TESTS, "a_race.script")
    page.open(make_page(folder, "plain", replay(script)), "#event=134")
    holds(
        "needs --wire" in page.run("document.getElementById('facts').textContent"),
        "without bytes the page says what it lacks",
    )
    last = shows_of(replay(script, "--brief"))[-1]
    holds(held(page, "r0", "a0") == last[2], "without bytes the rows of the last show stand there")
    page.open(make_page(folder, "brief", replay(script, "--brief")), "#event=99")
    holds(held(page, "r0", "a0") == last[2], "a brief trace opens, and its shows stand there")
    script = os.path.join(TESTS, "without_a_bus.script")
    lines = replay(script, "--wire").split("\n")
    page.open(
        make_page(folder, "short", "\n".join(lines[:-2]) + "\n", script),
        "#verdict=unlawful+4%0Adue+step+a0+state+1+focused+on",
    )
    words = page.run("document.getElementById('verdict').textContent")
    holds(
        "unlawful 4" in words and "step a0 state 1 focused on" in words and "ends before" in words,
        f"the verdict of a trace that is too short: {words!r}",
    )
    page.open(
        make_page(folder, "twice", "\n".join(lines[:-1] + [lines[-2], ""]), script), "#verdict=unlawful+5%0Adue+nothing"
    )
    holds(page.run("document.getElementById('number').value") == "5", "the page opens at the event that is unlawful")
    holds("Due here was nothing" in page.run("document.getElementById('verdict').textContent"), "and says what was due")
    changed = lines[2][:18] + "2" + lines[2][19:]
    page.open(make_page(folder, "changed", "\n".join(lines[:2] + [changed] + lines[3:]), script))
    page.run(
        "(() => { document.getElementById('verdict-text').value = 'unlawful 2\\ndue sent a0 call'; document.getElementById('verdict-open').click(); })()"
    )
    page.run(SETTLED)
    holds(
        "spell another message" in page.run("document.getElementById('message').textContent"),
        "bytes that are not those of their line are told at their event",
    )
    step = next(k for k, line in enumerate(lines) if line.startswith("step "))
    page.open(
        make_page(
            folder, "stray", "\n".join(lines[:step] + [lines[step].replace("add 1 0", "add 1 7")] + lines[step + 1 :])
        ),
        "#event=3",
    )
    holds(
        "does not apply" in page.run("document.getElementById('message').textContent"),
        "a step that does not apply is told at its event",
    )


def test_keys_and_finding(page, folder):
    script = os.path.join(TESTS, "typing.script")
    page.open(make_page(folder, "typing", replay(script, "--wire"), script), "#event=150")
    number = "Number(document.getElementById('number').value)"

    def press(*keys, modifiers=0):
        for key in keys:
            page.key(key, modifiers=modifiers)
        page.run(SETTLED)
        return page.run(number)

    holds(press("j") == 151 and press("k", "k") == 149, "j and k go an event on and back")
    page.run("document.getElementById('events').focus()")
    holds(press("ArrowDown") == 150 and press("ArrowUp", "ArrowUp") == 148, "so do the arrows in the list")
    holds(
        page.run(
            "document.getElementById('events').getAttribute('aria-activedescendant') === 'event-148' && !!document.getElementById('event-148')"
        ),
        "the list's current option is the event",
    )
    line = page.run("document.getElementById('line').textContent")
    press("ArrowDown", modifiers=2)
    holds(page.run("document.getElementById('line').textContent") != line, "Ctrl and an arrow go a segment on")
    holds(press("Home") == 1, "Home goes to the first event")
    holds(press("PageDown") == 21, "Page Down goes twenty on")
    last = press("End")
    holds(
        page.run("document.getElementById('slider').value === document.getElementById('slider').max"),
        "End goes to the last, and the slider with it",
    )
    page.run("document.querySelector('.tree').focus()")
    press("Home", "ArrowDown")
    active = "document.getElementById(document.querySelector('.tree').getAttribute('aria-activedescendant')).dataset.path.split('/').pop()"
    holds(page.run(active) == "1", "arrows move in a tree")
    press("ArrowLeft")
    holds(
        page.run("document.querySelectorAll('.tree')[0].querySelectorAll('[role=treeitem]').length") == 2,
        "the left arrow closes a node",
    )
    press("ArrowLeft")
    holds(page.run(active) == "root", "and then goes to the parent")
    press("ArrowDown", "ArrowRight", "ArrowRight")
    holds(page.run(active) == "2", "the right arrow opens it, and then goes to the child")
    holds(
        "r0 holds" in page.run("document.getElementById('node').textContent"),
        "the chosen node is compared field by field",
    )
    page.run(
        "(() => { const search = document.getElementById('search'); search.focus(); search.value = 'say r0'; search.dispatchEvent(new Event('input')); })()"
    )
    found = page.run("document.getElementById('matches').textContent")
    holds(found == "6 matches", f"the search finds the lines: {found!r}")
    first = press("Enter")
    holds(
        page.run("document.querySelector('.event[aria-selected=true] .event-kind').textContent") == "say"
        and first < last,
        "Enter goes to the next match",
    )
    page.run(
        "(() => { const path = document.getElementById('path'); path.value = '7'; path.dispatchEvent(new Event('input')); document.getElementById('member').value = 'TextChanged'; document.getElementById('member').dispatchEvent(new Event('input')); })()"
    )
    page.run(SETTLED)
    texts = json.loads(
        page.run("JSON.stringify([...document.querySelectorAll('.event-text')].map(line => line.textContent))")
    )
    holds(
        len(texts) >= 12 and all("TextChanged" in text for text in texts),
        f"filters by node and member leave just these: {texts[:4]}",
    )
    page.run("document.getElementById('clear').click()")
    page.run(
        "(() => { const party = document.getElementById('party'); party.value = 'reg'; party.dispatchEvent(new Event('input')); })()"
    )
    page.run(SETTLED)
    kinds = json.loads(
        page.run("JSON.stringify([...document.querySelectorAll('.event')].map(line => line.getAttribute('title')))")
    )
    holds(kinds and all(" reg " in kind for kind in kinds), "a filter by party leaves just its events")
    page.run("new Promise(done => setTimeout(done, 400))")
    holds(page.run(f"location.hash") == f"#event={page.run(number)}", "the address has the link to the event")


# Every control has a name, no tabindex above 0, trees are trees, texts have the contrast of WCAG 2.2 AA, targets their size.
CONTROLS = """JSON.stringify([...document.querySelectorAll('a, button, input, select, textarea, summary, [tabindex], [role=tree], [role=listbox], [role=dialog], dialog')]
  .filter(element => element.checkVisibility({ visibilityProperty: true }))
  .filter(element => !(element.getAttribute('aria-label') || element.textContent.trim() || element.labels?.length
    || (element.getAttribute('aria-labelledby') ?? '').split(' ').some(id => document.getElementById(id)?.textContent.trim())))
  .map(element => element.outerHTML.slice(0, 90)))"""
TREES = """JSON.stringify([...document.querySelectorAll('[role=tree]')].flatMap(tree => {
  const faults = [], items = [...tree.querySelectorAll('[role=treeitem]')].sort((a, b) => a.offsetTop - b.offsetTop);
  const number = (item, name) => Number(item.getAttribute(name));
  let level = 0;
  for (const item of items) {
    if (!(number(item, 'aria-level') >= 1 && number(item, 'aria-level') <= level + 1)) faults.push('level of ' + item.id);
    if (!(number(item, 'aria-posinset') >= 1 && number(item, 'aria-posinset') <= number(item, 'aria-setsize'))) faults.push('place of ' + item.id);
    if (item.parentElement !== tree) faults.push('parent of ' + item.id);
    level = number(item, 'aria-level');
  }
  for (const [k, item] of items.entries()) {
    const below = items[k + 1] && number(items[k + 1], 'aria-level') > number(item, 'aria-level');
    if (below && item.getAttribute('aria-expanded') !== 'true') faults.push('not expanded: ' + item.id);
  }
  return faults;
}))"""
CONTRAST = """(() => {
  const channel = value => { value /= 255; return value <= 0.04045 ? value / 12.92 : ((value + 0.055) / 1.055) ** 2.4; };
  const parts = text => { const found = text.match(/[0-9.]+/g).map(Number); return found.length < 4 ? [...found, 1] : found; };
  const light = ([r, g, b]) => 0.2126 * channel(r) + 0.7152 * channel(g) + 0.0722 * channel(b);
  const ground = element => { for (let at = element; at; at = at.parentElement) { const back = parts(getComputedStyle(at).backgroundColor); if (back[3] === 1) return back; } return [255, 255, 255, 1]; };
  const poor = new Map();
  for (const element of document.querySelectorAll('body *')) {
    if (!element.checkVisibility() || ![...element.childNodes].some(node => node.nodeType === 3 && node.textContent.trim())) continue;
    if (element.closest('svg, script, style, .unseen, .skip')) continue;
    const [one, other] = [light(parts(getComputedStyle(element).color)), light(ground(element))].sort((a, b) => b - a);
    const ratio = (one + 0.05) / (other + 0.05);
    if (ratio < 4.5) poor.set(element.className + ' ' + element.tagName, ratio.toFixed(2) + ' ' + element.textContent.slice(0, 20));
  }
  return JSON.stringify([...poor]);
})()"""
PAIRS = """(() => {
  const channel = value => { value /= 255; return value <= 0.04045 ? value / 12.92 : ((value + 0.055) / 1.055) ** 2.4; };
  const probe = document.body.appendChild(document.createElement('i'));
  const light = name => { probe.style.color = `var(--${name})`; const [r, g, b] = getComputedStyle(probe).color.match(/[0-9.]+/g).map(Number); return 0.2126 * channel(r) + 0.7152 * channel(g) + 0.0722 * channel(b); };
  const ratio = (a, b) => { const [one, other] = [light(a), light(b)].sort((x, y) => y - x); return (one + 0.05) / (other + 0.05); };
  const poor = [];
  for (const back of ['page', 'pane', 'band', 'chosen', 'hover']) for (const text of ['text', 'quiet', 'accent']) if (ratio(text, back) < 4.5) poor.push([text, back, ratio(text, back)]);
  for (const mark of ['stale', 'missing', 'unknown']) if (ratio(mark, mark + '-back') < 4.5) poor.push([mark, ratio(mark, mark + '-back')]);
  for (const text of ['step', 'say', 'end', 'error', 'good']) for (const back of ['pane', 'chosen', 'hover']) if (ratio(text, back) < 4.5) poor.push([text, back, ratio(text, back)]);
  for (const drawn of ['call', 'return', 'error', 'signal', 'control-edge', 'accent']) if (ratio(drawn, 'pane') < 3) poor.push([drawn, ratio(drawn, 'pane')]);
  if (ratio('text', 'found') < 4.5) poor.push(['found', ratio('text', 'found')]);
  probe.remove();
  return JSON.stringify(poor);
})()"""
TARGETS = """JSON.stringify([...document.querySelectorAll('button, select, input:not(.unseen), summary, label.button, .event-link')]
  .filter(element => element.checkVisibility()).map(element => [element, element.getBoundingClientRect()])
  .filter(([element, box]) => box.height < 23.5 && element.type !== 'range' && element.type !== 'checkbox' || box.width < 23.5 && element.type !== 'checkbox')
  .map(([element, box]) => element.outerHTML.slice(0, 60) + ' ' + box.width + 'x' + box.height))"""


def test_access(page, folder):
    script = os.path.join(TESTS, "two_readers.script")
    wire = replay(script, "--wire")
    path = make_page(folder, "two", wire, script)
    events = [line for line in wire.split("\n") if line and not line.startswith(("= ", "| "))]
    last, behind = (
        len(events),
        next(k for k, line in enumerate(events) if line.startswith("show ")) + 1,
    )  # at `behind` the second reader holds what was
    for dark in (False, True):
        page.dark(dark)
        shade = "dark" if dark else "light"
        page.open(path, f"#event={behind}")
        page.run("document.querySelector('.tree').focus()")
        holds(
            json.loads(page.run(PAIRS)) == [],
            f"{shade}: the stylesheet's colours have their contrast: {page.run(PAIRS)}",
        )
        for event in (3, behind, last):
            at_event(page, event)
            poor = page.run(CONTRAST)
            holds(json.loads(poor) == [], f"{shade}, event {event}: every text has a contrast of 4.5: {poor}")
        page.run("document.getElementById('help').click()")
        holds(json.loads(page.run(CONTRAST)) == [], f"{shade}: so has the help")
        page.run("document.getElementById('help-close').click()")
    page.dark(False)
    at_event(page, behind)
    holds(json.loads(page.run(CONTROLS)) == [], f"every control has a name: {page.run(CONTROLS)}")
    holds(
        page.run("[...document.querySelectorAll('[tabindex]')].every(element => element.tabIndex <= 0)"),
        "no tabindex is above 0",
    )
    holds(json.loads(page.run(TREES)) == [], f"trees have levels, places and sizes: {page.run(TREES)}")
    holds(json.loads(page.run(TARGETS)) == [], f"targets are 24 pixels wide and high: {page.run(TARGETS)}")
    ids = page.run(
        "(() => { const ids = [...document.querySelectorAll('[id]')].map(element => element.id); return ids.length - new Set(ids).size; })()"
    )
    holds(ids == 0, "no id stands twice")
    for rule, words in (
        ("document.documentElement.lang", "en"),
        ("document.querySelectorAll('main').length", 1),
        ("document.querySelectorAll('h1').length", 1),
    ):
        holds(page.run(rule) == words, f"{rule} is {words}")
    test_access_tree(page)
    page.run("document.activeElement.blur()")
    seen = set()
    for _ in range(60):
        page.key("Tab")
        seen.add(page.run("(document.activeElement.id || document.activeElement.className)"))
    wanted = {
        "slider",
        "number",
        "party",
        "path",
        "member",
        "search",
        "events",
        "message",
        "spoken",
        "node",
        "files-again",
        "copy",
        "help",
        "on",
        "back",
    }
    holds(
        wanted <= seen and any(name.startswith("tree-a0-") for name in seen),
        f"Tab reaches every control: {sorted(wanted - seen)}",
    )


def test_access_tree(page):
    """The browser's own tree of accessibles, which is what it hands to screen readers, has the trees as trees."""
    page.call("Accessibility.enable")
    nodes = page.call("Accessibility.getFullAXTree")["nodes"]

    def of(role):
        return [node for node in nodes if node.get("role", {}).get("value") == role and not node.get("ignored")]

    def name(node):
        return node.get("name", {}).get("value", "")

    def property_of(node, which):
        return next((each["value"].get("value") for each in node.get("properties", []) if each["name"] == which), None)

    trees = {name(tree) for tree in of("tree")}
    holds(trees == {"a0 has", "r0 holds", "r1 holds"}, f"the trees are trees with their names: {trees}")
    items = of("treeitem")
    holds(
        any(
            "“Cart”" in name(item) and property_of(item, "level") == 2 and property_of(item, "expanded")
            for item in items
        ),
        "a node with children is an expanded item with its level",
    )
    marks = " / ".join(name(item) for item in items)
    holds(
        "stale: name" in marks and "stale: place" in marks and "stale: the node is gone" in marks,
        f"what differs is in the items' names: {marks[:400]}",
    )
    holds(
        len(of("listbox")) == 1 and of("option") and all(name(option) for option in of("option")),
        "events are options with names",
    )
    holds([name(slider) for slider in of("slider")] == ["Event"], "the slider is a slider")


def busy(page):
    """How long the page's main thread was at work, in seconds."""
    metrics = page.call("Performance.getMetrics")["metrics"]
    return next(each["value"] for each in metrics if each["name"] == "TaskDuration")


def test_large(page, folder):
    """100,000 events open in under 3 seconds and step without a wait: by the clock, or by the main thread's work where
    others keep the machine busy; both are told, with the load of the machine."""
    script = os.path.join(folder, "large.script")
    with open(script, "w") as file:
        subprocess.run(
            [sys.executable, os.path.join(HERE, "bench", "viewer_large.py"), "22200"], stdout=file, check=True
        )
    trace = replay(script, "--wire")
    path = make_page(folder, "large", trace, script)
    figures = {}
    for fragment in ("", "#event=100000"):
        # a browser of its own, so that its main thread has worked for this page alone
        with browser.Browser() as fresh:
            fresh.call("Performance.enable", timeDomain="threadTicks")
            wall, spent = fresh.open(path, fragment), busy(fresh)
        figures[f"open{fragment}"] = f"{wall:.2f} s, of it {spent:.2f} s at work"
        holds(
            wall < 3 or spent < 3,
            f"100,000 events open in under 3 s, of the clock or, on a busy machine, of work: {figures}",
        )
    page.call("Performance.enable", timeDomain="threadTicks")
    page.open(path, "#event=60000")
    events = int(page.run("document.getElementById('number').max"))
    holds(events >= 100000, f"{events} events")
    holds(held(page, "r0", "a0") is not None, "the trees of the large trace stand there")
    for way in ("on", "back", "segment-on", "segment-back"):
        steps = f"(async () => {{ const waits = []; for (let k = 0; k < 60; k++) {{ const begun = performance.now(); document.getElementById('{way}').click(); await new Promise(done => requestAnimationFrame(() => setTimeout(done))); waits.push(performance.now() - begun); }} waits.sort((a, b) => a - b); return waits[30]; }})()"
        at_event(page, 60000)
        before = busy(page)
        median = page.run(steps)
        spent = busy(page) - before
        figures[way] = f"{median:.0f} ms, of it {spent / 60 * 1000:.0f} ms at work"
        holds(spent / 60 < 0.1, f"a step takes less than a tenth of a second: {way} {figures[way]}")
    print(
        f"viewer: {events:,} events, {len(trace.encode()) / 1e6:.0f} MB: {json.dumps(figures)}; load {os.getloadavg()[0]:.0f} on {os.cpu_count()} processors"
    )


def pictures(page, folder):
    os.makedirs(PICTURES, exist_ok=True)
    page.call("Emulation.setDeviceMetricsOverride", width=1440, height=960, deviceScaleFactor=1, mobile=False)
    for name, event, dark, node in (
        ("a_race", 130, False, 1),
        ("typing", 0, False, 7),
        ("many_ends", 1500, True, None),
    ):
        script = os.path.join(TESTS, f"{name}.script")
        path = make_page(folder, name, replay(script, "--wire"), script)
        page.dark(dark)
        page.open(path)
        if event:
            at_event(page, event)
        else:
            page.run(
                "(() => { const search = document.getElementById('search'); search.value = 'show r0 a0'; search.dispatchEvent(new Event('input')); document.getElementById('found-on').click(); search.value = ''; search.dispatchEvent(new Event('input')); })()"
            )
            page.run(SETTLED)
        if node is not None:
            page.run(f"[...document.querySelectorAll('.tree')].pop().querySelector('[data-path$=\"/{node}\"]').click()")
        page.run("document.activeElement.blur()")
        page.run(SETTLED)
        picture = os.path.join(PICTURES, f"viewer_{name}.png")
        page.picture(picture)
        if shutil.which("pngquant"):
            subprocess.run(["pngquant", "--force", "--ext", ".png", "--speed", "1", "64", picture], check=True)
    page.dark(False)


def main():
    if not browser.find():
        print("viewer: skipped: no Chromium here (Debian's package chromium)")
        return 0
    with tempfile.TemporaryDirectory() as folder, browser.Browser() as page:
        if "--pictures" in sys.argv:
            pictures(page, folder)
            return 0
        tests = [test_shown_rows, test_refusals, test_other_traces, test_keys_and_finding, test_access]
        if "--fast" not in sys.argv:
            tests.append(test_large)
        wanted = [word for word in sys.argv[1:] if not word.startswith("--")]
        for test in tests:
            if not wanted or test.__name__[5:] in wanted:
                test(page, folder)
    print(f"viewer: {done} checks, {len(failures)} do not hold")
    return 1 if failures else 0


if __name__ == "__main__":
    sys.exit(main())
