"""A checked file as one HTML page that needs nothing else: verdict, pair and events, and the trace beside source and disassembly."""
import collections
import html
import os
import stat

from . import firmware, formats, pair, places, record, riscv
from .command import quoted
from .library import MEMORY_START, STOP

FIRST_ROWS, LAST_ROWS = 500, 1500  # of a trace
MOST_SOURCE = 1 << 20  # bytes of a file
SOURCES = ('.c', '.h', '.s', '.inc', '.cc', '.cpp', '.cxx', '.hh', '.hpp', '.rs', '.zig', '.d', '.ada', '.adb', '.ads')
AROUND = 4  # lines before and after those that the run came to
UNNAMED = 16  # bytes shown around a place that no function holds


def escape(text):
    return html.escape(str(text).encode('utf-8', 'replace').decode())


def tag(name, *inside, **attributes):
    """An element; inside is HTML, attributes are text, and class_ is class."""
    written = ''.join(f' {key.rstrip("_").replace("_", "-")}="{escape(value)}"' for key, value in attributes.items() if value not in (None, ''))
    return f'<{name}{written}>{"".join(inside)}</{name}>'


# ---- what the page shows


class View:
    """The rows of a trace, with what lies beside them."""

    def __init__(self, loaded, run, document):
        self.loaded, self.trace, self.document = loaded, run.trace, document
        self.refused = (document.get('place') or {}).get('address')
        shown = range(len(self.trace))
        if len(shown) > FIRST_ROWS + LAST_ROWS:
            shown = [*shown[:FIRST_ROWS], *shown[-LAST_ROWS:]]
        self.rows = [(k, self.trace[k]) for k in shown]
        self.hits = collections.Counter(step.program_counter for step in self.trace)
        self.words = {step.program_counter: step for step in self.trace}
        addresses = sorted({*self.hits, *([self.refused] if self.refused is not None else [])})
        self.frames = places.frames(loaded, addresses)

    def hidden(self):
        return len(self.trace) - len(self.rows)


def page(loaded, run, document):
    view = View(loaded, run, document)
    title = f'{document["file"]}: {document["verdict"]}'
    body = [top(document), facts(view), tag('main', trace_panel(view), code_panel(view), source_panel(view))]
    head = tag('head', '<meta charset="utf-8">', '<meta name="viewport" content="width=device-width, initial-scale=1">',
               tag('title', escape(title)), f'<style>{STYLE}</style>')
    return f'<!DOCTYPE html>\n<html lang="en">{head}{tag("body", *body, f"<script>{SCRIPT}</script>")}</html>\n'


def of_failure(document):
    """The page of a file that can't be run."""
    head = tag('head', '<meta charset="utf-8">', tag('title', escape(document['file'])), f'<style>{STYLE}</style>')
    return f'<!DOCTYPE html>\n<html lang="en">{head}{tag("body", top(document))}</html>\n'


def top(document):
    badge = f'{document["verdict"]} {document["number"]}' if 'number' in document else document['verdict']
    parts = [tag('h1', tag('span', escape(badge), class_=f'badge {formats.kind(document)}'), ' ', escape(document['file']))]
    parts.append(tag('p', escape(document['text']), class_='verdict'))
    if document.get('advice'):
        parts.append(tag('p', tag('b', 'Advice: '), escape(f'{document["advice"]}.'), class_='advice'))
    parts += [tag('p', tag('b', 'Warning: '), escape(warning), class_='warning') for warning in document['warnings']]
    return tag('header', *parts)


def facts(view):
    cards = [pair_card(view), way_card(view), events_card(view), setting_card(view)]
    return tag('section', *filter(None, cards), class_='cards')


def card(title, *inside):
    return tag('div', tag('h2', escape(title)), *inside, class_='card')


def table(names, rows, class_=''):
    head = tag('tr', *(tag('th', escape(name)) for name in names)) if names else ''
    return tag('table', head, *(tag('tr', *(tag('td', escape(cell)) for cell in row)) for row in rows), class_=class_)


def pair_card(view):
    document = view.document
    found = document.get('pair')
    if not found:
        return ''
    what = record.ROLES[document['role']]
    rows = [(f'input {found[name]}', pair_value(view, found[f'{name}_value'])) for name in ('first', 'other')]
    where = f'of event {found["event"]}, counted at {found["location"]:08x}' if 'event' in found else ''
    agree = found['other'] - found['first'] > 1 and document['role'] <= 7
    more = tag('p', escape(f'Inputs {found["first"]} to {found["other"] - 1} agree; {found["other"]} is the first that does not.')) if agree else ''
    return card('The pair', table(['input', f'{what} {where}'.strip()], rows, 'pair'), more)


def pair_value(view, value):
    """What an input of the pair has, in words."""
    role, counter = view.document['role'], view.refused
    if role == 1:
        return pair.unit_text(value, counter)
    if role in (2, 3, 4):
        return f'{value:08x}'
    return ('taken' if value else 'not taken') if role == 5 else record.value(value)


def way_card(view):
    found = view.document.get('unknown')
    if not found:
        return ''
    rows = [(link['set'], f'step {link["step"]:,}', f'{link["address"]:08x}', link['instruction']) for link in found['way']]
    rows.append((found['register'], 'never set', '', ''))
    return card('Where the unknown value came from', table(['set', 'at', 'address', 'instruction'], rows))


def events_card(view):
    document = view.document
    if 'events' not in document:
        return ''
    rows = [(k, record.value(one['operation']), f'0x{one["offset"]:x}', record.value(one['value']), f'{one["location"]:08x}')
            for k, one in enumerate(document['events'], 1)]
    return card('Events', table(['event', 'operation', 'offset', 'value', 'counted at'], rows) if rows else tag('p', 'none'))


def setting_card(view):
    document, setting = view.document, view.document['setting']
    rows = [('inputs', f'{setting["first_input"]} to {setting["last_input"]}')]
    if 'return_value' in document:
        rows += [('return value', record.value(document['return_value'])), ('written bytes', f'{document["written_bytes"]:,}')]
    rows += [('steps', f'{len(view.trace):,} of {setting["steps"]:,}'), ('rows lent', f'{setting["rows"]:,}'),
             ('entry', f'{document["entry"]:08x}'), ('event count', f'{document["event_count_address"]:08x}'),
             ('events', f'{document["events_address"]:08x}'), ('SHA-256', document['file_sha256'])]
    return card('The run', table([], rows, 'setting'))


# ---- the trace


def trace_panel(view):
    rows, before = [], -1
    for k, step in view.rows:
        if k != before + 1:
            rows.append(tag('tr', tag('td', escape(f'{view.hidden():,} steps are not shown'), colspan='4'), class_='gap'))
        rows.append(step_row(view, k, step))
        before = k
    rows.append(end_row(view))
    head = tag('tr', *(tag('th', name) for name in ('step', 'address', 'instruction', 'source')))
    return panel('Trace', record.count(len(view.trace), 'step'), tag('table', tag('thead', head), tag('tbody', *rows)))


def panel(title, more, inside):
    heading = tag('h2', escape(title), ' ', tag('small', escape(more)))
    return tag('section', heading, tag('div', inside, class_='scroll', tabindex='0'), class_='panel')


def line_of(view, address):
    found = view.frames.get(address)
    return f'{quoted(os.path.basename(found[0].file))}:{found[0].line}' if found else ''


def source_key(view, address):
    found = view.frames.get(address)
    return f'{found[0].file}:{found[0].line}' if found else None


def step_row(view, k, step):
    counter = step.program_counter
    text = riscv.disassemble(step.word, counter, step.length)
    straight = step.next_program_counter == counter + step.length & 0xFFFFFFFF
    target = f'{step.next_program_counter:08x}'
    leads = '' if straight else tag('span', escape(f' \u2192 {"" if text.endswith(target) else target}'), class_='leads')
    cells = [tag('td', f'{k + 1:,}', class_='number'), tag('td', f'{counter:08x}'), tag('td', escape(text), leads),
             tag('td', escape(line_of(view, counter)))]
    return tag('tr', *cells, data_at=f'{counter:08x}', data_line=source_key(view, counter))


def end_row(view):
    document = view.document
    if document['verdict'] == 'accepted':
        return tag('tr', tag('td'), tag('td', f'{STOP:08x}'), tag('td', 'the end of the run', colspan='2'), class_='stop')
    what = document['reason'] + (f'; {document["because"]}' if document['because'] else '')
    if view.refused is None:
        where = tag('td', 'the end of the run' if document['at_end'] else 'before the first step')
        return tag('tr', tag('td'), where, tag('td', escape(what), class_='why', colspan='2'), class_='bad', id='refused')
    place = document['place']
    text = (place['instruction'] or 'no instruction') + (f' ({document["note"]})' if document['note'] else '')
    cells = [tag('td', '\u2717', class_='number'), tag('td', f'{view.refused:08x}'), tag('td', escape(text)),
             tag('td', escape(line_of(view, view.refused)))]
    row = tag('tr', *cells, class_='bad', id='refused', data_at=f'{view.refused:08x}', data_line=source_key(view, view.refused))
    return row + tag('tr', tag('td'), tag('td', escape(what), class_='why', colspan='3'), class_='bad')


# ---- disassembly


def pieces(view):
    """What is disassembled: the functions that the run came to, and a little around other places, as (start, end, name)."""
    found, addresses = set(), {*view.hits, *([view.refused] if view.refused is not None else [])}
    for address in addresses:
        holder = next(((start, start + size, name) for start, size, name in view.loaded.functions if start <= address < start + size), None)
        found.add(holder or (address, min(address + UNNAMED, layout_end(view)) if address == view.refused else address + 1, ''))
    return merged(sorted(found))


def layout_end(view):
    return MEMORY_START + len(view.loaded.image)


def merged(found):
    """Unnamed pieces that touch become one."""
    whole = []
    for start, end, name in found:
        if whole and not name and not whole[-1][2] and start <= whole[-1][1] + 4:
            whole[-1] = (whole[-1][0], max(end, whole[-1][1]), '')
        elif not whole or start >= whole[-1][1]:
            whole.append((start, max(end, start + 1), name))
    return whole


def unit_at(view, address):
    """Length and text of the instruction at an address: as it ran, or as the image has it."""
    step = view.words.get(address)
    if step:
        return step.length, riscv.disassemble(step.word, address, step.length)
    at = address - MEMORY_START
    if not 0 <= at < len(view.loaded.image):
        return 2, 'not in the image'
    text = firmware.instruction_at(view.loaded, address)
    return (4 if view.loaded.image[at] & 3 == 3 else 2), text or 'cut short by the end of the image'


def code_rows(view, start, end):
    address = start
    while address < end:
        size, text = unit_at(view, address)
        bad, hits = address == view.refused, view.hits[address]
        cells = [tag('td', f'{hits:,}\u00d7' if hits else '', class_='number'), tag('td', f'{address:08x}'), tag('td', escape(text))]
        yield tag('tr', *cells, class_='bad' if bad else 'ran' if hits else 'cold', data_at=f'{address:08x}', data_line=source_key(view, address))
        coming = [place for place in view.words if address < place < address + size]  # the run came into the middle of it
        address = min([address + size, *coming])


def code_panel(view):
    parts = []
    for start, end, name in pieces(view):
        parts.append(tag('h3', escape(f'{name}' if name else f'{start:08x}')))
        parts.append(tag('table', *code_rows(view, start, end), class_='code'))
    return panel('Disassembly', 'how often each instruction ran', ''.join(parts))


# ---- source


def source_lines(loaded, path):
    """The lines of a source file that debugging information names, or None. Only what looks like source is read, since the firmware
    chooses the name."""
    if os.path.splitext(path)[1].lower() not in SOURCES:
        return None
    try:
        full = places.source_path(loaded, path)
        if not stat.S_ISREG(os.stat(full).st_mode):
            return None
        with open(full, 'rb') as file:
            return file.read(MOST_SOURCE).decode('utf-8', 'replace').splitlines()
    except (OSError, ValueError):
        return None


def touched(view):
    """For each source file the lines that the run came to, with how often, and the refused one."""
    lines = collections.defaultdict(collections.Counter)
    for address in {*view.hits, *([view.refused] if view.refused is not None else [])}:
        for frame in view.frames.get(address, ()):
            lines[frame.file][frame.line] += view.hits[address]
    return lines


def source_panel(view):
    parts = []
    bad = view.frames.get(view.refused) if view.refused is not None else None
    files = touched(view)
    for path in sorted(files, key=lambda path: not (bad and path == bad[0].file)):
        text = source_lines(view.loaded, path)
        parts.append(tag('h3', escape(quoted(os.path.normpath(places.within(places.source_path(view.loaded, path)))))))
        rows = source_rows(path, text, files[path], bad) if text is not None else [tag('tr', tag('td', 'the file is not here', class_='gap'))]
        parts.append(tag('table', *rows, class_='source'))
    if not parts:
        parts = [tag('p', 'No source lines: the file has no debugging information, or no addr2line is there.', class_='none')]
    return panel('Source', 'how many steps each line took', ''.join(parts))


def source_rows(path, text, hits, bad):
    before = 0
    for number in range(1, len(text) + 1):
        if not any(abs(number - line) <= AROUND for line in hits):
            continue
        if number != before + 1 and before:
            yield tag('tr', tag('td', '\u22ee', colspan='3'), class_='gap')
        refused = bool(bad) and (path, number) == (bad[0].file, bad[0].line)
        kind = 'bad' if refused else 'ran' if hits.get(number) else 'cold'
        cells = [tag('td', f'{hits[number]:,}\u00d7' if hits.get(number) else '', class_='number'), tag('td', str(number), class_='number'),
                 tag('td', escape(text[number - 1].expandtabs(4)), class_='line')]
        yield tag('tr', *cells, class_=kind, data_line=f'{path}:{number}')
        before = number


# ---- looks


STYLE = '''
:root { color-scheme: light dark; --back: #fff; --text: #1c2024; --faint: #6b7480; --edge: #d9dee4; --panel: #f6f8fa; --bad: #b3261e;
  --badback: #fde7e5; --good: #1a7f37; --warn: #8a5a00; --warnback: #fff4d6; --pick: #dbeafe; }
@media (prefers-color-scheme: dark) { :root { --back: #14171a; --text: #e4e7ea; --faint: #96a0ab; --edge: #343b43; --panel: #1c2126;
  --bad: #ff8a80; --badback: #4a1d1a; --good: #56d364; --warn: #e3b341; --warnback: #3b2e0a; --pick: #1e3a5f; } }
* { box-sizing: border-box; }
body { margin: 0; padding: 1.2rem; background: var(--back); color: var(--text); font: 15px/1.45 system-ui, sans-serif; }
h1 { font-size: 1.25rem; margin: 0 0 .5rem; overflow-wrap: anywhere; }
h2 { font-size: .95rem; margin: 0 0 .5rem; } h2 small { color: var(--faint); font-weight: normal; }
h3 { font: 600 .8rem ui-monospace, monospace; margin: .8rem .5rem .3rem; overflow-wrap: anywhere; }
p { margin: .35rem 0; max-width: 75rem; overflow-wrap: anywhere; }
.badge { color: #fff; border-radius: .3rem; padding: .1rem .55rem; white-space: nowrap; }
.badge.accepted { background: #1a7f37; } .badge.refused { background: #b3261e; } .badge.undecided, .badge.error { background: #8a5a00; }
.verdict, table { font-family: ui-monospace, SFMono-Regular, Menlo, monospace; font-size: .8rem; }
.warning { color: var(--warn); }
.cards { display: flex; flex-wrap: wrap; gap: 1rem; margin: 1rem 0; align-items: flex-start; }
.card { border: 1px solid var(--edge); border-radius: .4rem; padding: .7rem .9rem; background: var(--panel); max-width: 100%; overflow-x: auto; }
main { display: grid; grid-template-columns: minmax(0, 5fr) minmax(0, 4fr) minmax(0, 4fr); gap: 1rem; }
.panel { min-width: 0; } .scroll { border: 1px solid var(--edge); border-radius: .4rem; max-height: 78vh; overflow: auto; }
@media (max-width: 1000px) { main { grid-template-columns: minmax(0, 1fr); } .scroll { max-height: 60vh; } }
table { border-collapse: collapse; } .panel table { width: 100%; }
td, th { padding: .12rem .55rem; text-align: left; vertical-align: top; white-space: nowrap; }
th { color: var(--faint); font-weight: 600; } thead th { position: sticky; top: 0; background: var(--panel); border-bottom: 1px solid var(--edge); }
.setting td:first-child, .number { color: var(--faint); } .number { text-align: right; user-select: none; min-width: 3.2em; }
.setting td { white-space: normal; overflow-wrap: anywhere; } .setting td:first-child { white-space: nowrap; }
.line { white-space: pre-wrap; overflow-wrap: anywhere; width: 100%; } .code td:last-child { width: 100%; }
.leads, .gap, .none { color: var(--faint); } .none { padding: .5rem; } .gap td { text-align: center; }
.cold { opacity: .55; } .bad td { background: var(--badback); } .bad td { color: var(--bad); font-weight: 600; }
.bad .why { white-space: normal; font-weight: normal; overflow-wrap: anywhere; padding-bottom: .4rem; } .stop td { color: var(--good); }
tr[data-at], tr[data-line] { cursor: pointer; } tr.pick td { background: var(--pick); } tr.pick.bad td { outline: 1px solid var(--bad); }
'''
SCRIPT = '''
"use strict";
(function () {
  function rows(name, value) {
    return Array.prototype.filter.call(document.querySelectorAll("tr[data-" + name + "]"), function (row) {
      return row.getAttribute("data-" + name) === value; });
  }
  function show(row) {
    var box = row.closest(".scroll"), place = row.getBoundingClientRect(), frame = box.getBoundingClientRect();
    if (place.top < frame.top + 30 || place.bottom > frame.bottom) box.scrollTop += place.top - frame.top - frame.height / 3;
  }
  function pick(row) {
    var seen = [row.closest(".scroll")], at = row.getAttribute("data-at"), line = row.getAttribute("data-line");
    document.querySelectorAll("tr.pick").forEach(function (old) { old.classList.remove("pick"); });
    row.classList.add("pick");
    (at ? rows("at", at) : []).concat(line ? rows("line", line) : []).forEach(function (other) {
      var box = other.closest(".scroll");
      if (seen[0] === box) return;
      if (!at || other.getAttribute("data-at") === at || !other.hasAttribute("data-at")) other.classList.add("pick");
      if (seen.indexOf(box) < 0) { seen.push(box); show(other); }
    });
  }
  document.addEventListener("click", function (event) {
    var row = event.target.closest("tr[data-at], tr[data-line]");
    if (row) pick(row);
  });
  document.querySelectorAll(".scroll").forEach(function (box) {
    var row = box.querySelector("tr.bad");
    if (row) show(row);
  });
}());
'''
