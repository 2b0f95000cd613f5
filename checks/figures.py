#!/usr/bin/env python3
"""Usage: checks/figures.py [--check]

Draws the figures of the pages: of each docs/figures/NAME.txt it makes docs/figures/NAME.svg. With
`--check` it writes nothing: it prints what is wrong and ends with 1, or prints one line and ends
with 0.

A line of a text is `WORD: CELL | CELL ..`; one that begins with # is a remark. `kind` says what
the figure is:

- `line`: calls, one after another (`call: WHAT | TO | BAND`), in parts (`part:`, before their
  calls, with a link to a function and its clauses, as on the pages: `checks/pages.py` finds them),
  and bands under them (`band: NAME | COLOR | WHAT IT IS`, with `note: BAND | TEXT` below).
- `blocks`: blocks of a file to scale (`block: OFFSET | BYTES | NAME | USED | TEXT`), of which USED
  bytes count; a name `N x NAME` stands for N blocks of this size.
- `stack`: crates (`box: NAME | PLACE | ROW | JOB`) and who uses whom (`edge: UPPER | LOWER |
  PROMISES`; a fourth cell says how far down the line they stand, in hundredths).
- `states`: states in columns and rows (`state: NAME | COLUMN | ROW | WHAT IT IS`; one with `end` as
  a fifth cell is an end), and ways between them (`way: FROM | TO | WHAT LEADS THERE`; a fourth cell
  says how far aside the arrow goes, in pixels, and a fifth how far along it the words stand, in
  hundredths). Words go to another line at ` / `.

It is also wrong where a block does not begin where the one before it ends, where bytes of a block
do not stand in docs/FILE-FORMAT.md, where a crate that is no test and no bench has no box, where
an edge is not in crates.txt, and where a promise of an edge is not in docs/PROOFS.md; where no way
leads to a state but the first, or none from one that is no end, and where a state has no row in a
table of docs/PLAYERS.md.
"""
import glob
import os
import re
import sys
from xml.sax.saxutils import escape

os.chdir(os.path.dirname(os.path.dirname(os.path.abspath(__file__))))

INK, PALE, PAPER = '#222222', '#d8d8d8', '#ffffff'
LINK = re.compile(r'\[`([\w:]+)`\]\(\S+?\)')
faults = []


def fault(where, what):
    faults.append(f'{where}: {what}')


def read(path):
    with open(path, encoding='utf-8') as file:
        return file.read()


def lines_of(path):
    """The lines of a text: each its word, and its cells."""
    for line in read(path).split('\n'):
        if line.strip() and not line.startswith('#'):
            word, _, rest = line.partition(':')
            yield word.strip(), [cell.strip() for cell in rest.split(' | ')]


def shown(text):
    """A text without links and code marks."""
    return LINK.sub(r'\1', text).replace('`', '')


class Drawing:
    """Shapes, and how large the paper is."""

    def __init__(self, width, title):
        self.width, self.height, self.shapes, self.title = width, 0, [], title

    def text(self, x, y, words, size=12, anchor='start', color=INK, weight='normal', mono=False):
        family = 'monospace' if mono else 'sans-serif'
        self.shapes.append(
            f'<text x="{x:g}" y="{y:g}" font-family="{family}" font-size="{size}" fill="{color}" '
            f'font-weight="{weight}" text-anchor="{anchor}">{escape(words)}</text>')
        self.height = max(self.height, y + 12)

    def box(self, x, y, width, height, fill, stroke=INK):
        self.shapes.append(
            f'<rect x="{x:g}" y="{y:g}" width="{width:g}" height="{height:g}" fill="{fill}" '
            f'stroke="{stroke}" stroke-width="1"/>')
        self.height = max(self.height, y + height + 12)

    def line(self, x, y, to_x, to_y, color=INK):
        self.shapes.append(
            f'<line x1="{x:g}" y1="{y:g}" x2="{to_x:g}" y2="{to_y:g}" stroke="{color}"/>')

    def svg(self):
        return '\n'.join([
            f'<svg xmlns="http://www.w3.org/2000/svg" width="{self.width}" '
            f'height="{self.height:g}" viewBox="0 0 {self.width} {self.height:g}">',
            f'<title>{escape(self.title)}</title>',
            f'<rect width="100%" height="100%" fill="{PAPER}"/>',
            *self.shapes, '</svg>', ''])


# CALLS ON A LINE

def draw_line(title, rows, _path):
    calls, parts, bands, notes = [], [], {}, []
    for word, cells in rows:
        if word == 'part':
            parts.append((len(calls), LINK.search(cells[0])[1], shown(LINK.sub('', cells[0]))))
        elif word == 'call':
            calls.append(cells)
        elif word == 'band':
            bands[cells[0]] = cells[1:]
        elif word == 'note':
            notes.append(cells)
    left, step = 16, 76
    drawing = Drawing(left * 2 + step * len(calls), title)
    drawing.text(left, 24, title, 15, weight='bold')
    ends = [part[0] for part in parts[1:]] + [len(calls)]
    for (first, name, clauses), end in zip(parts, ends):
        x, width = left + step * first, step * (end - first)
        drawing.box(x + 2, 40, width - 4, 22, PALE)
        drawing.text(x + width / 2, 55, name, 12, 'middle', weight='bold')
        drawing.text(x + width / 2, 78, clauses, 11, 'middle')
    top = 92
    drawing.line(left, top + 12, left + step * len(calls), top + 12)
    for number, (what, to, band) in enumerate(calls):
        x = left + step * number
        drawing.box(x + 23, top, 30, 24, PAPER if what == 'write' else INK)
        color = INK if what == 'write' else PAPER
        drawing.text(x + 38, top + 16, str(number + 1), 12, 'middle', color)
        drawing.text(x + 38, top + 40, what, 12, 'middle')
        drawing.text(x + 38, top + 55, to, 11, 'middle')
        if band not in bands:
            fault(title, f'no band {band}')
    top += 70
    for name, (color, what) in bands.items():
        under = [number for number, call in enumerate(calls) if call[2] == name]
        if not under or under != list(range(under[0], under[-1] + 1)):
            fault(title, f'the calls of {name} do not stand together')
            continue
        x, width = left + step * under[0], step * len(under)
        drawing.box(x + 1, top, width - 2, 30, color)
        drawing.text(x + width / 2, top + 19, what, 13, 'middle', weight='bold')
        y = top + 48
        for text in (cells[1] for cells in notes if cells[0] == name):
            drawing.text(x + width / 2, y, shown(text), 11, 'middle')
            y += 15
    drawing.height += 4
    return drawing


# BLOCKS OF A FILE

def draw_blocks(title, rows, path):
    scale, width, left = 4096 / 24, 400, 90
    drawing = Drawing(1080, title)
    drawing.text(16, 24, title, 15, weight='bold')
    y, at, notes = 44, 0, []
    page = ' '.join(read('docs/FILE-FORMAT.md').split())
    for word, cells in rows:
        if word == 'note':
            notes.append(cells[0])
            continue
        offset, size, name, used, text = cells
        many = int(name.split(' x ')[0]) if ' x ' in name else 1
        offset, size = int(offset.replace(',', '')), int(size.replace(',', ''))
        if offset != at:
            fault(path, f'{name} begins at {offset}, and what is before it ends at {at}')
        for spelled in re.findall(r'(?:\b[0-9A-F]{2} ){3,}[0-9A-F]{2}\b', text):
            if spelled not in page:
                fault(path, f'{spelled} is not in docs/FILE-FORMAT.md')
        at += size * many
        height = size / scale
        for turn in range(many):
            drawing.box(left, y + turn * height, width, height, PAPER)
            if used != '0':
                full = width * int(used.replace(',', '')) / size
                drawing.box(left, y + turn * height, full, height, '#3a6ea5', 'none')
        middle = y + height * many / 2 + 4
        drawing.text(left - 8, y + 10, f'{offset:,}', 11, 'end')
        drawing.text(left + width + 12, middle, name, 12, weight='bold')
        drawing.text(left + width + 150, middle, shown(text), 12, mono=True)
        y += height * many
    drawing.text(left - 8, y + 10, f'{at:,}', 11, 'end')
    for row, note in enumerate(notes):
        drawing.text(16, y + 36 + 18 * row, note, 12)
    return drawing


# CRATES

def uses():
    """For each crate the ones that it uses."""
    found = {}
    for line in read('crates.txt').split('\n'):
        if line and not line.startswith('#'):
            name, _, rest = line.partition(':')
            found[name.strip()] = rest.split()
    return found


def check_stack(path, boxes, edges):
    used = uses()
    shown_crates = {name for name in used if not name.startswith(('test_', 'benches'))}
    for name in sorted(shown_crates ^ set(boxes)):
        fault(path, f'{name} is in one alone of the figure and crates.txt')
    promises = set(re.findall(r'^\| (\d+)[ ,]', read('docs/PROOFS.md'), re.M))
    for upper, lower, said, *_ in edges:
        if lower not in used.get(upper, []):
            fault(path, f'{upper} does not use {lower}')
        for number in re.findall(r'\d+', said):
            if number not in promises:
                fault(path, f'no promise {number}')


def draw_stack(title, rows, path):
    boxes, edges, notes = {}, [], []
    for word, cells in rows:
        if word == 'box':
            boxes[cells[0]] = (float(cells[1]), float(cells[2]), cells[3])
        elif word == 'edge':
            edges.append(cells)
        elif word == 'note':
            notes.append(cells[0])
    check_stack(path, boxes, edges)
    wide, high, row_step = 150, 38, 82
    drawing = Drawing(1000, title)
    drawing.text(16, 24, title, 15, weight='bold')
    for upper, lower, *_ in edges:
        (x, row, _), (to_x, to_row, _) = boxes[upper], boxes[lower]
        drawing.line(x, 48 + row * row_step + high, to_x, 48 + to_row * row_step, '#777777')
    for name, (x, row, job) in boxes.items():
        y = 48 + row * row_step
        drawing.box(x - wide / 2, y, wide, high, '#eef3f8')
        drawing.text(x, y + 16, name, 13, 'middle', weight='bold')
        drawing.text(x, y + 31, job, 10, 'middle')
    for upper, lower, said, *down in edges:
        (x, row, _), (to_x, to_row, _) = boxes[upper], boxes[lower]
        top, bottom = 48 + row * row_step + high, 48 + to_row * row_step
        part = int(down[0]) / 100 if down else 0.5
        at_x, at_y = x + (to_x - x) * part, top + (bottom - top) * part
        half = 4 + 3.2 * len(said)
        drawing.box(at_x - half, at_y - 8, 2 * half, 16, '#fff3cf', '#bb9900')
        drawing.text(at_x, at_y + 4, said, 11, 'middle')
    y = drawing.height + 12
    for note in notes:
        drawing.text(16, y, note, 12)
        y += 18
    return drawing


# STATES

STATE_WIDTH, STATE_HEIGHT, COLUMN_STEP, ROW_STEP = 190, 54, 380, 130


def check_states(path, states, ways):
    for name in [end for way in ways for end in way[:2] if end not in states]:
        fault(path, f'no state {name}')
    reached, left = {way[1] for way in ways}, {way[0] for way in ways}
    for number, (name, state) in enumerate(states.items()):
        if number > 0 and name not in reached:
            fault(path, f'no way leads to {name}')
        if (name in left) == (state[3:] == ['end']):
            fault(path, f'{name} is an end with a way from it, or no end without one')
        if f'| {name} |' not in read('docs/PLAYERS.md'):
            fault(path, f'{name} has no row in docs/PLAYERS.md')


def border(x, y, across, down, off_x, off_y):
    """Where a line leaves the box of a state, of which it goes from a point beside the middle."""
    parts = [(side / 2 * (1 if way > 0 else -1) - off) / way
             for side, way, off in ((STATE_WIDTH, across, off_x), (STATE_HEIGHT, down, off_y))
             if abs(way) > 0.001]
    part = min(parts)
    return round(x + off_x + across * part, 1), round(y + off_y + down * part, 1)


def draw_way(drawing, begin, end, words, aside, along):
    """An arrow from a state to another, and its words."""
    across, down = end[0] - begin[0], end[1] - begin[1]
    long = (across ** 2 + down ** 2) ** 0.5
    over, up = -down / long, across / long
    x, y = border(*begin, across, down, over * aside, up * aside)
    to_x, to_y = border(*end, -across, -down, over * aside, up * aside)
    drawing.line(x, y, to_x, to_y, '#777777')
    back_x, back_y = to_x - up * 9, to_y + over * 9
    drawing.shapes.append(
        f'<polygon points="{to_x:g},{to_y:g} {back_x + over * 4:.1f},{back_y + up * 4:.1f} '
        f'{back_x - over * 4:.1f},{back_y - up * 4:.1f}" fill="#777777"/>')
    lines = words.split(' / ')
    wide = 8 + 6.1 * max(len(line) for line in lines)
    at_x, at_y = round(x + (to_x - x) * along, 1), round(y + (to_y - y) * along, 1)
    top = at_y - 7.5 * len(lines)
    drawing.box(round(at_x - wide / 2, 1), top, round(wide, 1), 15 * len(lines), PAPER, 'none')
    for number, line in enumerate(lines):
        drawing.text(at_x, top + 11.5 + 15 * number, line, 11, 'middle')


def draw_states(title, rows, path):
    states, ways, notes = {}, [], []
    for word, cells in rows:
        if word == 'state':
            states[cells[0]] = cells[1:]
        elif word == 'way':
            ways.append([shown(cell) for cell in cells])
        elif word == 'note':
            notes.append(cells[0])
    check_states(path, states, ways)
    middles = {name: (125 + COLUMN_STEP * float(column), 75 + ROW_STEP * float(row))
               for name, (column, row, *_) in states.items()}
    drawing = Drawing(round(max(x for x, _ in middles.values()) + 125), title)
    drawing.text(16, 24, title, 15, weight='bold')
    for begin, end, words, *more in ways:
        if begin in middles and end in middles:
            aside, along = [float(cell) for cell in more] + [0, 50][len(more):]
            draw_way(drawing, middles[begin], middles[end], words, aside, along / 100)
    for name, (x, y) in middles.items():
        color = '#f6e3b4' if states[name][3:] == ['end'] else '#eef3f8'
        drawing.box(x - STATE_WIDTH / 2, y - STATE_HEIGHT / 2, STATE_WIDTH, STATE_HEIGHT, color)
        drawing.text(x, y - 4, name, 13, 'middle', weight='bold')
        drawing.text(x, y + 14, shown(states[name][2]), 11, 'middle')
    y = drawing.height + 14
    for note in notes:
        drawing.text(16, y, note, 12)
        y += 18
    return drawing


KINDS = {'line': draw_line, 'blocks': draw_blocks, 'stack': draw_stack, 'states': draw_states}


def main():
    made = {}
    for path in sorted(glob.glob('docs/figures/*.txt')):
        rows = list(lines_of(path))
        head = {word: cells[0] for word, cells in rows[:2]}
        made[path[:-4] + '.svg'] = KINDS[head['kind']](head['title'], rows[2:], path).svg()
    for path, svg in made.items():
        if '--check' not in sys.argv:
            with open(path, 'w', encoding='utf-8') as file:
                file.write(svg)
        elif not os.path.exists(path) or read(path) != svg:
            fault(path, 'is not what checks/figures.py makes of its text')
    for path in glob.glob('docs/figures/*.svg'):
        if path not in made:
            fault(path, 'has no text')
    for line in faults:
        print(line)
    if faults:
        sys.exit(1)
    print(f'{len(made)} figures are as their texts say')


main()
