#!/usr/bin/env python3
"""Usage: checks/site.py [--full] [--tunes N] [--queries N] [--pictures FOLDER]

Makes sites by `./tunes-book site` over the programs that ./build made, or those that the variables
TUNES and TUNES_DESK name, and looks at them: in a headless Chromium, which types each kind of query
and takes pictures into FOLDER; by the links of all pages; by `tidy`; by the contrast of colours; by
queries of chance, of which the page's own search and `tunes-desk find` have to say the same; with
hostile titles and texts; with folders that may not be written over; with a stop at any moment; with
tools that fail. `--full` makes sites of 5,000 tunes, tells the times, and folds each letter of
Unicode. What needs a program that is not here is left out, and that is said. A line is printed for
each case, and the status is 1 where a case failed.
"""
import argparse
import contextlib
import html
import html.parser
import json
import os
import random
import re
import shutil
import signal
import subprocess
import sys
import tempfile
import time
import unicodedata
import xml.etree.ElementTree as ElementTree
from concurrent.futures import ThreadPoolExecutor
from urllib.parse import unquote

sys.dont_write_bytecode = True
ROOT = os.path.dirname(os.path.dirname(os.path.abspath(__file__)))
sys.path[:0] = [os.path.join(ROOT, name) for name in ('site', 'clients/python', 'examples')]
import made_tunes
from browser import Browser, find_browser

PROGRAM = os.path.abspath(os.environ.get('TUNES') or os.path.join(
    ROOT, 'crates', 'tunes', 'out', 'tunes'))
DESK = os.path.abspath(os.environ.get('TUNES_DESK') or os.path.join(
    ROOT, 'crates', 'tunes_desk', 'out', 'tunes_desk'))
SESSION = os.path.join(ROOT, 'examples', 'session.abc')
WORK = tempfile.mkdtemp()
ENVIRONMENT = {**os.environ, 'TUNES': PROGRAM, 'TUNES_DESK': DESK, 'LC_ALL': 'C'}
for name in 'TUNES_BOOK', 'TUNES_SITE', 'PYTHONPATH':
    ENVIRONMENT.pop(name, None)
failures = []


def case(title):
    """Runs a function as a case, which gives what is wrong, or nothing."""
    def run(check):
        try:
            wrong = check()
        except Exception as error:  # what breaks off is wrong, too
            wrong = f'{type(error).__name__}: {error}'
        print(f'FAILED  {title}: {wrong}' if wrong else f'ok      {title}', flush=True)
        if wrong:
            failures.append(title)
    return run


def skipped(title, why):
    print(f'skipped {title}: {why}', flush=True)


def book(*words, environment=None, status=0, **options):
    """Runs ./tunes-book, and gives what it says."""
    told = subprocess.run(['sh', os.path.join(ROOT, 'tunes-book'), *words],
                          env={**ENVIRONMENT, **(environment or {})}, capture_output=True,
                          check=False, **options)
    said = told.stderr.decode('utf-8', 'replace')
    if status is not None and told.returncode != status:
        raise AssertionError(f'{words} ends with {told.returncode}: {said[:400]}')
    return told.stdout.decode('utf-8', 'replace') + said


def archive_of(name, data):
    file = os.path.join(WORK, name + '.abcx')
    source = os.path.join(WORK, name + '.abc')
    with open(source, 'wb') as out:
        out.write(data)
    book('-f', file, 'new')
    book('-f', file, 'add', source)
    return file


def listed(file, *words):
    """What `tunes-desk` lists as JSON, or None where nothing is asked for."""
    told = subprocess.run([DESK, '-f', file, *words, '--json'], env=ENVIRONMENT,
                          capture_output=True, check=False)
    if told.returncode == 1:
        return None
    if told.returncode != 0:
        raise AssertionError(f'{words}: {told.stderr[:300]!r}')
    return json.loads(told.stdout)


def first_titles(file, count):
    """The first title of each tune, by the rows of set lists that have them all."""
    rows = []
    for first in range(1, count + 1, 100):
        numbers = range(first, min(first + 100, count + 1))
        book('-f', file, 'put', f'from-{first}', *map(str, numbers))
        rows += listed(file, 'set', f'from-{first}')
    return {row['number']: row['title'] for row in rows}


def site_of(file, name, *words, **options):
    folder = os.path.join(WORK, name)
    book('-f', file, 'site', folder, *words, **options)
    return folder


def snapshot(folder):
    """All that is in a folder: for each path what stands there."""
    found = {}
    for path, names, files in os.walk(folder):
        for each in names + files:
            whole = os.path.join(path, each)
            about = os.lstat(whole)
            found[os.path.relpath(whole, folder)] = (about.st_mode, about.st_size,
                                                     about.st_mtime_ns)
    return found


def label_of(data):
    """A text as a page shows it."""
    text = data.decode('utf-8', 'surrogateescape')
    text = re.sub('[\udc80-\udcff]', lambda each: chr(ord(each[0]) - 0xDC00), text)
    return re.sub('[\x00-\x1f\x7f-\x9f]', '\ufffd', text)


# PAGES AS TEXT

class Read(html.parser.HTMLParser):
    """The elements of a page: links, names, text by tag."""

    def __init__(self, path):
        super().__init__()
        self.links, self.ids, self.tags, self.faults = [], set(), [], []
        self.levels = []
        with open(path, encoding='utf-8') as file:
            self.feed(file.read())

    def handle_starttag(self, tag, attributes):
        given = dict(attributes)
        self.tags.append(tag)
        self.ids.update(filter(None, [given.get('id')]))
        self.links += [given[name] for name in ('href', 'src', 'srcset') if name in given]
        if tag == 'img' and not given.get('alt'):
            self.faults.append('a picture has no words')
        if any(name.startswith('on') or name == 'style' for name in given):
            self.faults.append(f'a tag {tag} has an attribute that it may not have')
        if re.fullmatch('h[1-6]', tag):
            self.levels.append(int(tag[1]))


def pages_in(folder):
    for path, _, files in sorted(os.walk(folder)):
        yield from (os.path.join(path, name) for name in sorted(files) if name.endswith('.html'))


def wrong_links(folder):
    """The first link of a page that leads nowhere, or out of the folder."""
    read = {page: Read(page) for page in pages_in(folder)}
    for page, found in read.items():
        where = os.path.relpath(page, folder)
        if found.faults:
            return f'{where}: {found.faults[0]}'
        steps = zip([0, *found.levels], found.levels)
        if found.levels.count(1) != 1 or any(after > before + 1 for before, after in steps):
            return f'{where}: its headings are {found.levels}'
        for link in found.links:
            target, _, name = link.partition('#')
            to = os.path.normpath(os.path.join(os.path.dirname(page), unquote(target))) \
                if target else page
            if ':' in link or not to.startswith(folder + os.sep) or not os.path.isfile(to):
                return f'{where}: the link {link} leads nowhere'
            if name and name not in read[to].ids:
                return f'{where}: the link {link} names no part'
    return None


def wrong_drawings(folder):
    """The first drawing that has something else than music."""
    local = '{http://www.w3.org/2000/svg}'
    known = set('svg style g defs use path circle ellipse rect line polyline polygon text '
                'tspan'.split())
    for kind in 'music', 'narrow':
        for name in sorted(os.listdir(os.path.join(folder, kind))):
            path = os.path.join(folder, kind, name)
            root = ElementTree.parse(path).getroot()
            for element in root.iter():
                if element.tag.replace(local, '') not in known:
                    return f'{kind}/{name} has {element.tag}'
                for key, value in element.attrib.items():
                    if key.lower().startswith('on') or 'url' in value or (
                            'href' in key and not value.startswith('#')):
                        return f'{kind}/{name} has {key}="{value}"'
    return None


# TIDY has these to say of what is meant.
TIDY_KNOWS = ('proprietary attribute "aria-current"',)


def tidied(page):
    told = subprocess.run(['tidy', '-q', '-e', '--doctype', 'html5', '--mute-id', 'yes', page],
                          capture_output=True, check=False, text=True)
    return [line for line in told.stderr.splitlines()
            if ('Warning' in line or 'Error' in line)
            and not any(known in line for known in TIDY_KNOWS)]


# QUERIES

def queries_of(chance, texts, count):
    """Queries of all kinds, from texts and of nonsense."""
    titles = [line[2:] for text in texts for line in text.split('\n') if line.startswith('T:')]
    rhythms = [line[2:] for text in texts for line in text.split('\n') if line.startswith('R:')]
    music = [text.split('K:')[1].split('\n')[1] for text in texts]
    odd = ['', ' ', '\t', '%', 'x', 'ß', 'SS', 'İ', 'ı', 'ﬁ', 'é', 'e\u0301', '\u0301', 'Σ', 'ς',
           '한',
           'ᄀ', 'The', 'the ', 'A', 'an', ', the', 'Kesh, The', 'ǆ', '\u212a', '\u017f', '𐐀', "'",
           '"',
           '<script>', '\\%', 'K:', '[K:D]', '\u00a0', '\u3000', '\ufeff', 'É', 'þ', 'Ω', '\u2126']
    keys = ['G', 'Gmaj', 'g', 'G#', 'Em', 'E minor', 'Edor', 'EDORIAN', 'D mix', 'DmIxxx', 'none',
            'HP',
            'Hp', 'F#m', 'Bb', 'Cb', 'C#', 'G treble ^f', 'Gm=d', 'G m=d', 'Gmin=c', 'Aaeo', 'AM',
            'A M',
            ' G', 'G ', 'Db lyd', 'exp', 'C exp ^f', 'H', '', ' ', 'Gmin^c', 'D Phr ^f', 'E\tdor']
    notes = ['GABc', 'G', 'GA', '=F^F', "c'c", 'C,,,C', '[GBd]A', '"G"GA', '!roll!GA', '{g}GA',
             '(3GAB',
             'G%A', 'G\\%A', '|:GA:|', '[K:Em]GA', 'G[K:', '[M:3/4]GA', '+x+GA', '[1GA',
             '__B_B=B^B^^B',
             'z4', "^g''''C,,,,,", 'zGzA', '~G3 A', 'G"A', '[GA', 'xyzG', 'ÉGA', '\u0301GA',
             '^G|G', ']GA',
             'G]A', '_b|b']

    def cut(text):
        begin = chance.choice((0, 0, chance.randint(0, len(text))))
        return text[begin:chance.randint(begin, len(text))]

    def turned(text):
        turn = chance.choice((str, str, str.upper, str.lower, str.swapcase,
                              lambda each: unicodedata.normalize('NFD', each)))
        return turn(text)

    def title():
        return turned(cut(chance.choice(titles))) if chance.random() < 0.8 else chance.choice(odd)

    def tune():
        if chance.random() < 0.3:
            return chance.choice(notes)
        line = chance.choice(music)
        return line[:chance.randint(2, 16)]

    makers = {
        'title': title, 'within': lambda: (' '.join(title() for _ in range(chance.randint(1, 2)))
                                           ).split(' ') or [''],
        'rhythm': lambda: turned(chance.choice(rhythms + odd)), 'key': lambda: chance.choice(keys),
        'notes': tune}
    for number in range(count):
        kinds = [list(makers)[number % 5]]
        if chance.random() < 0.25:
            kinds += [kind for kind in makers if chance.random() < 0.3 and kind not in kinds]
        if {'title', 'within'} <= set(kinds):
            # Words that are no option are one of these.
            kinds.remove(chance.choice(('title', 'within')))
        sought = {kind: makers[kind]() for kind in kinds}
        if 'notes' in sought and chance.random() < 0.4:
            sought['in'] = chance.choice(keys)
        if any('\0' in str(value) for value in sought.values()):
            continue
        yield sought


def words_of(sought):
    """The words of `tunes-desk find` for a query; words of a title are behind --."""
    words = [f'--{kind}={sought[kind]}' for kind in ('title', 'rhythm', 'key', 'notes', 'in')
             if kind in sought]
    return ['find', *words, *(['--within', '--', *sought['within']] if 'within' in sought else [])]


def as_found(file, sought):
    words = words_of(sought)
    at = words.index('--') if '--' in words else len(words)
    told = subprocess.run([DESK, '-f', file, *words[:at], '--json', *words[at:]], env=ENVIRONMENT,
                          capture_output=True, check=False)
    if told.returncode == 0:
        rows = json.loads(told.stdout)
        return [row['number'] for row in rows]
    if told.returncode in (1, 2):
        return None
    raise AssertionError(f'{words}: {told.stderr[:300]!r}')


ASK_PAGE = '''
(() => {
    const tunes = tunesFind.opened(tunesIndex);
    return QUERIES.map(sought => {
        const places = tunesFind.find(tunes, sought);
        return places && places.map(place => tunes.numbers[place]);
    });
})()
'''


def by_node(folder, sought):
    with open(os.path.join(WORK, 'ask.js'), 'w', encoding='utf-8') as file:
        for name in 'find.js', 'tunes.js':
            with open(os.path.join(folder, name), encoding='utf-8') as part:
                file.write(part.read().replace('"use strict";', ''))
        file.write('console.log(JSON.stringify('
                   + ASK_PAGE.strip().replace('QUERIES', json.dumps(sought)) + '))')
    told = subprocess.run(['node', os.path.join(WORK, 'ask.js')], capture_output=True, check=True)
    return json.loads(told.stdout)


def compared(file, folder, texts, count, ask):
    """What the page's search says otherwise than the program, of queries of chance."""
    sought = list(queries_of(random.Random(count), texts, count))
    with ThreadPoolExecutor(os.cpu_count()) as pool:
        wanted = list(pool.map(lambda each: as_found(file, each), sought))
    for query, want, have in zip(sought, wanted, ask(folder, sought)):
        if want != have:
            return f'{query} finds {str(have)[:80]} in the page, and {str(want)[:80]} by find'
    kinds = sum(1 for want in wanted if want), sum(1 for want in wanted if want is None)
    if kinds[0] < count // 5 or kinds[1] < count // 40:
        return f'of {count} queries {kinds[0]} find something, and {kinds[1]} ask for nothing'
    return None


# CASES OF ONE SITE

def check_session(options, browser):
    file = archive_of('session', open(SESSION, 'rb').read())
    for words in ('put friday 3 1 5', 'put Friday 2 1', 'put empty 4', 'cut empty 1'):
        book('-f', file, *words.split())

    @case('a site of a book of fifteen tunes')
    def _():
        told = book('-f', file, 'site', os.path.join(WORK, 'session'))
        if '15 tunes, 3 set lists; 15 tunes drawn' not in told:
            return told
        folder = os.path.join(WORK, 'session')
        for number in range(1, 16):
            text = book('-f', file, 'show', str(number))
            with open(os.path.join(folder, 'abc', f'{number}.abc')) as given:
                if given.read() != text:
                    return f'the book of tune {number} is another'
        return wrong_links(folder) or wrong_drawings(folder)

    folder = os.path.join(WORK, 'session')

    @case('what did not change is not drawn again')
    def _():
        before = os.stat(os.path.join(folder, 'music', '2.svg'))
        told = book('-f', file, 'site', folder)
        if '; 0 tunes drawn' not in told:
            return told
        book('-f', file, 'edit', '4', environment={'EDITOR': "sed -i '$ a W:new'"},
             cwd=WORK)
        told = book('-f', file, 'site', folder)
        after = os.stat(os.path.join(folder, 'music', '2.svg'))
        if '; 1 tune drawn' not in told or before.st_ino != after.st_ino:
            return told
        if 'W:new' not in open(os.path.join(folder, 'tune', '4.html')).read():
            return 'the page of tune 4 is the old one'
        if sorted(name for name in os.listdir(WORK) if name.startswith('session.')) != [
                'session.abc', 'session.abcx', 'session.abcx.old.abc']:
            return f'there is more beside it: {os.listdir(WORK)}'
        return wrong_links(folder)

    @case('a site of a set list')
    def _():
        told = book('-f', file, 'site', os.path.join(WORK, 'one'), 'friday')
        names = sorted(os.listdir(os.path.join(WORK, 'one', 'tune')))
        if '3 tunes, 1 set list; 3 tunes drawn' not in told or \
                names != ['1.html', '3.html', '5.html']:
            return f'{told} {names}'
        return wrong_links(os.path.join(WORK, 'one'))

    if shutil.which('tidy'):
        @case('what tidy says of the HTML')
        def _():
            names = ['index', 'rhythms', 'keys', 'sets', 'set-friday', 'set-empty', 'tune/1',
                     'tune/5']
            for name in names:
                told = tidied(os.path.join(folder, name + '.html'))
                if told:
                    return f'{name}.html: {told[0]}'
            return None
    else:
        skipped('what tidy says of the HTML', 'there is no tidy here')
    if browser:
        check_in_browser(options, browser, file, folder)
    return file, folder


SHOWN = 'Array.from(document.querySelectorAll(SELECTOR), each => each.textContent)'
FOUND = '''Array.from(document.querySelectorAll("#results a"),
    each => Number(each.dataset.number))'''
SET = '''
(() => {
    for (const [id, value] of Object.entries(VALUES)) document.getElementById(id).value = value;
    document.getElementById("search").dispatchEvent(new Event("input", {bubbles: true}));
})()
'''


def texts(browser, selector):
    return browser.run(SHOWN.replace('SELECTOR', json.dumps(selector)))


def address(folder, name):
    return f'file://{folder}/{name}.html'


def fill(browser, **values):
    fields = {'title': '', 'where': 'within', 'rhythm': '', 'key': '', 'notes': '', 'in': ''}
    browser.run(SET.replace('VALUES', json.dumps({**fields, **values})))
    return browser.run(FOUND)


def check_in_browser(options, browser, file, folder):
    @case('lists in the browser are those of the program')
    def _():
        browser.show(address(folder, 'index'))
        wanted = [label_of((row['title'] or '').encode()) for row in listed(file, 'titles')]
        if texts(browser, '.part .tunes a') != wanted:
            return f'titles are {texts(browser, ".part .tunes a")[:5]}'
        for name, kind in ('rhythms', 'rhythm'), ('keys', 'key'):
            browser.show(address(folder, name))
            for head in texts(browser, '.part h2'):
                rows = browser.run('''Array.from(Array.from(document.querySelectorAll(".part"))
                    .find(part => part.querySelector("h2").textContent === %s)
                    .querySelectorAll("a"), each => Number(/(\\d+)\\.html$/.exec(each.href)[1]))'''
                                   % json.dumps(head))
                asked = head.replace('♯', '#').replace('♭', 'b')
                if sorted(rows) != [row['number'] for row in listed(file, 'find', kind, asked)]:
                    return f'{name}: {head} has {rows}'
        browser.show(address(folder, 'sets'))
        sets = listed(file, 'sets')
        if texts(browser, '.tunes a') != [row['name'] for row in sets]:
            return 'the set lists are others'
        for row in sets:
            link = browser.run(f'''Array.from(document.querySelectorAll(".tunes a")).find(
                each => each.textContent === {json.dumps(row["name"])}).href''')
            browser.show(link)
            wanted = [f"{place['place']}. {place['title']}" for place in listed(file, 'set',
                                                                                row['name'])]
            if texts(browser, '.place h2') != wanted:
                return f'the set list {row["name"]} is {texts(browser, ".place h2")}'
            browser.show(address(folder, 'sets'))
        return None

    @case('queries that are typed and clicked')
    def _():
        browser.show(address(folder, 'index'))
        for values in ({'title': 'stairs'}, {'title': 'the kesh', 'where': 'title'},
                       {'title': 'JIG the'}, {'rhythm': 'Jig'}, {'key': 'Edor'}, {'key': 'e dor'},
                       {'notes': 'FAA GBB'}, {'notes': 'FAA GBB', 'in': 'D'}, {'notes': 'G'},
                       {'rhythm': 'jig', 'key': 'G', 'notes': 'G2GA'}, {'title': 'nothing so'}):
            sought = {kind: value for kind,
                      value in values.items() if kind not in ('where', 'title')}
            if 'title' in values:
                words = values['title']
                sought['title' if 'where' in values else 'within'] = \
                    words if 'where' in values else words.split()
            have, want = fill(browser, **values), as_found(file, sought)
            if have != (want or []):
                return f'{values} finds {have} in place of {want}'
            told = browser.run('document.getElementById("told").textContent')
            if (want is None) != ('asked' in told or 'written' in told):
                return f'{values} says {told}'
        fill(browser)
        browser.run('''for (const note of ["F", "A", "A", "G", "B", "B"]) {
            Array.from(document.querySelectorAll(".notes button"))
                .find(each => each.ariaLabel === "Note " + note).click(); }''')
        if browser.run('document.getElementById("notes").value') != 'FAAGBB' or \
                browser.run(FOUND) != as_found(file, {'notes': 'FAAGBB'}):
            return f'clicks find {browser.run(FOUND)}'
        return browser.complaints()

    @case('the pages by the keyboard')
    def _():
        browser.show(address(folder, 'index'))
        browser.key('Tab', 9)
        if browser.run('document.activeElement.className') != 'skip':
            return 'the first stop is no link to the contents'
        browser.run('document.getElementById("title").focus()')
        browser.type('kesh')
        if browser.run(FOUND) != [1]:
            return 'what is typed finds nothing'
        seen = set()
        for _ in range(60):
            browser.key('Tab', 9)
            seen.add(browser.run('(e => e.id || e.ariaLabel || e.tagName)(document.activeElement)'))
            outline = browser.run('getComputedStyle(document.activeElement).outlineStyle')
            if outline == 'none' and browser.run('document.activeElement !== document.body'):
                return f'what has the focus is not to be seen: {seen}'
        wanted = {'where', 'rhythm', 'key', 'notes', 'in', 'Note D', 'Note g', 'Bar', 'A'}
        if wanted - seen:
            return f'these are not reached: {wanted - seen}'
        names = browser.run('''Array.from(document.querySelectorAll("input, select, button"),
            e => e.labels?.length || e.ariaLabel || e.textContent.trim()).every(Boolean)''')
        return None if names else 'a field has no name'

    @case('what a page asks for is its own, and each file is used')
    def _():
        for name in 'index', 'rhythms', 'tune/1', 'set-friday':
            browser.show(address(folder, name))
            for each in browser.asked():
                # The browser draws its own marks from data.
                if not each.startswith((f'file://{folder}/', 'data:')):
                    return f'{name} asks for {each}'
            if browser.complaints():
                return f'{name}: {browser.complaints()[0]}'
            broken = browser.run('''Array.from(document.images).filter(each => !each.naturalWidth)
                .length''')
            if broken:
                return f'{name}: {broken} pictures are not shown'
            wide = browser.run('document.documentElement.scrollWidth - innerWidth')
            if wide > 0:
                return f'{name} is too wide'
        return None

    @case('contrast of colours, in both schemes')
    def _():
        for scheme in 'light', 'dark':
            browser.scheme(scheme)
            for name in 'index', 'tune/1', 'set-friday':
                browser.show(address(folder, name))
                if name == 'index':
                    fill(browser, title='e')
                low = browser.run(CONTRAST)
                if low:
                    return f'{scheme}, {name}: {low[0]}'
        browser.scheme('light')
        return None

    @case('at the width of a telephone nothing is cut')
    def _():
        browser.size(320, 640, True)
        try:
            for name in 'index', 'rhythms', 'tune/1', 'set-friday', 'sets':
                browser.show(address(folder, name))
                if browser.run('document.documentElement.scrollWidth') > 320:
                    return f'{name} is {browser.run("document.documentElement.scrollWidth")} wide'
                small = browser.run('''Array.from(
                    document.querySelectorAll("input, button, select"),
                    e => e.getBoundingClientRect()).filter(
                        r => r.width && (r.width < 24 || r.height < 24)).length''')
                if small:
                    return f'{name}: {small} fields are too small'
        finally:
            browser.size(1200, 900)
        return None

    if options.pictures:
        take_pictures(browser, folder, options.pictures)


# The texts and edges of fields whose contrast is below that of WCAG 2.2, AA: 4.5, or 3 for large
# letters and for edges; a drawing is black, or what its filter makes of that.
CONTRAST = r'''
(() => {
    const colour = text => (/rgba?\(([^)]*)\)/.exec(text)?.[1] ?? "0,0,0,0").split(/[, /]+/)
        .map(Number);
    const light = ([r, g, b]) => [r, g, b].map(v => v / 255)
        .map(v => v <= 0.04045 ? v / 12.92 : ((v + 0.055) / 1.055) ** 2.4)
        .reduce((sum, v, at) => sum + v * [0.2126, 0.7152, 0.0722][at], 0);
    const ratio = (a, b) => {
        const [x, y] = [light(a), light(b)].sort((p, q) => q - p);
        return (x + 0.05) / (y + 0.05);
    };
    const behind = element => {
        for (let each = element; each; each = each.parentElement) {
            const found = colour(getComputedStyle(each).backgroundColor);
            if (found[3] === undefined || found[3] === 1) return found;
        }
        return [255, 255, 255];
    };
    const low = [];
    for (const element of document.querySelectorAll("body *")) {
        const style = getComputedStyle(element);
        if (!element.getClientRects().length) continue;
        const own = Array.from(element.childNodes).some(
            each => each.nodeType === 3 && each.textContent.trim());
        const size = parseFloat(style.fontSize);
        const wanted = size >= 24 || (size >= 18.66 && Number(style.fontWeight) >= 700) ? 3 : 4.5;
        const kinds = own ? [[style.color, wanted]] : [];
        if (element.matches("input")) {
            kinds.push([getComputedStyle(element, "::placeholder").color, 4.5]);
        }
        if (element.matches("input, select")) kinds.push([style.borderTopColor, 3]);
        for (const [ink, least] of kinds) {
            const have = ratio(colour(ink), behind(element));
            if (have < least) low.push(`${element.tagName} ${element.className}: ${have}`);
        }
        if (element.matches("img.music")) {
            const turned = /invert\(([\d.]+)\)/.exec(style.filter);
            const ink = turned ? 255 * Number(turned[1]) : 0;
            const have = ratio([ink, ink, ink], behind(element));
            if (have < 7) low.push(`music: ${have}`);
        }
    }
    return low;
})()
'''


def take_pictures(browser, folder, to):
    os.makedirs(to, exist_ok=True)
    for name in 'index', 'rhythms', 'keys', 'sets', 'tune/1', 'set-friday':
        for width, height in (360, 780), (800, 1000), (1280, 900):
            for scheme in 'light', 'dark':
                browser.size(width, height, width < 500, 2 if width < 500 else 1)
                browser.scheme(scheme)
                browser.show(address(folder, name))
                file = f'{name.replace("/", "-")}-{width}-{scheme}.png'
                browser.picture(os.path.join(to, file))
        browser.paper(os.path.join(to, f'{name.replace("/", "-")}.pdf'))
    browser.size(1200, 900)
    browser.scheme('light')


# HOSTILE TEXTS

NASTY = (
    '<script>alert(1)</script>', '</title><script>alert(1)</script>',
    '"><img src=x onerror=alert(1)>',
    "' onmouseover='alert(1)", '&lt;b&gt; &amp; &#60;', '<!-- x', '-->', '<![CDATA[x]]>',
    '</pre></code>',
    '</main></body></html>', '<style>*{display:none}</style>', '<base href="http://127.0.0.1/">',
    '<meta http-equiv="refresh" content="0;url=http://127.0.0.1/">',
    '<a href="javascript:alert(1)">x</a>',
    '<iframe src="file:///etc/passwd">', '<svg onload=alert(1)>',
    '<svg><script>alert(1)</script></svg>',
    '$title ${body} $$ %s {0}', '`${alert(1)}`', '\\u003cscript\\u003e', '\\"\\\\',
    '*/ alert(1) /*',
    '\u202eevil\u202c', '\u2028line\u2029', '\u0085next', '\x00nul', '\x1b[31mred', 'tab\there',
    '\ufeffmark', '\ud7ff', '\U0001f3bb fiddle', 'e\u0301\u0301\u0301', 'x' * 300, 'مرحبا',
    '<' * 50,
    '../../etc/passwd', 'CON', 'a%2e%2e', '#part-0', '?x=1', '&num;', '\u200b', '=cmd|x', '𝕋𝕖𝕤𝕥',
    '\x7f')
LATIN = (b'Caf\xe9', b'\xff\xfe', b'\xc3\x28', b'\xe2\x82', b'Stra\xdfe \xc3\xa9', b'\xed\xa0\x80',
         b'\xf0\x9f')
# What may make a program read a file, or write something else than music.
SECRET = os.path.join(WORK, 'secret')
COMMANDS = (
    f'%%abc-include {SECRET}', f'I:abc-include {SECRET}', f'[I:abc-include {SECRET}]',
    f'[I: abc-include {SECRET} ]', f'%%format {SECRET}', f'I:format {SECRET}', f'%%EPS {SECRET}',
    f'%%beginsvg\n<script xmlns="http://www.w3.org/1999/xhtml">alert(1)</script>\n%%endsvg',
    f'%%beginps\n/x ({SECRET}) (r) file def\n%%endps', f'%%postscript ({SECRET}) run',
    f'%%ps ({SECRET}) run', f'%%svg <script>alert(1)</script>',
    '%%titlefont "><script>alert(1)</script> 20', '%%textfont url(http://127.0.0.1/x) 20',
    '%%text <script>alert(1)</script>', '%%begintext\n<script>x</script>\n%%endtext',
    '%%header "<script>alert(1)</script>"', '%%bgcolor url(http://127.0.0.1/)',
    'm: n = [I:abc-include x]', f'm: q = [I\nm: p = :abc-include {SECRET}]', 'U: W = "<script>"',
    '%%deco x 6 pf 0 0 0 <script>', '%%musicfont http://127.0.0.1/x', '%%scale 0.0001',
    '%%pagewidth 1pt',
    '%%newpage', '%%multicol start', '%%tune 1', '%%select 2', '%%voice 1', '%%abcm2ps x',
    '%%glyph x',
    f'%% abc-include {SECRET}', f'%%\tabc-include {SECRET}', f'I:\tabc-include {SECRET}',
    f'%%ABC-INCLUDE {SECRET}', '%%MIDI program 1 <script>', f'%%MIDI include {SECRET}',
    'V:1 name="<script>alert(1)</script>" clef=url(x)', 'Q:"<script>"1/4=120',
    'w: <script> &lt; " \'',
    'W: <a href="javascript:x">', 'P: <b>', '"<script>alert(1)</script>"G "^&<>"A', '!"><x>!G')


def hostile_book():
    """Texts of 200 tunes and more, as bytes."""
    bodies = []
    for word in [each.encode('utf-8', 'surrogatepass') for each in NASTY] + list(LATIN):
        bodies.append(b'T:%b\nK:G\nGABc|\n' % word)
        bodies.append(b'T:x\nR:%b\nC:%b\nO:%b\nM:%b\nK:G\nGABc|\n' % ((word,) * 4))
        bodies.append(b'T:y\nT:second %b\nK:%b\nGABc|%b\n' % (word, word, word))
    for command in COMMANDS:
        bodies.append(b'T:header\n%b\nK:G\nGABc|dedB|\n' % command.encode())
        bodies.append(b'T:body\nK:G\nGABc|\n%b\nnqp|dedB|\n' % command.encode())
    return bodies


def check_hostile(browser):
    with open(SECRET, 'w', encoding='ascii') as out:
        out.write('X:1\nT:SECRETWORD\nK:G\nSECRETWORD\n')
    bodies = hostile_book()
    file = archive_of('hostile', b''.join(b'X:1\n%b\n' % body for body in bodies))
    book('-f', file, 'put', 'nasty', *map(str, range(1, 60)))
    folder = os.path.join(WORK, 'hostile')

    @case(f'{len(bodies)} hostile tunes are drawn, or say why not, and read no file')
    def _():
        watched = shutil.which('strace') is not None
        log = os.path.join(WORK, 'strace')
        words = ['-f', file, 'site', folder]
        if watched:
            told = subprocess.run(
                ['strace', '-f', '-qq', '-e', 'trace=openat,open,connect', '-e', 'signal=none',
                 '-o', log,
                 'sh', os.path.join(ROOT, 'tunes-book'), *words], env=ENVIRONMENT,
                capture_output=True, check=False)
            if told.returncode:
                return told.stderr.decode('utf-8', 'replace')[-300:]
            with open(log, encoding='utf-8', errors='replace') as opened:
                for line in opened:
                    if 'secret' in line:
                        return f'a file is read: {line.strip()}'
        else:
            book(*words)
        for path, _, names in os.walk(folder):
            for name in names:
                if path.endswith(('music', 'narrow', 'sound')):
                    with open(os.path.join(path, name), 'rb') as given:
                        if b'SECRETWORD' in given.read():
                            return f'{name} has what stands in a file'
        drawn = len(os.listdir(os.path.join(folder, 'music')))
        if drawn < 0.8 * len(bodies):
            return f'only {drawn} are drawn'
        return wrong_links(folder) or wrong_drawings(folder)

    if shutil.which('tidy'):
        @case('what tidy says of hostile pages')
        def _():
            for name in ['index', 'rhythms', 'set-nasty', *(f'tune/{n}' for n in range(1, 160, 7))]:
                told = tidied(os.path.join(folder, name + '.html'))
                if told:
                    return f'{name}.html: {told[0]}'
            return None
    if not browser:
        return

    @case('hostile titles, names and texts show as themselves')
    def _():
        known = set('A ARTICLE BODY BUTTON CODE DETAILS H1 H2 HEADER IMG LI '
                    'MAIN NAV P PICTURE '
                    'PRE SCRIPT SOURCE SUMMARY UL SMALL'.split())
        rows = first_titles(file, len(bodies))
        for number, body in enumerate(bodies, 1):
            browser.show(address(folder, f'tune/{number}'))
            told = browser.run('''({h1: document.querySelector("h1").textContent,
                pre: document.querySelector("pre").textContent,
                tags: Array.from(new Set(
                    Array.from(document.body.querySelectorAll("*"), e => e.tagName))),
                scripts: document.scripts.length})''')
            title = rows[number]
            want = label_of(title.encode()) if title else f'Tune {number}'
            text = '\n'.join('\t'.join(map(label_of,
                                           line.split(b'\t'))) for line in body.split(b'\n'))
            if told['h1'] != want or told['pre'] != f'X:{number}\n{text}':
                return f'tune {number} shows {told["h1"]!r} {told["pre"]!r}, not {want!r} {text!r}'
            if set(told['tags']) - known or told['scripts'] != 1:
                return f'tune {number} has {set(told["tags"]) - known}'
            if browser.complaints():
                return f'tune {number}: {browser.complaints()[0]}'
            for each in browser.asked():
                if not each.startswith(f'file://{folder}/'):
                    return f'tune {number} asks for {each}'
        browser.show(address(folder, 'index'))
        wanted = [label_of(row['title'].encode()) for row in listed(file, 'titles')]
        if texts(browser, '.part .tunes a') != wanted:
            return 'the titles are others'
        if fill(browser, title='script') != as_found(file, {'within': ['script']}):
            return 'the search for "script" finds others'
        want = [label_of((rows[number] or f'Tune {number}').encode())
                for number in browser.run(FOUND)]
        return None if texts(browser, '#results a') == want else 'results show other titles'



# TOOLS THAT FAIL

def fake_tools(name, abcm2ps):
    """A folder with a program abcm2ps of these lines of shell, to be put before PATH."""
    folder = os.path.join(WORK, name)
    os.makedirs(folder, exist_ok=True)
    with open(os.path.join(folder, 'abcm2ps'), 'w', encoding='utf-8') as out:
        out.write(f'#!/bin/sh\nreal={shutil.which("abcm2ps")}\n{abcm2ps}\n')
    os.chmod(os.path.join(folder, 'abcm2ps'), 0o755)
    return {'PATH': folder + os.pathsep + os.environ['PATH']}


def only(*names):
    """A PATH with these programs alone."""
    folder = tempfile.mkdtemp(dir=WORK)
    for name in names:
        os.symlink(shutil.which(name), os.path.join(folder, name))
    return {'PATH': folder}


PLAIN_TOOLS = ('sh awk cat chmod cksum cmp dd grep head ln ls mkfifo mktemp mv od rm sed sync '
               'tail tee tr '
               'wc env readlink').split()


def check_tools():
    file = archive_of('tools', b''.join(
        b'X:1\nT:%b\nK:G\nGABc|%b\n\n' % (word, word) for word in (b'one', b'SPIN', b'three',
                                                                   b'DIE', b'five',
                                                                b'HTML', b'CUT')))

    @case('one bad tune spoils no other, and the reason is told')
    def _():
        tools = fake_tools('bad tools', '''for last; do :; done
case $1 in -V) exec $real -V ;; esac
grep -q SPIN music.abc && while :; do :; done
grep -q DIE music.abc && kill -s SEGV $$
$real "$@" > made; status=$?
grep -q HTML music.abc && sed 's|</svg>|<script>alert(1)</script></svg>|' made && exit
grep -q CUT music.abc && head -c 900 made && exit
cat made; exit $status''')
        begun = time.monotonic()
        told = book('-f', file, 'site', os.path.join(WORK, 'tools'), environment=tools)
        for number, good in enumerate((True, False, True, False, True, False, False), 1):
            with open(os.path.join(WORK, 'tools', 'tune', f'{number}.html'),
                      encoding='utf-8') as page:
                if ('not drawn' in page.read()) == good or (f'tune {number} has' in told) == good:
                    return f'tune {number}: {told}'
        if time.monotonic() - begun > 120:
            return 'it took too long'
        told = book('-f', file, 'site', os.path.join(WORK, 'tools'))
        return None if '; 4 tunes drawn' in told and 'text alone' not in told else told

    @case('programs that are missing')
    def _():
        there = [name for name in PLAIN_TOOLS if shutil.which(name)]
        dirs = os.path.join(WORK, 'missing')
        for names, word in ((there, 'python3'), (there + ['python3'], 'abcm2ps')):
            told = book('-f', file, 'site', dirs, environment=only(*names), status=4)
            if word not in told or os.path.exists(dirs):
                return told
        alone = tempfile.mkdtemp(dir=WORK)
        shutil.copy(os.path.join(ROOT, 'tunes-book'), alone)
        told = subprocess.run(['sh', os.path.join(alone, 'tunes-book'), '-f', file, 'site', dirs],
                              env={**ENVIRONMENT, **only(*there, 'python3')}, capture_output=True,
                              check=False)
        if told.returncode != 4 or b'tunes-site' not in told.stderr:
            return f'{told.returncode} {told.stderr!r}'
        shutil.copy(os.path.join(ROOT, 'tunes-site'), alone)
        told = subprocess.run([os.path.join(alone, 'tunes-site'), '-f', file, dirs],
                              env=ENVIRONMENT,
                              capture_output=True, check=False)
        if told.returncode != 4 or b'is not found' not in told.stderr:
            return f'{told.returncode} {told.stderr!r}'
        book('-f', file, 'site', dirs, environment=only(*there, 'python3', 'abcm2ps'))
        if os.listdir(os.path.join(dirs, 'sound')) or 'MIDI' in open(
                os.path.join(dirs, 'tune', '1.html')).read():
            return 'there is a sound without abc2midi'
        return wrong_links(dirs)


# THE FOLDER

def whole(folder):
    """What is wrong with a site as a whole, by the sums that it keeps."""
    import hashlib
    with open(os.path.join(folder, 'made-by-tunes-site.txt'), 'rb') as mark:
        first, _, told = mark.read().partition(b'\n')
    state = json.loads(told)
    for name, wanted in state['pages'].items():
        with open(os.path.join(folder, name), 'rb') as page:
            # The sum of what a page of a tune is made of stands before that of the page.
            if hashlib.blake2b(page.read(), digest_size=12).hexdigest() != wanted.split()[-1]:
                return f'{name} is another'
    for number, drawn in state['tunes'].items():
        with open(os.path.join(folder, 'abc', number + '.abc'), encoding='utf-8') as given, \
                open(os.path.join(folder, 'tune', number + '.html'), encoding='utf-8') as page:
            if html.escape(given.read()) not in page.read():
                return f'the book of {number} is not the text of its page'
        if 'fault' not in drawn and not os.path.getsize(os.path.join(folder, 'music',
                                                                     number + '.svg')):
            return f'the drawing of {number} is empty'
    return None if first == b'tunes-site 1' else 'its mark is another'


def check_folders(file):
    @case('what the command did not make stays as it is')
    def _():
        place = os.path.join(WORK, 'refused')
        os.makedirs(os.path.join(place, 'foreign'))
        for name in ('foreign/mine', 'file'):
            with open(os.path.join(place, name), 'w', encoding='ascii') as out:
                out.write('mine')
        site = site_of(file, 'refused/own')
        for inner in 'notes.txt', 'tune/mine.html', 'music/link.svg':
            other = site_of(file, f'refused/{inner.split("/")[-1]}')
            with open(os.path.join(other, inner), 'w', encoding='ascii') as out:
                out.write('mine')
        os.symlink(site, os.path.join(place, 'link'))
        os.symlink('nowhere', os.path.join(place, 'broken'))
        before_new = site_of(file, 'refused/before')
        os.makedirs(before_new + '.new')
        with open(os.path.join(before_new + '.new', 'mine'), 'w', encoding='ascii') as out:
            out.write('mine')
        marked = os.path.join(place, 'marked')
        os.makedirs(marked)
        with open(os.path.join(marked, 'made-by-tunes-site.txt'), 'w', encoding='ascii') as out:
            out.write('tunes-site 9\n')
        before = snapshot(place)
        for name in ('foreign', 'file', 'notes.txt', 'mine.html', 'link.svg', 'link', 'broken',
                     'before',
                     'marked', 'foreign/.', 'foreign/..', 'own/'):
            status = 0 if name == 'own/' else 2
            book('-f', file, 'site', os.path.join(place, name), status=status)
            if status == 2 and snapshot(place) != before:
                return f'{name} was changed'
        for words in ((), ('a', 'b', 'c'), ('',), ('x', 'no name')):
            book('-f', file, 'site', *words, status=2)
        book('-f', file, 'site', os.path.join(place, 'none', 'x'), status=1)
        book('-f', file, 'site', os.path.join(place, 'new'), 'no-such', status=1)
        book('-f', os.path.join(place, 'file'), 'site', os.path.join(place, 'new'), status=3)
        return 'a folder stays' if os.path.exists(os.path.join(place, 'new')) else None

    @case('a stop at any moment leaves the old site or the new one')
    def _():
        chance = random.Random(1)
        folder = os.path.join(WORK, 'stopped')
        begun = time.monotonic()
        book('-f', file, 'site', folder)
        took = time.monotonic() - begun
        seen = set()
        for turn in range(10):
            book('-f', file, 'edit', '2', environment={'EDITOR': f'sed -i s/^T:.*/T:Turn{turn}/'},
                 cwd=WORK)
            run = subprocess.Popen(['sh', os.path.join(ROOT, 'tunes-book'), '-f', file, 'site',
                                    folder],
                                   env=ENVIRONMENT, stdout=subprocess.DEVNULL,
                                   stderr=subprocess.DEVNULL,
                                   start_new_session=True)
            time.sleep(chance.uniform(0.2, 1.1) * took)
            number = chance.choice((signal.SIGKILL, signal.SIGTERM, signal.SIGINT))
            with contextlib.suppress(ProcessLookupError):
                os.killpg(run.pid, number)
            run.wait()
            there = folder if os.path.isdir(folder) else folder + '.old'
            wrong = whole(there)
            if wrong:
                return f'turn {turn}: {wrong}'
            with open(os.path.join(there, 'tune', '2.html'), encoding='utf-8') as page:
                seen.add(f'Turn{turn}' in page.read())
            if number != signal.SIGKILL and run.returncode not in (0, -number):
                return f'turn {turn}: the status is {run.returncode}'
        book('-f', file, 'site', folder)
        beside = [name for name in os.listdir(WORK) if name.startswith('stopped.')]
        if beside:
            return f'{beside} stays'
        return whole(folder) or (None if seen == {True, False} else f'all turns were {seen}')

    @case('two runs at once')
    def _():
        folder = os.path.join(WORK, 'twice')
        runs = [subprocess.Popen(['sh', os.path.join(ROOT, 'tunes-book'), '-f', file, 'site',
                                  folder],
                                 env=ENVIRONMENT, stdout=subprocess.DEVNULL, stderr=subprocess.PIPE)
                for _ in range(3)]
        status = sorted((run.communicate()[1], run.returncode)[1] for run in runs)
        if status[0] != 0 or set(status) - {0, 1}:
            return f'they end with {status}'
        book('-f', file, 'site', folder)
        return whole(folder)


# MANY TUNES

def check_queries(options, browser, made, file, folder):
    ask = by_node if shutil.which('node') else None
    if ask is None and browser:
        def ask(where, sought):
            browser.show(address(where, 'index'))
            return browser.run(ASK_PAGE.replace('QUERIES', json.dumps(sought)))
    if ask is None:
        skipped('queries of chance', 'there is neither node nor a browser here')
        return

    @case(f'{options.queries:,} queries of chance, in the page and by find')
    def _():
        return compared(file, folder, made, options.queries, ask)

    if browser:
        @case('the same in the browser itself')
        def _():
            browser.show(address(folder, 'index'))
            return compared(file, folder, made, 60, lambda _, sought: browser.run(
                ASK_PAGE.replace('QUERIES', json.dumps(sought))))


def check_many(options, browser):
    made = made_tunes.texts_of(options.tunes, 1)
    file = archive_of('many', made_tunes.book_of(made))
    book('-f', file, 'put', 'long', *map(str, range(1, 101)))
    folder = os.path.join(WORK, 'many')
    took = {}

    @case(f'a site of {options.tunes:,} tunes')
    def _():
        begun = time.monotonic()
        told = book('-f', file, 'site', folder)
        took['whole'] = time.monotonic() - begun
        book('-f', file, 'edit', '7', environment={'EDITOR': 'sed -i s/^K:.*/K:D/'}, cwd=WORK)
        begun = time.monotonic()
        again = book('-f', file, 'site', folder)
        took['again'] = time.monotonic() - begun
        if f'{options.tunes:,} tunes drawn' not in told or '; 1 tune drawn' not in again:
            return told + again
        made[6] = re.sub('^K:.*', 'K:D', made[6], flags=re.M)
        return wrong_links(folder) or (None if options.full else wrong_drawings(folder))

    print(f'        all in {took.get("whole", 0):.1f} seconds, '
          f'after one change {took.get("again", 0):.1f}, '
          f'at a load of {os.getloadavg()[0]:.1f} on {os.cpu_count()} cores', flush=True)
    check_queries(options, browser, made, file, folder)


def check_index(browser):
    from site_book import Book, Tune, search_index
    from search_keys import Key, fields_of, steps_of

    @case('an index of 20,000 tunes has at most 2 MB, and is loaded in less than a second')
    def _():
        tunes = {}
        for number, text in enumerate(made_tunes.texts_of(20_000, 2), 1):
            data = text.encode()
            titles, rhythm, key = fields_of(data)
            key = Key(key)
            tunes[number] = Tune(number, data, titles, rhythm, key.scale.decode(),
                                 tuple(steps_of(data, key, 12)))
        told = search_index(Book('many', 12, tunes, [], [])).encode()
        if len(told) > 2_000_000:
            return f'it has {len(told):,} bytes'
        folder = os.path.join(WORK, 'index')
        os.makedirs(folder)
        with open(os.path.join(folder, 'tunes.js'), 'wb') as out:
            out.write(told)
        shutil.copy(os.path.join(ROOT, 'site', 'find.js'), folder)
        with open(os.path.join(folder, 'index.html'), 'w', encoding='utf-8') as page:
            page.write('<!DOCTYPE html><meta charset="utf-8"><title>x</title>'
                       '<script src="tunes.js"></script>'
                       '<script src="find.js"></script>')
        if not browser:
            return None
        took = 60
        for _ in range(4):
            # Others use the machine: the least of some times.
            browser.show('about:blank')
            begun = time.monotonic()
            browser.show(address(folder, 'index'))
            count = browser.run('''(() => { const tunes = tunesFind.opened(tunesIndex);
                tunesFind.find(tunes, {within: ["mor"], notes: "GA"});
                return tunes.numbers.length; })()''')
            took = min(took, time.monotonic() - begun)
        print(f'        {len(told):,} bytes, loaded and asked in {took:.2f} seconds', flush=True)
        return None if count == 20_000 and took < 1 else f'{count} tunes in {took:.2f} seconds'


def check_letters():
    """Each letter that is folded, in a title that is looked for in folded letters."""
    letters = [chr(code) for code in range(0xA0, 0x110000) if not 0xD800 <= code < 0xE000
               and unicodedata.category(chr(code))[0] in 'LMS']
    chosen = [each for each in letters if unicodedata.category(each)[0] == 'M'
              or unicodedata.normalize('NFD', each).casefold() != each]
    chosen = [each for each in chosen if not '\uac00' <= each <= '\ud7a3' or ord(each) % 97 == 0]
    file = archive_of('letters',
                      ''.join(f'X:1\nT:x{each}z\nK:C\nC\n\n' for each in chosen).encode())
    folder = site_of(file, 'letters')

    @case(f'{len(chosen):,} letters are folded as find folds them')
    def _():
        sample = random.Random(5).sample(chosen, 1500)
        sought = [{'within': ['x' + each.upper() + 'z']} for each in sample]
        with ThreadPoolExecutor(os.cpu_count()) as pool:
            wanted = list(pool.map(lambda each: as_found(file, each), sought))
        for query, want, have in zip(sought, wanted, by_node(folder, sought)):
            if want != have:
                return f'{query} finds {have} in the page, and {want} by find'
        return None


def main():
    parser = argparse.ArgumentParser(usage=__doc__)
    parser.add_argument('--full', action='store_true')
    parser.add_argument('--tunes', type=int)
    parser.add_argument('--queries', type=int, default=1000)
    parser.add_argument('--pictures')
    options = parser.parse_args()
    options.tunes = options.tunes or (5000 if options.full else 200)
    if not shutil.which('abcm2ps'):
        skipped('all of it', 'there is no abcm2ps here')
        return 0
    program = find_browser()
    browser = Browser(program) if program else None
    if browser:
        browser.size(1200, 900)
    else:
        skipped('what is seen in a browser', 'there is no chromium here')
    try:
        file, _ = check_session(options, browser)
        check_hostile(browser)
        check_tools()
        check_folders(file)
        check_index(browser)
        check_many(options, browser)
        if options.full and shutil.which('node'):
            check_letters()
    finally:
        if browser:
            browser.end()
        shutil.rmtree(WORK, ignore_errors=True)
    print(f'{len(failures)} cases failed' if failures else 'all cases passed', flush=True)
    return 1 if failures else 0


if __name__ == '__main__':
    sys.exit(main())
