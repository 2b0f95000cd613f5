"""Draws tunes by abcm2ps, and plays them by abc2midi, so that nothing but music comes of them."""
import hashlib
import json
import os
import re
import selectors
import shutil
import signal
import subprocess
import sys
import tempfile
from functools import lru_cache
from typing import Dict, Iterator, List, NoReturn, Optional, Tuple

from site_book import Tune, label_of
from site_words import CAUGHT, NO_TOOL, Stopped, read_file, say, write_file

# WHAT IS GIVEN TO THE PROGRAMS

# What a tune may say to the program that draws it. All else that begins with %% or I: is left out:
# some of it reads files, runs PostScript or writes SVG as it is.
DIRECTIVES = frozenset(
    'abc2pscompat autoclef bstemdown cancelkey combinevoices contbarnb dblrepbar decoerr dynalign '
    'dynamic flatbeams gchord gchordbox graceslurs graceword gracespace hyphencont keywarn '
    'linebreak measurebox measurefirst measurenb ornament partsbox percmap pos '
    'propagate-accidentals '
    'rbdbstop repbra score setbarnb setdefl shiftunison slurheight squarebreve staffnonote staves '
    'stem straightflags tieheight timewarn transpose tuplets vocal voicecolor volume '
    'writeout-accidentals'.split())
# Fields of the header that the page has by itself.
SHOWN_BY_PAGE = tuple(letter + ':' for letter in 'ABCDFGHNORSTXZ')
INSTRUCTION = re.compile(r'\[\s*I\s*:[^\]]*\]?')
FORMAT = '%%rightmargin 0\n%%leftmargin 0\n%%topmargin 0\n%%botmargin 0\n%%topspace 0\n' \
    '%%musicspace 0\n%%titlespace 0\n%%composerspace 0\n%%scale 0.75\n'
WIDTHS = {'music': FORMAT + '%%pagewidth 15cm\n',
          'narrow': FORMAT + '%%pagewidth 9.6cm\n%%continueall 1\n'}
PROCESSOR_SECONDS, SECONDS = 5, 60
# So many tunes are drawn by one run of a program, where none of them asks for anything of its own;
# where that run is not clean, each is drawn alone.
TOGETHER = 20
DRAW = f'''ulimit -t {PROCESSOR_SECONDS}; ulimit -v 2000000
for each in music narrow; do
    abcm2ps -S -q +F -g -O - $each.abc > $each.svg 2> $each.said || echo $each $?
done
[ ! -f sound.abc ] || abc2midi sound.abc > /dev/null 2>&1 || echo sound $?
'''


def drawn_lines(text: bytes, is_sound: bool = False) -> Iterator[str]:
    """The lines of a tune that are given to a program that draws or plays it."""
    in_header, in_part, dropped = True, False, False
    for line in map(label_of, text.replace(b'\t', b' ').split(b'\n')):
        if in_part or line.startswith('%%begin'):
            in_part = not line.startswith('%%end')
            continue
        if line.startswith('+:') and dropped:
            continue
        dropped = not may_be_drawn(line, in_header, is_sound)
        in_header = in_header and not line.startswith('K:')
        if not dropped:
            yield INSTRUCTION.sub('', line)


def may_be_drawn(line: str, in_header: bool, is_sound: bool) -> bool:
    if line.startswith(('%%', 'I:')):
        word = line[2:].split()[:1]
        return word == ['MIDI'] if is_sound else word != [] and word[0] in DIRECTIVES
    if line.startswith(('m:', 'U:')):
        # What a macro puts in place is read as music, and might say what is left out here.
        return not re.search(r'[][:%]', line[2:])
    if line.startswith(SHOWN_BY_PAGE):
        return line.startswith('T:') and not in_header
    return not line.startswith('%')


# WHAT COMES OF IT

class Unfit(Exception):
    """Why a drawing does not go into a page."""


WORD, NUMBERS = r'[\w#-]+', r'[-+\d.,eE\s]*'
# Elements of a drawing, and what their attributes may say. All else makes it unfit: a script, a
# picture or a link has no place among them. No value has a bracket but those of transforms.
ELEMENTS = 'g|defs|use|path|circle|ellipse|rect|line|polyline|polygon|text|tspan'
ATTRIBUTES = '|'.join(f'(?:{names})="{form}"' for names, form in (
    ('x|y|dx|dy|cx|cy|r|rx|ry|x1|y1|x2|y2|width|height|points|stroke-width|font-size', NUMBERS),
    ('d', r'[MmLlHhVvCcSsQqTtAaZz\d.,+\s-]*'), ('xlink:href', '#' + WORD),
    ('class|font-family|stroke-dasharray', r'[\w\s,.-]*'),
    ('id|fill|stroke|color|stroke-linecap|stroke-linejoin|text-anchor|font-weight|font-style',
     WORD),
    ('transform', r'(?:(?:translate|scale|rotate|matrix|skewX|skewY)\([-+\d.,\s]*\)\s*)*'),
    ('style', r"(?:[a-z-]+:[-\w\s.,#']+;?\s*)*")))
TAG = re.compile(rf'<(?:/({ELEMENTS})|({ELEMENTS})(?:\s+(?:{ATTRIBUTES}))*\s*(/?))>', re.ASCII)
TEXT = re.compile(r'(?:[^<>&\x00-\x08\x0b-\x1f]|&(?:amp|lt|gt|quot|apos|#\d+);)*')
TOKEN = re.compile('<[^>]*>|[^<]+')
COMMENT = re.compile('<!--.*?-->', re.DOTALL)
FRONT = re.compile(r'\s*<svg\s[^<>]*\swidth="(\d+)[\d.]*px" height="(\d+)[\d.]*px"[^<>]*>\s*'
                   r'<style type="text/css">[^<]*</style>\s*<title>[^<]*</title>')
HUNDREDTHS = re.compile(r'\.0\d*|(?<=\.\d)\d+')
STYLE = '.fill{fill:currentColor}.stroke{stroke:currentColor;fill:none}' \
    'text{white-space:pre;fill:currentColor}'


class Drawing:
    """Writes a drawing anew, in few bytes, where it holds nothing but what it may."""

    def __init__(self, svg: bytes) -> None:
        text = COMMENT.sub('', svg.decode('utf-8', 'replace'))
        front = FRONT.match(text)
        body, behind, rest = text[front.end():].rpartition('</svg>') if front else ('', '', '')
        if not behind or rest.strip():
            raise Unfit('it is no drawing')
        self.size = int(front[1]) + 1, int(front[2]) + 1
        self.open: List[str] = []
        pieces = ''.join(map(self.piece, TOKEN.findall(body)))
        if self.open:
            raise Unfit('it is cut')
        width, height = self.size
        self.text = f'<svg xmlns="http://www.w3.org/2000/svg" width="{width}" height="{height}" ' \
            f'viewBox="0 0 {width} {height}"><style>{STYLE}</style>{pieces}</svg>\n'

    def piece(self, token: str) -> str:
        kept, begun, ended = piece_of(token)
        if begun:
            self.open.append(begun)
        elif ended and (not self.open or self.open.pop() != ended):
            raise Unfit('its elements do not stand within each other')
        return kept


@lru_cache(maxsize=1 << 15)
def piece_of(token: str) -> Tuple[str, str, str]:
    """A tag or a text in few bytes, and which element it begins or ends."""
    if not token.startswith('<'):
        if not TEXT.fullmatch(token):
            raise Unfit('it has signs that no text has')
        return ('' if token.isspace() else token), '', ''
    tag = TAG.fullmatch(token)
    if not tag:
        raise Unfit('it has what no drawing of music has: ' + ' '.join(token.split())[:40])
    kept = ' '.join(token.split()).replace('xlink:href', 'href').replace(' "', '"')
    if 'transform' not in kept and 'style' not in kept:
        kept = HUNDREDTHS.sub('', kept)
    return kept, '' if tag[3] else tag[2] or '', tag[1] or ''


def is_sound_file(data: bytes) -> bool:
    """Whether a sound file has all of its chunks: a name, a length, and as many bytes."""
    at = 0
    while 0 <= at < len(data):
        at += 8 + int.from_bytes(data[at + 4:at + 8], 'big')
    return data.startswith(b'MThd') and at == len(data)


# BY SEVERAL PROCESSES

Drawn = Dict[str, object]


def has_wishes(tune: Tune) -> bool:
    """Whether a tune tells a program anything but its music."""
    return re.search(rb'^(?:%%|[ImU]:)|\[\s*I\s*:', tune.text, re.M) is not None


class Drawer:
    """Draws tunes in a folder of its own, of which the results go to a site."""

    def __init__(self, work: str, site: str, has_sound: bool) -> None:
        self.work, self.site, self.has_sound = work, site, has_sound

    def draw_share(self, tunes: List[Tune]) -> Iterator[Tuple[int, Drawn]]:
        """What there is of each tune: the sizes of drawings, a sound, or why there is none."""
        plain_ones = [tune for tune in tunes if not has_wishes(tune)]
        groups = [plain_ones[at:at + TOGETHER] for at in range(0, len(plain_ones), TOGETHER)]
        groups += [[tune] for tune in tunes if has_wishes(tune)]
        while groups:
            group = groups.pop()
            found = self.draw(group)
            if found is None:
                groups += [[tune] for tune in group]
            else:
                yield from zip((tune.number for tune in group), found)

    def draw(self, tunes: List[Tune]) -> Optional[List[Drawn]]:
        """The results of a run, or None, where several tunes were drawn and it is not clean."""
        place = tempfile.mkdtemp(dir=self.work)
        try:
            fronts = {**WIDTHS, 'sound': ''} if self.has_sound else WIDTHS
            for name, front in fronts.items():
                book = front + '\n'.join(
                    f'X:{tune.number}\n' + ''.join(
                        line + '\n' for line in drawn_lines(tune.text, name == 'sound'))
                    for tune in tunes)
                write_file(os.path.join(place, name + '.abc'), book.encode())
            told = self.run(place)
            drawings = {name: read_file(os.path.join(place, name + '.svg')) for name in WIDTHS}
            said = read_file(os.path.join(place, 'music.said')).decode('utf-8', 'replace')
            if len(tunes) == 1:
                return [self.results(tunes[0], place, drawings, told, said)]
            if told or said:
                return None
            apart = {name: re.findall(rb'<svg .*?</svg>', svg, re.S)
                     for name, svg in drawings.items()}
            numbers = [tune.number for tune in tunes]
            if any(list(map(number_of, svgs)) != numbers for svgs in apart.values()):
                return None
            return [self.results(tune, place, {name: svgs[at] for name, svgs in apart.items()})
                    for at, tune in enumerate(tunes)]
        except Unfit as unfit:
            return [{'fault': str(unfit)}] if len(tunes) == 1 else None
        finally:
            shutil.rmtree(place, ignore_errors=True)

    def run(self, place: str) -> str:
        """Draws and plays what is in a folder, and tells which program failed, how."""
        tools = subprocess.Popen(['sh', '-c', DRAW], cwd=place, stdin=subprocess.DEVNULL,
                                 stdout=subprocess.PIPE, stderr=subprocess.DEVNULL,
                                 start_new_session=True)
        try:
            return tools.communicate(timeout=SECONDS)[0].decode()
        except subprocess.TimeoutExpired:
            raise Unfit(f'it was not drawn within {SECONDS} seconds') from None
        finally:
            if tools.poll() is None:
                os.killpg(tools.pid, signal.SIGKILL)
                tools.communicate()

    def results(self, tune: Tune, place: str, drawings: Dict[str, bytes], told: str = '',
                said: str = '') -> Drawn:
        """Puts what was made of a tune into the site."""
        sound = read_file(os.path.join(place, f'sound{tune.number}.mid'))
        found: Drawn = {'sound': is_sound_file(sound)}
        texts = {}
        try:
            for name, svg in drawings.items():
                if not svg:
                    status = re.search(rf'^{name} (\d+)', told, re.M)
                    raise Unfit(f'abcm2ps made no drawing (status {status[1]})' if status else
                                'there is no music in it to be drawn')
                drawing = Drawing(svg)
                texts[name], found[name] = drawing.text, drawing.size
        except Unfit as unfit:
            texts, found['fault'] = {}, str(unfit)
        for name, text in texts.items():
            write_file(os.path.join(self.site, name, f'{tune.number}.svg'), text.encode())
        if found['sound']:
            write_file(os.path.join(self.site, 'sound', f'{tune.number}.mid'), sound)
        remarks = re.findall(r'error: (.*)', said)
        if remarks:
            found['remarks'] = list(dict.fromkeys(label_of(line.encode()) for line in remarks))[:5]
        return found


def number_of(svg: bytes) -> int:
    """The number of the tune that a drawing says it is of."""
    found = re.search(rb'<title>[^<(]*\((\d+)\) tune ', svg)
    return int(found[1]) if found else 0


def draw_all(tunes: List[Tune], drawer: Drawer) -> Dict[int, Drawn]:
    """Draws by several processes at once, each of which has its share, and tells of each tune."""
    found: Dict[int, Drawn] = {}
    count = min(os.cpu_count() or 1, len(tunes))
    ready = selectors.DefaultSelector()
    workers = {}
    for share in range(count):
        reader, writer = os.pipe()
        worker = os.fork()
        if worker == 0:
            os.close(reader)
            work_through(tunes[share::count], drawer, writer)
        os.close(writer)
        workers[worker] = open(reader, 'rb', buffering=0)
        ready.register(workers[worker], selectors.EVENT_READ, bytearray())
    try:
        while ready.get_map():
            for key, _ in ready.select():
                data = key.fileobj.read(65536)
                key.data.extend(data)
                *lines, rest = bytes(key.data).split(b'\n')
                key.data[:] = rest
                found.update((number, told) for number, told in map(json.loads, lines))
                if not data:
                    ready.unregister(key.fileobj)
                progress(len(found), len(tunes))
    finally:
        for worker, reader in workers.items():
            if len(found) < len(tunes):
                os.kill(worker, signal.SIGTERM)
            reader.close()
            os.waitpid(worker, 0)
    if len(found) < len(tunes):
        raise Stopped('drawing broke off; is the disk full, or the folder for working files?')
    return found


def work_through(tunes: List[Tune], drawer: Drawer, writer: int) -> NoReturn:
    for number in CAUGHT:
        signal.signal(number, signal.SIG_DFL)
    status = 1
    try:
        for found in drawer.draw_share(tunes):
            told = json.dumps(found).encode() + b'\n'
            while told:
                told = told[os.write(writer, told):]
        status = 0
    except OSError as error:
        say(f'a tune is not drawn: {error}')
    finally:
        os._exit(status)


def progress(done: int, total: int) -> None:
    if sys.stderr.isatty():
        end = '\n' if done == total else ''
        print(f'\r{done:,} of {total:,} tunes are drawn', end=end, file=sys.stderr, flush=True)


def tools_here() -> Tuple[str, bool]:
    """Which tools there are, in words that change where they do; and whether one makes sounds."""
    if not shutil.which('abcm2ps'):
        raise Stopped('the program abcm2ps is not found; install it, or put it on PATH', NO_TOOL)
    told = subprocess.run(['abcm2ps', '-V'], capture_output=True, check=False, text=True,
                          stdin=subprocess.DEVNULL).stdout.split('\n')[0]
    has_sound = shutil.which('abc2midi') is not None
    how = hashlib.sha256(read_file(os.path.realpath(__file__))).hexdigest()[:16]
    return f'{told}, {"abc2midi" if has_sound else "no sounds"}, {how}', has_sound
