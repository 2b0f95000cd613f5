"""The pages of a site, as HTML. Each text of a tune goes through `shown`."""
import html
import os
import re
import string
from dataclasses import dataclass
from functools import lru_cache
from typing import Dict, Iterator, List, Optional, Tuple

import search_keys
from site_book import Book, Tune, key_name, label_of, lines_of, sum_of, text_of
from site_words import read_file

PARTS = os.path.dirname(os.path.realpath(__file__))
MOST_ROWS, MOST_LIKE = 1500, 30
LISTS = (('index', 'Titles'), ('rhythms', 'Rhythms'), ('keys', 'Keys'), ('sets', 'Set lists'))


def template(name: str) -> string.Template:
    with open(os.path.join(PARTS, name + '.html'), encoding='utf-8') as file:
        return string.Template(file.read())


def code_files() -> List[str]:
    """The files that say how a page is made."""
    return [search_keys.__file__, *(os.path.join(PARTS, name) for name in sorted(
        os.listdir(PARTS)) if name.endswith(('.py', '.html')))]


MARKED = re.compile('[&<>"\']')


@lru_cache(maxsize=None)
def shown(text: str) -> str:
    return html.escape(text) if MARKED.search(text) else text


@lru_cache(maxsize=None)
def small(text: str) -> str:
    return f' <small>{shown(text)}</small>' if text else ''


def counted(count: int, what: str) -> str:
    return f'{count:,} {what}' if count != 1 else f'1 {what}'.removesuffix('s')


@dataclass
class Section:
    """A part of a list, with what a link to it says, and its rows as HTML."""
    name: str
    short: str
    rows: List[str]


class Pages:
    """The pages of a site, each by its path, as they are asked for."""

    def __init__(self, book: Book, drawn: Dict[int, Dict[str, object]]) -> None:
        self.book, self.drawn = book, drawn
        self.page, self.search = template('page'), template('search')
        self.alike: Dict[Tuple[int, ...], List[Tune]] = {}
        self.in_order = book.by_title()
        for tune in self.in_order:
            self.alike.setdefault(tune.steps, []).append(tune)
        self.set_files = self.name_sets()
        # What all pages of tunes are made of, and what those of one opening have of each other.
        self.of_all = sum_of(repr((book.name, list(map(read_file, code_files())))).encode())
        self.openings = {steps: sum_of(repr([(tune.number, drawn[tune.number]['is'])
                                             for tune in tunes]).encode())
                         for steps, tunes in self.alike.items() if steps and len(tunes) > 1}

    def name_sets(self) -> Dict[str, str]:
        """The pages of set lists: names that differ by capitals alone are one on some systems."""
        files: Dict[str, str] = {}
        small: Dict[str, int] = {}
        for name, _ in self.book.sets:
            small[name.lower()] = count = small.get(name.lower(), 0) + 1
            files[name] = f'set-{name}.html' if count == 1 else f'set-{name}.{count}.html'
        return files

    def whole(self, title: str, body: str, here: str = '', base: str = '',
              scripts: str = '') -> str:
        current = {here: ' aria-current="page"'}
        links = ''.join(f'<li><a href="{base}{name}.html"{current.get(name, "")}>{word}</a></li>'
                        for name, word in LISTS)
        tags = ''.join(f'<script src="{base}{name}.js"></script>' for name in scripts.split())
        return self.page.substitute(title=shown(title), site=shown(self.book.name), base=base,
                                    links=links, body=body, scripts=tags)

    def lists(self) -> Iterator[Tuple[str, str]]:
        yield from self.titles()
        yield from self.groups('rhythms', 'Rhythms', self.by_rhythm())
        yield from self.groups('keys', 'Keys', self.by_key())
        yield 'sets.html', self.sets()
        for name, numbers in self.book.sets:
            yield self.set_files[name], self.set_list(name, numbers)

    # LISTS

    def row(self, tune: Tune, label: Optional[str] = None, kind: Optional[str] = None) -> str:
        return f'<li><a href="tune/{tune.number}.html">{shown(label or tune.label)}</a>' \
            f'{small(tune.kind if kind is None else kind)}</li>\n'

    def titles(self) -> Iterator[Tuple[str, str]]:
        sections: List[Section] = []
        for title, number in self.book.titles:
            first = title[:1].lower()
            short = '#' if first < b'a' else first.upper().decode() if first <= b'z' else 'Á'
            if not sections or sections[-1].short != short:
                name = {'#': 'Figures and signs', 'Á': 'Other letters'}.get(short, short)
                sections.append(Section(name, short, []))
            sections[-1].rows.append(self.row(self.book.tunes[number], label_of(title)))
        untitled = [self.row(tune) for tune in self.in_order if not tune.titles]
        if untitled:
            sections.append(Section('Without a title', '–', untitled))
        count = counted(len(self.book.tunes), 'tunes')
        head = f'<h1>{shown(self.book.name)}</h1>\n<p class="count">{count}, ' \
            f'{counted(len(self.book.sets), "set lists")}</p>\n{self.search.substitute()}'
        yield from self.pages_of('index', 'Titles', sections, head, 'tunes find search')

    def groups(self, file: str, title: str, sections: List[Section]) -> Iterator[Tuple[str, str]]:
        return self.pages_of(file, title, sections, f'<h1>{title}</h1>\n')

    def by_rhythm(self) -> List[Section]:
        groups: Dict[str, List[Tune]] = {}
        for tune in self.in_order:
            groups.setdefault(text_of(tune.rhythm.lower()), []).append(tune)
        return [Section(label_of(tunes[0].rhythm) or 'Without a rhythm',
                        label_of(tunes[0].rhythm) or '–',
                        [self.row(tune, kind=key_name(tune.scale)) for tune in tunes])
                for rhythm,
                tunes in sorted(groups.items(), key=lambda group: (not group[0], group))]

    def by_key(self) -> List[Section]:
        groups: Dict[str, List[Tune]] = {}
        for tune in self.in_order:
            groups.setdefault(tune.scale, []).append(tune)
        return [Section(key_name(scale) or 'Without a key', key_name(scale) or '–',
                        [self.row(tune, kind=label_of(tune.rhythm)) for tune in tunes])
                for scale, tunes in sorted(groups.items(), key=lambda group: (not group[0], group))]

    def pages_of(self, file: str, title: str, sections: List[Section], head: str,
                 scripts: str = '') -> Iterator[Tuple[str, str]]:
        """A list, on as many pages as it takes; a bar of links leads to each part of it."""
        pages: List[List[Tuple[str, Section, List[str]]]] = [[]]
        places: List[str] = []
        room = MOST_ROWS
        for count, section in enumerate(sections):
            for at in range(0, len(section.rows), MOST_ROWS):
                rows = section.rows[at:at + MOST_ROWS]
                if len(rows) > room:
                    pages.append([])
                    room = MOST_ROWS
                room -= len(rows)
                name = f'part-{count}'
                pages[-1].append((name if not at else f'{name}-{at}', section, rows))
                if not at:
                    places.append(f'{self.file_of(file, len(pages))}#{name}')
        bar = ''.join(f'<li><a href="{place}">{shown(section.short)}</a></li>'
                      for place, section in zip(places, sections))
        is_index = file == 'index'
        kind, level = ('letter', 'h3') if is_index else ('name', 'h2')
        bar = bar and f'<nav class="{kind}s" aria-label="Parts of the list"><ul>{bar}</ul></nav>\n'
        for count, parts in enumerate(pages, 1):
            first = head if count == 1 else f'<h1>{title}, page {count}</h1>\n'
            lists = ''.join(f'<section class="part {kind}"><{level} id="{name}">'
                            f'{shown(section.name)}</{level}>\n<ul class="tunes">\n'
                            f'{"".join(rows)}</ul></section>\n' for name, section, rows in parts)
            behind = f'<a href="{self.file_of(file, count + 1)}">Next page</a>'
            more = f'<p class="more">{behind}</p>\n' if count < len(pages) else ''
            body = f'{first}{"<h2>All titles</h2>" if is_index else ""}' \
                f'{bar}{lists or "<p>There are none.</p>"}{more}'
            here = file if count == 1 else ''
            named = self.book.name if here and is_index else f'{title} – {self.book.name}'
            yield self.file_of(file, count), self.whole(
                named, body, here, scripts=scripts if count == 1 else '')

    def file_of(self, file: str, count: int) -> str:
        return f'{file}.html' if count == 1 else f'{file}-{count}.html'

    def sets(self) -> str:
        rows = ''.join(f'<li><a href="{self.set_files[name]}">{shown(name)}</a> '
                       f'<small>{counted(len(numbers), "tunes")}</small></li>\n'
                       for name, numbers in self.book.sets)
        body = f'<h1>Set lists</h1>\n<ul class="tunes">\n{rows}</ul>\n' if rows else \
            '<h1>Set lists</h1>\n<p>There are none.</p>\n'
        return self.whole(f'Set lists – {self.book.name}', body, 'sets')

    # TUNES

    def music(self, tune: Tune, base: str) -> str:
        drawn = self.drawn[tune.number]
        if 'fault' in drawn:
            return f'<p class="fault">Its music is not drawn: {shown(str(drawn["fault"]))}.</p>\n'
        told = ', '.join(filter(None, ('Music of ' + tune.label, key_name(tune.scale),
                                       'metre ' + label_of(tune.metre) if tune.metre else '')))
        width, height = drawn['music']
        remarks = ''.join(f'<li>{shown(str(line))}</li>' for line in drawn.get('remarks', ()))
        remarks = remarks and '<details><summary>What abcm2ps remarks</summary>' \
            f'<ul>{remarks}</ul></details>\n'
        return f'<picture><source media="(max-width: 34rem)" ' \
            f'srcset="{base}narrow/{tune.number}.svg"><img class="music" ' \
            f'src="{base}music/{tune.number}.svg" width="{width}" height="{height}" ' \
            f'alt="{shown(told)}"></picture>\n{remarks}'

    def facts(self, tune: Tune) -> str:
        told = (('Number', str(tune.number)), ('Rhythm', label_of(tune.rhythm)),
                ('Key', key_name(tune.scale)), ('Metre', label_of(tune.metre)),
                ('Composer', label_of(tune.composer)), ('Origin', label_of(tune.origin)))
        return '<ul class="facts">' + ''.join(
            f'<li><small>{name}</small> {shown(word)}</li>' for name, word in told if word
        ) + '</ul>\n'

    def inputs(self, tune: Tune) -> str:
        """A sum of all that the page of a tune is made of."""
        return sum_of(repr((self.of_all, tune.number, self.drawn[tune.number],
                            self.openings.get(tune.steps),
                            [self.set_files[name] for name in tune.sets])).encode())

    def tune(self, tune: Tune) -> str:
        number = tune.number
        others = ''.join(f'<p class="also">{shown(label_of(title))}</p>\n'
                         for title in tune.titles[1:])
        sound = f'<li><a href="../sound/{number}.mid" download>Sound (MIDI)</a></li>' \
            if self.drawn[number].get('sound') else ''
        body = f'<article><h1>{shown(tune.label)}</h1>\n{others}{self.facts(tune)}' \
            f'{self.music(tune, "../")}<ul class="files">{sound}' \
            f'<li><a href="../abc/{number}.abc" download>Book (ABC)</a></li></ul>\n' \
            f'{self.like(tune)}<h2 id="abc">ABC</h2>\n<pre tabindex="0" aria-labelledby="abc">' \
            f'<code>X:{number}\n{shown(lines_of(tune.text))}</code></pre>\n</article>\n'
        return self.whole(f'{tune.label} – {self.book.name}', body, '', '../', 'copy')

    def like(self, tune: Tune) -> str:
        """Links to the tunes with the same opening, and to the set lists that have the tune."""
        told = ''
        others = [other for other in self.alike[tune.steps] if other is not tune and tune.steps]
        if others:
            rows = ''.join(self.row(other) for other in others[:MOST_LIKE]).replace('"tune/', '"')
            more = f'<p>{len(others) - MOST_LIKE:,} more open so.</p>\n' \
                if len(others) > MOST_LIKE else ''
            told += f'<h2>The same opening</h2>\n<ul class="tunes">\n{rows}</ul>\n{more}'
        if tune.sets:
            rows = ''.join(f'<li><a href="../{self.set_files[name]}">{shown(name)}</a></li>\n'
                           for name in tune.sets)
            told += f'<h2>In set lists</h2>\n<ul class="tunes">\n{rows}</ul>\n'
        return told

    def set_list(self, name: str, numbers: List[int]) -> str:
        parts = []
        for place, number in enumerate(numbers, 1):
            tune = self.book.tunes[number]
            kind = f'<p class="kind">{shown(tune.kind)}</p>\n' if tune.kind else ''
            parts.append(f'<section class="place"><h2>{place}. <a href="tune/{number}.html">'
                         f'{shown(tune.label)}</a></h2>\n{kind}{self.music(tune, "")}</section>\n')
        body = f'<h1>{shown(name)}</h1>\n<p class="count">{counted(len(numbers), "tunes")}</p>\n' \
            + ''.join(parts)
        return self.whole(f'{name} – {self.book.name}', body)
