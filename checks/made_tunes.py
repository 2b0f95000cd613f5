"""Tunes that are made up by chance, from a seed, and queries for them."""
import random
from typing import List

FIRST = ('The', 'An', 'A', 'Old', 'Merry', 'Bothán', 'Séamus', 'Märta’s', 'Grandfather’s', 'Lady',
         'Paddy', 'Miss', 'Sean', 'Captain', 'Éilís', 'Øystein', 'Straße', 'Long', 'Farewell to')
SECOND = ('Kesh', 'Banshee', 'Cúilín', 'Fiddler', 'Ó Dálaigh', 'Blackbird', 'Mór', 'Müller',
          'Rakes', 'Connaught', 'Smuggler', 'İstanbul', 'Köln', 'Wren', 'Lark', 'Ceathrú', 'Groß',
          'Ålesund')
THIRD = ('Jig', 'Reel', 'Waltz', 'Polka', 'Hornpipe', 'in the Morning', 'of Mallow', 'No. 2', 'Set',
         'Fancy', 'Delight', 'an Bhóthair', 'på Fjellet', '', 'Air', 'Rambles', 'Return')
RHYTHMS = {'jig': '6/8', 'reel': '4/4', 'Reel': 'C|', 'waltz': '3/4', 'polka': '2/4',
           'slip jig': '9/8', 'hornpipe': '4/4', 'march': '4/4', 'air': '3/4',
           'strathspey': '4/4', 'slåttar': '3/4'}
KEYS = ('G', 'D', 'A', 'Em', 'Edor', 'Amix', 'Bm', 'C', 'F', 'Dmix', 'Ador', 'Gm', 'Bb', 'F#m',
        'E minor', 'D mixolydian', 'Ephr', 'none', 'HP', 'Aaeolian', 'Clyd', 'G ^c', 'Ab')
LETTERS = 'CDEFGABcdefgab'
EIGHTHS = {'6/8': 6, '4/4': 8, 'C|': 8, '3/4': 6, '2/4': 4, '9/8': 9}


def title_of(chance: random.Random) -> str:
    words = (chance.choice(FIRST), chance.choice(SECOND), chance.choice(THIRD))
    number = f' {chance.randint(2, 99)}' if chance.random() < 0.4 else ''
    return ' '.join(filter(None, words)) + number


def bar_of(chance: random.Random, eighths: int) -> str:
    notes, place = '', chance.randint(2, 10)
    left = eighths
    while left > 0:
        place = min(13, max(0, place + chance.choice((-2, -1, -1, 0, 1, 1, 2, 3))))
        length = 2 if left > 1 and chance.random() < 0.12 else 1
        sign = chance.choice('^_=') if chance.random() < 0.02 else ''
        notes += sign + LETTERS[place] + ('2' if length == 2 else '')
        left -= length
        if left in (eighths // 2, 3) and chance.random() < 0.9:
            notes += ' '
    return notes


def text_of(chance: random.Random) -> str:
    """The lines of a tune behind `X:`."""
    rhythm = chance.choice(list(RHYTHMS))
    metre = RHYTHMS[rhythm]
    titles = [title_of(chance) for _ in range(chance.choice((1, 1, 1, 1, 2, 3)))]
    lines = [f'T:{title}' for title in titles]
    if chance.random() < 0.95:
        lines.append(f'R:{rhythm}')
    if chance.random() < 0.3:
        lines += ['C:Trad.', 'O:Ireland']
    lines += [f'M:{metre}', 'L:1/8', f'K:{chance.choice(KEYS)}']
    for _ in range(4):
        bars = '|'.join(bar_of(chance, EIGHTHS[metre]) for _ in range(4))
        lines.append(f'{bars}|')
    return '\n'.join(lines) + '\n'


def texts_of(count: int, seed: int) -> List[str]:
    chance = random.Random(seed)
    return [text_of(chance) for _ in range(count)]


def book_of(texts: List[str]) -> bytes:
    return ''.join(f'X:1\n{text}\n' for text in texts).encode()
