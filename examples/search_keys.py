"""The keys that a tune has in the search indexes of an archive, by the text of the tune alone.

By docs/ABC-PROFILE.md, and by the table of keys in docs/FILE-FORMAT.md: read these first, since
each name here is a word of theirs. Texts are bytes, of which each line ends with a line feed.
"""
import re
from itertools import islice
from typing import Iterator

BLANKS = b" \t"
COMMENT = re.compile(rb"(?<!\\)%.*", re.DOTALL)
FIELD = re.compile(rb"[A-Za-z]:")
LEADING_ARTICLE = re.compile(rb"(?:the|an|a)[ \t]+(.+)", re.DOTALL | re.IGNORECASE)
TRAILING_ARTICLE = re.compile(rb"(.*[^ \t])[ \t]*,[ \t]+(?:the|an|a)", re.DOTALL | re.IGNORECASE)
MOST_TITLES = 8

TONIC = re.compile(rb"([A-G])([#b]?)(?![^ \tA-Za-z^_=])")
MODE = re.compile(rb"([ \t]*)([A-Za-z]*)")
# The digits of modes by the first three letters of their words; EXPLICIT is no mode of a scale.
EXPLICIT = 7
SHORT_MODES = {b"": 0, b"m": 5, b"M": 5}
MODES = {b"maj": 0, b"ion": 0, b"dor": 1, b"phr": 2, b"lyd": 3, b"mix": 4, b"min": 5, b"aeo": 5,
         b"loc": 6, b"exp": EXPLICIT}
# How many sharps a scale has: by its tonic in major, by its sign, and by the digit of its mode.
SHARPS, FLATS = "FCGDAEB", "BEADGCF"
SHARPS_OF_TONIC = {letter: place - 1 for place, letter in enumerate(SHARPS)}
SHARPS_OF_SIGN = {"": 0, "#": 7, "b": -7}
SHARPS_OF_MODE = 0, -2, -4, 1, -1, -3, -5
# A word that sets accidentals, and each of its pairs.
SETTING = re.compile(rb"(?:(?:\^\^?|__?|=)[A-Ga-g])+")
PAIR = re.compile(rb"(\^\^?|__?|=)([A-Ga-g])")

SEMITONES = {"C": 0, "D": 2, "E": 4, "F": 5, "G": 7, "A": 9, "B": 11}
ACCIDENTALS = {b"__": -2, b"_": -1, b"=": 0, b"^": 1, b"^^": 2}
ITEM = re.compile(rb"""
    "[^"]*" | ![^!]*! | \+[^+]*\+ | \{[^}]*\}
    | \[ (?P<field>[A-Za-z]) : (?P<value>[^]]*) \]
    | \[ (?P<chord>[^][|0-9][^][|]*) \]
    | \( [0-9]+ (?: : [0-9]* (?: : [0-9]* )? )?
    | (?P<accidental>\^\^?|=|__?|) (?P<letter>[A-Ga-g]) (?P<octaves>[,']*)
    | (?P<bar>[|:])
    | .
    """, re.DOTALL | re.VERBOSE)


def value_of(line: bytes) -> bytes:
    """The value of a field line."""
    return COMMENT.sub(b"", line[2:]).strip(BLANKS)


def fields_of(text: bytes) -> tuple[list[bytes], bytes, bytes]:
    """The titles of a tune, its rhythm, or nothing, and its key text."""
    header, _, behind = (b"\n" + text).partition(b"\nK:")
    lines = header.split(b"\n")[1:]
    titles = [title for line in lines if line.startswith(b"T:") and (title := value_of(line))]
    rhythms = [rhythm for line in lines if line.startswith(b"R:") and (rhythm := value_of(line))]
    key_text = value_of(b"K:" + behind.partition(b"\n")[0])
    return titles[:MOST_TITLES], rhythms[0] if rhythms else b"", key_text


def sorting_title(title: bytes) -> bytes:
    article = LEADING_ARTICLE.fullmatch(title) or TRAILING_ARTICLE.fullmatch(title)
    return (article[1] if article else title).lower()


class Key:
    """A key text as it is read: its scale, or nothing, and how its signature alters each letter."""

    def __init__(self, text: bytes) -> None:
        self.scale = b""
        self.signature: dict[str, int] = {}
        text = text.strip(BLANKS).replace(b"\t", b" ")
        first, _, words = text.partition(b" ")
        if first in (b"HP", b"Hp"):
            self.signature, words = dict.fromkeys("FC" if first == b"Hp" else "", 1), b""
        elif first.lower() not in (b"", b"none"):
            words = self.read_scale(text)
        for word in words.split(b" "):
            if SETTING.fullmatch(word):
                for sign, letter in PAIR.findall(word):
                    self.signature[letter.decode().upper()] = ACCIDENTALS[sign]

    def read_scale(self, text: bytes) -> bytes:
        """Reads a tonic and a mode, and gives the words behind them; of no key there are none."""
        tonic = TONIC.match(text)
        if not tonic:
            return b""
        found = MODE.match(text, tonic.end())
        blanks, word = found.groups()
        mode = SHORT_MODES.get(word, MODES.get(word[:3].lower()))
        if mode is None or (word and text.startswith(b"=", found.end())):
            if not blanks:
                return b""
            mode, words = 0, text[tonic.end():]
        else:
            words = text[found.end():]
        return words if mode == EXPLICIT or self.set_scale(tonic, mode) else b""

    def set_scale(self, tonic: re.Match[bytes], mode: int) -> bool:
        """Whether this scale has a signature, which it then sets."""
        letter, sign = tonic[1].decode(), tonic[2].decode()
        sharps = SHARPS_OF_TONIC[letter] + SHARPS_OF_SIGN[sign] + SHARPS_OF_MODE[mode]
        if not -7 <= sharps <= 7:
            return False
        self.scale = f"{letter}{sign or ' '}{mode}".encode()
        altered = SHARPS[:sharps] if sharps > 0 else FLATS[:-sharps]
        self.signature = dict.fromkeys(altered, 1 if sharps > 0 else -1)
        return True


def body_lines(text: bytes) -> Iterator[bytes]:
    """The lines behind the first `K:` line that lie in no part."""
    in_part = in_body = False
    for line in text.split(b"\n")[:-1]:
        if in_part:
            in_part = not line.startswith(b"%%end")
        elif line.startswith(b"%%begin"):
            in_part = True
        elif in_body:
            yield line
        in_body = in_body or line.startswith(b"K:")


class Notes:
    """The pitches of a tune's notes that count, in semitones, as its lines are read one by one."""

    def __init__(self, signature: dict[str, int]) -> None:
        self.signature = signature
        self.in_bar: dict[tuple[str, int], int] = {}

    def of_line(self, line: bytes) -> Iterator[int]:
        if line.startswith(b"K:"):
            self.signature = Key(value_of(line)).signature
        elif not FIELD.match(line) and not line.startswith((b"+:", b"%")):
            yield from self.of_music(COMMENT.sub(b"", line))

    def of_music(self, music: bytes) -> Iterator[int]:
        for item in ITEM.finditer(music):
            if item["letter"]:
                yield self.pitch(item)
            elif item["bar"]:
                self.in_bar.clear()
            elif item["chord"]:
                # All notes of a chord are read, and the first one counts.
                yield from list(self.of_music(item["chord"]))[:1]
            elif item["field"] == b"K":
                self.signature = Key(item["value"]).signature

    def pitch(self, note: re.Match[bytes]) -> int:
        letter = note["letter"].decode()
        octave = letter.islower() + note["octaves"].count(b"'") - note["octaves"].count(b",")
        letter = letter.upper()
        if note["accidental"]:
            self.in_bar[letter, octave] = ACCIDENTALS[note["accidental"]]
        altered = self.in_bar.get((letter, octave), self.signature.get(letter, 0))
        return SEMITONES[letter] + 12 * octave + altered


def steps_of(text: bytes, key: Key, most: int) -> list[int]:
    """The incipit of so many notes at most."""
    notes = Notes(key.signature)
    all_pitches = (pitch for line in body_lines(text) for pitch in notes.of_line(line))
    pitches = list(islice(all_pitches, most))
    return [after - before for before, after in zip(pitches, pitches[1:])]


def keys_of(text: bytes, most_notes: int) -> tuple[set[bytes], set[bytes], set[bytes], set[bytes]]:
    """The keys of a tune by its titles, rhythm, scale and incipit, neither cut nor filled."""
    titles, rhythm, key_text = fields_of(text)
    key = Key(key_text)
    incipit = b"".join((step + 2**31).to_bytes(4, "big")
                       for step in steps_of(text, key, most_notes))
    single = [{word} if word else set() for word in (rhythm.lower(), key.scale, incipit)]
    return {sorting_title(title) for title in titles}, *single
