"""Texts as bytes and as strings.

An archive keeps bytes. A string stands for bytes by UTF-8; bytes that are no UTF-8 stand in it as
lone surrogates (PEP 383, `surrogateescape`), so that each string that came from an archive goes
back as the bytes that it was.
"""
from typing import Union

Text = Union[str, bytes]
"""What a call takes for a text: bytes as they are, or a string for its bytes in UTF-8."""


def bytes_of(text: Text) -> bytes:
    """The bytes for which a text stands.

    ValueError: the string has surrogates that stand for no byte.
    """
    if isinstance(text, str):
        return text.encode('utf-8', 'surrogateescape')
    if isinstance(text, (bytes, bytearray, memoryview)):
        return bytes(text)
    raise TypeError(f'a text is str or bytes, and not {type(text).__name__}')


def string_of(data: bytes) -> str:
    """The string that stands for these bytes: `bytes_of` gives them back, whatever they are."""
    return data.decode('utf-8', 'surrogateescape')


def label_of(data: bytes) -> str:
    """These bytes to be shown to a person, and for nothing else.

    Each byte that is no UTF-8 is taken for Latin-1, as in the lists of `tunes-book --json`. Control
    characters, by which a title could steer a terminal, are shown as U+FFFD.
    """
    characters = []
    for character in string_of(data):
        code = ord(character)
        if 0xDC80 <= code <= 0xDCFF:
            code -= 0xDC00
        is_control = code < 0x20 or 0x7F <= code < 0xA0
        characters.append('\N{REPLACEMENT CHARACTER}' if is_control else chr(code))
    return ''.join(characters)
