"""A request for a run and the reply to it, with their texts.

>>> request = Request.of(["tu", "-"], {"-": b"1 1\\n1\\n"})
>>> request.frame
b'25:9:2:tu,1:-,,1:-,6:1 1\\n1\\n,,'
>>> request == Request.of_parts(words_part(("tu", "-")), file_part("-", b"1 1\\n1\\n"))
True
>>> Reply.of(b"1:0,4:yes\\n,0:,")
Reply(status=0, output=b'yes\\n', error=b'', files={})
"""

from __future__ import annotations

from collections.abc import Mapping, Sequence
from functools import lru_cache
from typing import NamedTuple

from .netstrings import NoNetstring, netstring, netstrings, row

__all__ = ["Reply", "Request", "can_be_sent", "file_part", "words_part"]

_MOST = 2**31
"""The number of bytes that the text of a netstring has at most, and one more."""


class Request(NamedTuple):
    """A run: its frame, in which its words are, and the contents of the names that it may read."""

    frame: bytes

    @classmethod
    def of(cls, words: Sequence[str], files: Mapping[str, bytes]) -> Request:
        """The request of words and files. Standard input is the file `-`."""
        return cls.of_parts(words_part(tuple(words)), *(file_part(name, content) for name, content in files.items()))

    @classmethod
    def of_parts(cls, words: bytes, *files: bytes) -> Request:
        """The request of words and files whose parts are made already."""
        return cls(netstring(b"".join((words, *files))))


class Reply(NamedTuple):
    """What a run gave: its status, standard output and standard error, and the files that it wrote."""

    status: int
    output: bytes
    error: bytes
    files: Mapping[str, bytes]

    @classmethod
    def of(cls, text: bytes) -> Reply:
        """The reply with a text. Raises `NoNetstring` if it is the text of none."""
        parts = netstrings(text)
        count = len(parts)
        if count < 3 or count % 2 == 0 or not parts[0].isdigit():
            raise NoNetstring(text)
        files = {name.decode("utf-8"): content for name, content in zip(parts[3::2], parts[4::2])} if count > 3 else {}
        return cls(int(parts[0]), parts[1], parts[2], files)


def can_be_sent(words: Sequence[str], files: Mapping[str, bytes]) -> bool:
    """Whether words and files are those of a request: in UTF-8, and not too long."""
    try:
        lengths = [len(word.encode("utf-8")) for word in (*words, *files)]
    except UnicodeEncodeError:
        return False
    # A netstring adds at most a length of ten digits, a colon and a comma.
    return sum(lengths) + sum(map(len, files.values())) + 12 * (len(words) + 2 * len(files) + 1) < _MOST


@lru_cache(maxsize=256)
def words_part(words: tuple[str, ...]) -> bytes:
    """The part of a request with its words. They are the same for many runs."""
    return netstring(row(word.encode("utf-8") for word in words))


@lru_cache(maxsize=2)
def file_part(name: str, content: bytes) -> bytes:
    """The part of a request with a file, of which one run after another asks. So a long text is put into netstrings once."""
    return row((name.encode("utf-8"), content))
