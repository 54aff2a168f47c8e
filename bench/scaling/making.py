"""Makes the collections: the same files for the same seed and number. A collection that is there already is used again."""
import glob
import itertools
import os
import random
import shutil
import struct
import tarfile
from collections.abc import Callable, Iterator
from typing import IO, NamedTuple, cast

from scaling.mailing import Choice, make_mails, vocabulary

# Where Debian's `linux-source` puts the sources of the kernel.
KERNEL = "/usr/src/linux-source-*.tar.*"
# A frame of MPEG-1 layer III, 128 kbit/s at 44.1 kHz: its header, and its bytes.
FRAME = bytes.fromhex("fffb9000")
FRAME_LEN = 417
LARGE_SONG, SMALL_SONG = 4_000_000, 4_000
# One song in ten is a large one.
SONGS_TO_A_LARGE_ONE = 10
# How many words the made set has for each file.
WORDS_OF_MADE = 4
# The time of each file of a collection whose files have no dates of their own: later numbers are older, so that the first ones come in first.
NEWEST = 1_700_000_000


class Kind(NamedTuple):
    """A kind of collection: how many files it has, and what makes them in a folder."""

    files: int
    make: Callable[[str, int, random.Random], None]


def kept(top: str, name: str, count: int, seed: int) -> str:
    """The folder of a collection, which is made if it is not there whole."""
    folder = os.path.join(top, f"{name}-{count}-{seed}")
    whole = folder + ".whole"
    if not os.path.exists(whole):
        shutil.rmtree(folder, ignore_errors=True)
        os.makedirs(folder)
        KINDS[name].make(folder, count, random.Random(f"{name} {count} {seed}"))
        with open(whole, "wb"):
            pass
    return folder


def put(top: str, path: str, data: bytes, number: int) -> None:
    """Writes the file of this number."""
    whole = os.path.join(top, path)
    os.makedirs(os.path.dirname(whole), exist_ok=True)
    with open(whole, "wb") as file:
        file.write(data)
    os.utime(whole, (NEWEST - number, NEWEST - number))


def make_sources(top: str, count: int, chance: random.Random) -> None:
    """The first C sources of the kernel, if they are there, and made ones."""
    number = 0
    for path, data in itertools.islice(kernel_sources(), count):
        put(top, path, data, number)
        number += 1
    words = vocabulary(max(60, count), chance)
    headers, calls = Choice(words[:max(20, count // 20)], chance), Choice(words, chance)
    while number < count:
        part, name = f"part{number % 40:02}/module{number % 7}", f"file{number:05}.{'ch'[number % 3 == 0]}"
        put(top, os.path.join(part, name), source(headers, calls, chance).encode(), number)
        number += 1


def kernel_sources() -> Iterator[tuple[str, bytes]]:
    """The C sources of the kernel's archive in its order, with their paths in it."""
    for archive in sorted(glob.glob(KERNEL))[-1:]:
        with tarfile.open(archive) as files:
            for member in files:
                if member.isfile() and member.name.endswith((".c", ".h")):
                    yield member.name, cast(IO[bytes], files.extractfile(member)).read()


def source(headers: Choice, calls: Choice, chance: random.Random) -> str:
    """A C source with some includes and functions."""
    lines = [f"#include <{name}.h>" for name in dict.fromkeys(headers.some(chance.randint(1, 8)))]
    for name in dict.fromkeys(calls.some(chance.randint(1, 12))):
        lines += ["", f"static int {name}(int count)", "{"]
        lines += [f"\tcount += {call}(count);" for call in calls.some(chance.randint(1, 30))]
        lines += ["\treturn count;", "}"]
    return "\n".join(lines) + "\n"


def make_songs(top: str, count: int, chance: random.Random) -> None:
    """Pieces in MP3 with tags of ID3. One in ten is as large as a song of four minutes."""
    names = vocabulary(max(20, count // 20), chance)
    artists, albums, genres = Choice(names, chance), ["Early", "Live", "Late", "Best"], Choice(["Rock", "Jazz", "Folk", "Klassik", "Neue Musik"], chance)
    for number in range(count):
        artist, album = artists.one(), chance.choice(albums)
        tags = {"TPE1": f"The {artist}s", "TALB": f"{album} {artist}", "TCON": genres.one(), "TDRC": str(chance.randint(1960, 2024)), "TIT2": f"Piece {number}"}
        size = LARGE_SONG if number % SONGS_TO_A_LARGE_ONE == 0 else chance.randint(SMALL_SONG, 2 * SMALL_SONG)
        put(top, os.path.join(artist, album, f"{number:05}.mp3"), song(tags, size, number), number)


def song(tags: dict[str, str], size: int, number: int) -> bytes:
    """A piece with these tags of ID3v2.4, and silence that no other piece has."""
    frames = b"".join(tag.encode() + syncsafe(len(text.encode()) + 1) + b"\0\0\3" + text.encode() for tag, text in tags.items())
    frame = FRAME + struct.pack("<I", number).ljust(FRAME_LEN - len(FRAME), b"\0")
    return b"ID3\4\0\0" + syncsafe(len(frames)) + frames + frame * (size // FRAME_LEN + 1)


def syncsafe(number: int) -> bytes:
    """A number in four bytes of seven bits."""
    return bytes(number >> shift & 127 for shift in (21, 14, 7, 0))


def make_made(top: str, count: int, chance: random.Random) -> None:
    """Small files with four times as many words as files. Each word occurs, the first ones often."""
    words = [f"w{number:06}" for number in range(WORDS_OF_MADE * count)]
    choice = Choice(words, chance)
    for number in range(count):
        some = dict.fromkeys([*words[WORDS_OF_MADE * number:WORDS_OF_MADE * (number + 1)], *choice.some(4)])
        lines = [f"#include <{name}.h>" for name in choice.some(2)] + [f"int {word}(void) {{ return {number}; }}" for word in some]
        put(top, os.path.join(f"d{number % 64:02}", f"{number:06}.c"), ("\n".join(lines) + "\n").encode(), number)


KINDS = {"mails": Kind(60_000, make_mails), "sources": Kind(30_000, make_sources), "songs": Kind(5_000, make_songs), "made": Kind(65_536, make_made)}
