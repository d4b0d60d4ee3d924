"""What a crash may leave of a folder, on the least helpful disk that POSIX allows.

Of a file stands what it held at its last sync. Each write and each cut since then may have happened or not, whole or in
part; where something was written there may be anything; the length may be any from the least to the greatest that the
file had since. A name whose folder wasn't synced after it was made may be missing, and all that is in a folder whose name
is missing. That is the disk of docs/FORMATS.md, and `File.allows` says it a second time, in that page's words, of each image
that is drawn.

Names lead from the store's folder, and those of folders end in a slash: `projects/`, `projects/a.org`.
"""
from __future__ import annotations

import itertools
import os
import random
from dataclasses import dataclass, replace
from functools import cached_property
from typing import Dict, Iterator, List, Mapping, Tuple, Union

SECTORS = (512, 4096)


@dataclass(frozen=True)
class Write:
    """Bytes that are written from a position on."""
    at: int
    data: bytes

    def over(self, content: bytes) -> bytes:
        return content[:self.at].ljust(self.at, b"\0") + self.data + content[self.at + len(self.data):]


@dataclass(frozen=True)
class Cut:
    """A file gets this length; what it hadn't is zeros."""
    length: int

    def over(self, content: bytes) -> bytes:
        return content[:self.length].ljust(self.length, b"\0")


Change = Union[Write, Cut]


def torn(write: Write, rng: random.Random) -> List[Write]:
    """Parts of a write: its first bytes, its last ones, some of its sectors, or other bytes in its place."""
    at, data = write.at, write.data
    kind = rng.randrange(6)
    if kind == 0:
        return [Write(at, bytes(rng.choices((0, 1, 255, 42, 10), k=len(data))))]
    if kind == 1:
        start = rng.randrange(len(data))
        return [Write(at + start, data[start:])]
    if kind == 2:
        return [Write(at, data[:rng.randrange(len(data) + 1)])]
    if kind == 3:
        start, end = sorted(rng.choices(range(len(data) + 1), k=2))
        return [Write(at + start, data[start:end])]
    size = rng.choice(SECTORS)
    edges = [0, *range(size - at % size, len(data), size), len(data)]
    return [Write(at + start, data[start:end]) for start, end in zip(edges, edges[1:]) if rng.random() < 0.5]


@dataclass(frozen=True)
class File:
    """A file: what it held at its last sync, the changes since, and whether its name is on the device."""
    synced: bytes = b""
    changes: Tuple[Change, ...] = ()
    entered: bool = True

    @cached_property
    def history(self) -> List[bytes]:
        """What a read gave, at the last sync and after each change."""
        return list(itertools.accumulate(self.changes, lambda held, change: change.over(held), initial=self.synced))

    @property
    def content(self) -> bytes:
        return self.history[-1]

    @property
    def stable(self) -> bool:
        return self.entered and not self.changes

    def changed(self, change: Change) -> File:
        return replace(self, changes=(*self.changes, change))

    @cached_property
    def lengths(self) -> Tuple[int, int]:
        """The least and the greatest length since the last sync."""
        lengths = [len(held) for held in self.history]
        return min(lengths), max(lengths)

    @cached_property
    def loose(self) -> List[Tuple[int, int]]:
        """The ranges whose bytes a crash may change, up to the greatest length, in order and apart."""
        least, greatest = self.lengths
        written = [(change.at, change.at + len(change.data)) for change in self.changes if isinstance(change, Write)]
        ranges: List[Tuple[int, int]] = []
        for start, end in sorted([*written, (least, greatest)]):
            if ranges and start <= ranges[-1][1]:
                ranges[-1] = ranges[-1][0], max(end, ranges[-1][1])
            elif start < end:
                ranges.append((start, end))
        return ranges

    def allows(self, image: bytes) -> bool:
        """Whether this is an image of the file, its name apart: its length is one that the file had or one between, and
        it agrees with the file at each fixed position."""
        least, greatest = self.lengths
        if not least <= len(image) <= greatest:
            return False
        starts = [0, *(end for _, end in self.loose)]
        ends = [*(start for start, _ in self.loose), greatest]
        return all(image[start:end] == self.content[start:end] for start, end in zip(starts, ends))

    def kept(self, which: int) -> bytes:
        """The image for which these changes took place: bit k stands for the k-th one."""
        content = self.synced
        for number, change in enumerate(self.changes):
            if which >> number & 1:
                content = change.over(content)
        return content

    def filled(self, byte: int) -> bytes:
        """The greatest length, and the byte at each position that isn't fixed."""
        content = self.content
        for start, end in self.loose:
            content = content[:start] + bytes([byte]) * (end - start) + content[end:]
        return content

    def drawn(self, rng: random.Random) -> bytes:
        """An image: each change whole, not at all or torn; then now and then another length, or other bytes."""
        if not self.changes:
            return self.synced
        content = self.synced
        for change in self.changes:
            choice = rng.random()
            if choice < 0.45:
                content = change.over(content)
            elif choice < 0.75 and isinstance(change, Write):
                for part in torn(change, rng):
                    content = part.over(content)
        least, greatest = self.lengths
        if greatest > least and rng.random() < 0.3:
            length = rng.choice((least, greatest, rng.randint(least, greatest)))
            content = content[:length].ljust(length, rng.choice((b"\0", b"*", b"\xff")))
        if self.loose and rng.random() < 0.15:
            at = rng.randrange(*rng.choice(self.loose))
            if at < len(content):
                content = content[:at] + rng.choice((b"\0", b"\1", b"\2", b"*", b"\n")) + content[at + 1:]
        return content


Disk = Mapping[str, File]
Image = Dict[str, bytes]


def folder_of(name: str) -> str:
    """The folder in which a name stands; "" is the store's."""
    above = name.rstrip("/").rpartition("/")[0]
    return above and above + "/"


def folders_on(name: str) -> Iterator[str]:
    """The folders that lead to a name."""
    above = folder_of(name)
    while above:
        yield above
        above = folder_of(above)


def with_folders(disk: Disk) -> Dict[str, File]:
    """The disk with the folders of its files, whose names are on the device."""
    return {**{folder: File() for name in disk for folder in folders_on(name)}, **disk}


def reached(image: Image) -> Image:
    """What is left of an image: nothing can be in a folder that isn't there."""
    return {name: content for name, content in image.items() if all(folder in image for folder in folders_on(name))}


def entries(folder: str) -> Iterator[str]:
    """The names of all that is in a folder and below it."""
    for above, folders, files in os.walk(folder):
        way = os.path.relpath(above, folder) + "/" if above != folder else ""
        yield from (way + name + "/" for name in folders)
        yield from (way + name for name in files)


def stable(files: Mapping[str, bytes]) -> Dict[str, File]:
    return {name: File(content) for name, content in files.items()}


def contents(disk: Disk) -> Image:
    """What reads give, without a crash."""
    return {name: file.content for name, file in disk.items()}


def subsets(disk: Disk) -> Iterator[Image]:
    """Each combination of changes that took place and names that are there, where these are few. Else: all, none, each
    alone, and all but each."""
    bits = [(name, number) for name, file in disk.items() for number in range(len(file.changes))]
    bits += [(name, -1) for name, file in disk.items() if not file.entered]
    every = (1 << len(bits)) - 1
    if len(bits) <= 5:
        choices = list(range(every + 1))
    else:
        choices = [every, 0, *(1 << bit for bit in range(len(bits))), *(every ^ 1 << bit for bit in range(len(bits)))]
    for choice in choices:
        took_place = {bit for number, bit in enumerate(bits) if choice >> number & 1}
        yield {name: file.kept(sum(1 << number for number in range(len(file.changes)) if (name, number) in took_place))
               for name, file in disk.items() if file.entered or (name, -1) in took_place}


def images(disk: Disk, rng: random.Random, count: int) -> Iterator[Image]:
    """Images of the disk: the one that there is, where it is stable; else the subsets, as many more as asked for, by
    chance, and the fillings."""
    if all(file.stable for file in disk.values()):
        yield contents(disk)
        return
    yield from map(reached, subsets(disk))
    for _ in range(count):
        yield reached({name: file.drawn(rng) for name, file in disk.items() if file.entered or rng.random() < 0.5})
    for byte in (0, 1, 255):
        yield {name: file.filled(byte) for name, file in disk.items()}


def allows(disk: Disk, image: Image) -> bool:
    """Whether a crash may leave this of the disk."""
    return image.keys() <= disk.keys() and reached(image) == image and all(
        file.allows(image[name]) if name in image else not file.entered or any(
            folder not in image for folder in folders_on(name)) for name, file in disk.items())
