"""The calls of a file system, answered from an image: names, attributes, and what is written until it is complete.

A folder is a place. A file is in each folder whose formula it meets, with a separate inode in each, so that `mv music/x .` is a change and an editor,
which sees two links, writes in place. What is written is kept as a draft, which all writers of a file share; one `write` command puts it whole into
the image when somebody closes the file or syncs it. Programs that opened the file at the same path see the draft, as they expect of each other; at
other paths they see the bytes of the image, so that `cp music/x x` reads them although it emptied its own target.

It is for one thread. An `OSError` is the answer if something is not allowed.
"""
from __future__ import annotations

import errno
import functools
import os
import stat
import time
from collections.abc import Callable
from typing import Any, TypeVar, cast

from lisfs.client import Ended, NotAReply, NotSent, Refused
from lisfs.constants import BLOCK_LEN, MAX_WORD
from lisfs.endings import say
from lisfs.formulas import PART_LIMIT, ROOT, NotAFormula, Place, TooLarge, Word, part
from lisfs.mount.image import Image
from lisfs.mount.kernel import KEEP_CACHE, NO_FLUSH, Attributes, Caller, Changed, Changes, Created, Entry, Opened, Space
from lisfs.mount.nodes import Draft, File, Folder, Handle, Leaf, Listed, Looks, Node, Shelf, Shows, inode_of, leaf_inode
from lisfs.mount.shown import shown
from lisfs.words import FILE_NAME, head_of

ALL, BY = b":all", b":by"
# What a folder with such a name shows.
SHOWS = {BY: Shows.DERIVED, ALL: Shows.FILES}
# Files that tell indexers and other programs that read all folders to stay out. They are empty, in the mounted folder if the image has no file of the
# name, and in no listing.
MARKERS = (b".metadata_never_index", b".noindex", b".nomedia", b".trackerignore")
FOLDER_KIND, FILE_KIND = 4, 8
# For how many seconds the kernel may keep attributes, since it is notified when they change. For a served image, which others change too, it keeps
# none.
KEPT_SECONDS = 3_600
ROOT_NUMBER, NO_REPLACEMENT = 1, 1
LINKS, FOLDER_LINKS = 2, 1
Call = TypeVar("Call", bound=Callable[..., Any])


def fault(number: int, why: str) -> OSError:
    return OSError(number, why)


def answering(call: Call) -> Call:
    """A method of a tree: refusals and the end of the program become errors of the system."""
    # All requests go through here, so no arguments are taken apart.
    @functools.wraps(call)
    def answer(*given: Any) -> Any:
        tree: Tree = given[0]
        try:
            if tree.is_shared:
                tree.catch_up()
            return call(*given)
        except Refused as refused:
            # Few mounts meet a refusal, and its table is large.
            from lisfs.refusals import error_of
            tree.say_full(refused)
            raise fault(error_of(refused.number), str(refused)) from None
        except (TooLarge, NotSent) as error:
            raise fault(errno.ENAMETOOLONG, str(error)) from None
        except NotAFormula as error:
            raise fault(errno.ENOENT, str(error)) from None
        except NotAReply as error:
            # No later reply can be recognized, so nothing more may be asked.
            tree.image.program.kill()
            raise fault(errno.EIO, str(error)) from None
        except Ended as end:
            raise fault(errno.EIO, str(end)) from None
    return cast(Call, answer)


def writes(flags: int) -> bool:
    """Whether an open with these flags allows writing, or empties the file."""
    return flags & os.O_ACCMODE != os.O_RDONLY or bool(flags & os.O_TRUNC)


def is_open_in(process: int, inode: int) -> bool:
    """Whether a process has a file of this inode open for writing. Only /proc is read: a look at the file itself would be a request to this mount."""
    folder = f"/proc/{process}/fdinfo"
    try:
        for number in os.listdir(folder):
            with open(os.path.join(folder, number), encoding="ascii") as info:
                rows = dict(row.rstrip().partition(":\t")[::2] for row in info)
            if rows.get("ino") == str(inode) and int(rows["flags"], 8) & os.O_ACCMODE != os.O_RDONLY:
                return True
    except OSError:
        pass
    return False


def draft_to_write(file: File) -> Draft:
    """The draft of a file that somebody has open for writing."""
    assert file.draft
    return file.draft


class Tree:
    """The modes of new folders and files are such that only the user who mounts sees anything, if others may look at all."""

    def __init__(self, image: Image, with_derived: bool = False, now: int | None = None, others: bool = False) -> None:
        self.image, self.user, self.group = image, os.getuid(), os.getgid()
        self.folder_mode, self.file_mode = (0o700, 0o600) if others else (0o755, 0o644)
        self.touched = now or time.time_ns()
        # Whether others change the image too, so that each call must first ask for news.
        self.is_shared = image.program.is_shared
        self.kept_seconds = 0 if self.is_shared else KEPT_SECONDS
        root = Folder(ROOT_NUMBER, b"", ROOT, Shows.DERIVED if with_derived else Shows.GIVEN)
        root.lookups = 1
        # Nodes by number; folders by path, and files by path and file.
        self.nodes: dict[int, Node] = {ROOT_NUMBER: root}
        self.folders: dict[bytes, Folder] = {root.key: root}
        self.leaves: dict[tuple[bytes, File], Leaf] = {}
        # The attributes of folders, by path.
        self.looks: dict[bytes, Looks] = {}
        # Open files and open folders, by number.
        self.handles: dict[int, Handle] = {}
        self.shelves: dict[int, Shelf] = {}
        self.numbers = ROOT_NUMBER
        for file in image.files.values():
            self._begin(file, self.file_mode, self.user, self.group)
        # No file of the image has a number below 1.
        self.markers = {name: File(name, 0, (), 0) for name in MARKERS}
        for number, file in enumerate(self.markers.values(), 1):
            file.number = -number
            self._begin(file, self.file_mode & ~0o222, self.user, self.group)
        # Called with the number of each node whose attributes differ from those that were returned.
        self.changed: Changed = lambda number: None
        # The thread that asks, if it is known; and for each folder whose attributes were returned since the last change, the thread that has them. 0
        # means unknown, or several.
        self.asker = 0
        self.handed: dict[int, int] = {}
        # Whether something that was written is not in the image, and no error was returned for it.
        self.has_lost = False
        # What of a full image was reported.
        self.reported: set[int] = set()

    def say_full(self, refused: Refused) -> None:
        """Says once what a full image has no room for, and what helps: an error of a file system has no place for it."""
        from lisfs.limits import full
        if refused.number not in self.reported and (found := full(refused.number, self.image.limits)):
            self.reported.add(refused.number)
            say(f"mount: the image is full: {found.most}: {found.helps}")

    def _begin(self, file: File, mode: int, user: int, group: int) -> None:
        file.looks = Looks(mode, user, group, self.touched)

    def catch_up(self) -> None:
        """Applies what other clients of a served image have changed. The kernel keeps no attributes then, and reads a file again when it opens it."""
        news = self.image.catch_up()
        if not news:
            return
        self.touched = time.time_ns()
        while self.image.fresh:
            self._begin(self.image.fresh.pop(), self.file_mode, self.user, self.group)
        for name in self.image.files.keys() if news.whole else news.written & self.image.files.keys():
            file = self.image.files[name]
            file.version += 1
            file.looks.modified = file.looks.changed = self.touched
            if file.draft and not file.draft.is_dirty:
                file.draft.content = None

    # Nodes.

    def _folder(self, number: int) -> Folder:
        node = self.nodes[number]
        if not isinstance(node, Folder):
            raise fault(errno.ENOTDIR, "a file")
        return node

    def _node_of_file(self, number: int) -> Leaf:
        node = self.nodes[number]
        if not isinstance(node, Leaf):
            raise fault(errno.EISDIR, "a folder")
        return node

    def _number(self) -> int:
        self.numbers += 1
        return self.numbers

    def _enter(self, folder: Folder, name: bytes) -> Folder:
        """The node of the folder `name` in a folder."""
        path = folder.key + b"/" + name
        node = self.folders.get(path)
        if node is None:
            if name in SHOWS:
                node = Folder(self._number(), path, folder.place, SHOWS[name], len(folder.place.names))
            else:
                node = Folder(self._number(), path, folder.place.step(name), folder.shows, folder.begin)
            self.folders[node.key] = self.nodes[node.number] = node
        node.lookups += 1
        return node

    def _leaf(self, folder: Folder, file: File) -> Leaf:
        node = self.leaves.get((folder.key, file))
        if node is None:
            node = Leaf(self._number(), folder, file)
            self.leaves[node.key] = self.nodes[node.number] = node
            file.nodes.add(node)
        node.lookups += 1
        return node

    def forget(self, number: int, count: int) -> None:
        node = self.nodes.get(number)
        if node is None:
            return
        node.lookups -= count
        if node.lookups <= 0 and number != ROOT_NUMBER:
            del self.nodes[number]
            if isinstance(node, Leaf):
                del self.leaves[node.key]
                node.file.nodes.discard(node)
            elif self.folders.get(node.key) is node:
                del self.folders[node.key]

    def _file_at(self, folder: Folder, name: bytes) -> File | None:
        """The file of this name in a folder, or None."""
        if not folder.shows_all and name in self.image.declared:
            return None
        file = self.image.files.get(name)
        return file if file and self.image.is_here(file, folder.place) else None

    def _marker_at(self, folder: Folder, name: bytes) -> File | None:
        return self.markers.get(name) if folder.number == ROOT_NUMBER else None

    def _is_marker(self, file: File) -> bool:
        return self.markers.get(file.name) is file

    def _is_folder(self, folder: Folder, name: bytes) -> bool:
        """Whether a folder opens under this name: a formula of known words, or a value of a declared head."""
        if folder.shows_all:
            return False
        if name in (ALL, BY) or name in self.image.declared:
            return True
        if FILE_NAME.fullmatch(name):
            # A plain word that is not declared, or no word.
            return False
        try:
            read = part(name)
        except NotAFormula:
            return False
        if isinstance(read, Word) and head_of(name) in self.image.declared:
            return True
        return all(self.image.is_known(word) for word in read.words)

    # Attributes.

    def _entry(self, node: Node) -> Entry:
        if isinstance(node, Folder):
            looks = self._looks_of(node)
            found = Attributes(node.inode, 0, 0, looks.accessed, looks.modified, looks.changed, stat.S_IFDIR | looks.mode, FOLDER_LINKS,
                               looks.user, looks.group)
            self.handed[node.number] = self.asker if self.handed.get(node.number, self.asker) == self.asker else 0
            return Entry(node.number, found, self.kept_seconds)
        file, looks, draft = node.file, node.file.looks, self._draft_of(node)
        size = file.size if draft is None or draft.content is None else len(draft.content)
        modified = looks.modified if draft is None or draft.modified is None else draft.modified
        found = Attributes(node.inode, size, -(-size // BLOCK_LEN) * 8, looks.accessed, modified, max(looks.changed, modified),
                           stat.S_IFREG | looks.mode, 0 if file.is_gone else LINKS, looks.user, looks.group)
        # Writes to a draft at other paths are not reported one by one.
        return Entry(node.number, found, self.kept_seconds if draft is None or draft.writers == node.writers else 0)

    def _looks_of(self, node: Node) -> Looks:
        """The attributes of a file or a folder. The time of a folder may be set, and changes with the next change of the image: each change may be of
        something that it shows."""
        if isinstance(node, Leaf):
            return node.file.looks
        looks = self.looks.get(node.key) or Looks(self.folder_mode, self.user, self.group, self.touched)
        if looks.changed < self.touched:
            looks.modified = looks.changed = self.touched
        return looks

    def _draft_of(self, node: Leaf) -> Draft | None:
        """The draft, if it is seen at this path."""
        return node.file.draft if node.writers else None

    @answering
    def lookup(self, number: int, name: bytes) -> Entry:
        folder = self._folder(number)
        if file := self._file_at(folder, name) or self._marker_at(folder, name):
            return self._entry(self._leaf(folder, file))
        if self._is_folder(folder, name):
            return self._entry(self._enter(folder, name))
        if MAX_WORD < len(name) and (len(name) > PART_LIMIT or FILE_NAME.fullmatch(name)):
            raise fault(errno.ENAMETOOLONG, f"a name has at most {MAX_WORD} bytes")
        raise fault(errno.ENOENT, "no such name")

    @answering
    def getattr(self, number: int) -> Entry:
        return self._entry(self.nodes[number])

    @answering
    def setattr(self, number: int, changes: Changes, handle: int | None = None) -> Entry:
        node = self.nodes[number]
        if changes.size is not None:
            self._resize(node, changes.size, handle)
        looks = self._looks_of(node)
        looks.take(changes, time.time_ns())
        if isinstance(node, Leaf):
            draft = self._draft_of(node)
            if changes.modified is not None and draft and draft.modified is not None:
                draft.modified = changes.modified
            self._tell(node.file)
        else:
            self.looks[node.key] = looks
            self.changed(number)
        return self._entry(node)

    def _tell(self, file: File, but: Node | None = None) -> None:
        """The kernel knows what it did at one path, and is notified of the others."""
        for node in file.nodes:
            if node is not but:
                self.changed(node.number)

    def _now_changed(self, folder: Folder | None = None) -> None:
        """Any folder may show something else now. The kernel knows by the answer about the folder in which a call makes or removes a name. There, a
        notification would be harmful: an older answer that another thread has not read yet would then count as a newer one."""
        self.touched = time.time_ns()
        kept: dict[int, int] = {}
        for number, asker in self.handed.items():
            if folder and number == folder.number and asker and asker == self.asker:
                kept[number] = asker
            else:
                self.changed(number)
        self.handed = kept

    @answering
    def statfs(self) -> Space:
        counts, limits = self.image.counts(), self.image.limits
        return Space(limits.blocks, counts["free"], limits.files, limits.files - counts["files"], BLOCK_LEN, MAX_WORD)

    # Folders.

    @answering
    def opendir(self, number: int) -> int:
        handle = self._number()
        self.shelves[handle] = Shelf(self._folder(number))
        return handle

    @answering
    def readdir(self, handle: int, offset: int) -> list[Listed]:
        """All entries. A read from the beginning makes the list again, and later ones use that list, whatever is removed meanwhile."""
        shelf = self.shelves[handle]
        if not offset or not shelf.entries:
            shelf.entries = self._entries(shelf.folder)
        return shelf.entries

    def _entries(self, folder: Folder) -> list[Listed]:
        if folder.shows_all:
            words: list[bytes] = []
            files = self.image.index.of(self.image.extension(folder.place))
        else:
            words, files = shown(self.image, folder)
        entries: list[Listed] = [(folder.inode, FOLDER_KIND, b"."), (inode_of(folder.key.rpartition(b"/")[0]), FOLDER_KIND, b"..")]
        entries += [(inode_of(folder.key + b"/" + word), FOLDER_KIND, word) for word in words]
        return entries + [(leaf_inode(folder, file), FILE_KIND, file.name) for file in files]

    def releasedir(self, handle: int) -> None:
        del self.shelves[handle]

    @answering
    def fsyncdir(self) -> None:
        """After this, what a folder shows is in the image, even a new file that is about to be written."""
        self.image.settle()

    @answering
    def mkdir(self, number: int, name: bytes, mode: int, caller: Caller) -> Entry:
        folder = self._folder(number)
        if folder.shows_all:
            raise fault(errno.EPERM, "no words are here")
        if name in (ALL, BY):
            raise fault(errno.EEXIST, "it is here already")
        self.image.declare(name, folder.place)
        self._now_changed()
        node = self._enter(folder, name)
        self.looks[node.key] = Looks(mode & 0o7777, caller.user, caller.group, self.touched)
        return self._entry(node)

    @answering
    def rmdir(self, number: int, name: bytes) -> None:
        folder = self._folder(number)
        if name in (ALL, BY):
            raise fault(errno.EPERM, "it is everywhere")
        if self._file_at(folder, name):
            raise fault(errno.ENOTDIR, "a file")
        if not self._is_folder(folder, name):
            raise fault(errno.ENOENT, "no such folder")
        self.image.take_back(name, folder.place)
        path = folder.key + b"/" + name
        self.looks.pop(path, None)
        # For the kernel this node is dead, and a folder that opens at its path later is another one.
        self.folders.pop(path, None)
        self._now_changed()

    # Names of files.

    def _new_name(self, folder: Folder, name: bytes) -> None:
        if name in (ALL, BY) or name in self.image.declared:
            raise fault(errno.EEXIST if folder.shows_all else errno.EISDIR, "a folder has this name")
        if not FILE_NAME.fullmatch(name):
            raise fault(errno.EINVAL, "a name has letters, digits and _ - . + @")
        if len(name) > MAX_WORD:
            raise fault(errno.ENAMETOOLONG, f"a name has at most {MAX_WORD} bytes")

    def _made(self, make: Callable[[bytes, Place], File], folder: Folder, name: bytes, mode: int, caller: Caller) -> Leaf:
        self._new_name(folder, name)
        file = make(name, folder.place)
        self._now_changed(folder)
        self._begin(file, mode & 0o7777, caller.user, caller.group)
        return self._leaf(folder, file)

    @answering
    def mknod(self, number: int, name: bytes, mode: int, caller: Caller) -> Entry:
        if stat.S_IFMT(mode) not in (0, stat.S_IFREG):
            raise fault(errno.EPERM, "an image keeps files alone")
        return self._entry(self._made(self.image.create, self._folder(number), name, mode, caller))

    @answering
    def create(self, number: int, name: bytes, flags: int, mode: int, caller: Caller) -> Created:
        folder = self._folder(number)
        file = self._file_at(folder, name)
        if file and flags & os.O_EXCL:
            raise fault(errno.EEXIST, "it is here already")
        make = self.image.begin if flags & os.O_ACCMODE != os.O_RDONLY else self.image.create
        node = self._leaf(folder, file) if file else self._made(make, folder, name, mode, caller)
        handle = self._opened(node, flags)
        return Created(self._entry(node), handle)

    @answering
    def unlink(self, number: int, name: bytes) -> None:
        folder = self._folder(number)
        file = self._found(folder, name)
        kept = self._kept(file)
        self.image.remove(file)
        self._is_gone(file, kept, folder)

    def _found(self, folder: Folder, name: bytes) -> File:
        file = self._file_at(folder, name)
        if file is None:
            stays = self._is_folder(folder, name) or self._marker_at(folder, name) is not None
            raise fault(errno.EPERM if stays else errno.ENOENT, "a folder, or no file of the image" if stays else "no such file")
        return file

    def _kept(self, file: File) -> bytes:
        """The bytes that a program with the file open may still read when it is gone."""
        return self.image.content(file) if file.handles else b""

    def _is_gone(self, file: File, kept: bytes, folder: Folder | None = None) -> None:
        file.kept = kept
        self._now_changed(folder)
        self._tell(file)

    @answering
    def rename(self, number: int, old: bytes, target_number: int, new: bytes, flags: int) -> None:
        source, target = self._folder(number), self._folder(target_number)
        if flags & ~NO_REPLACEMENT:
            raise fault(errno.EINVAL, "not this kind of renaming")
        file, other = self._found(source, old), self._file_at(target, new)
        if other and flags & NO_REPLACEMENT:
            raise fault(errno.EEXIST, "it is here already")
        if other and other is not file:
            self._replace(file, other)
        else:
            self._move(file, source.place, target, new)
        self._now_changed()
        self._tell(file)

    def _replace(self, file: File, other: File) -> None:
        """The other file gets the bytes, as far as they were written, and keeps its words. Programs that have this one open go on with it."""
        draft, kept = file.draft, self._kept(other)
        content = bytes(draft.content) if draft and draft.content is not None else self.image.content(file)
        self.image.replace(file, content, other)
        self._is_gone(other, kept)
        if draft and draft.is_dirty:
            self._is_stored(file, draft, None)

    def _move(self, file: File, place: Place, target: Folder, new: bytes) -> None:
        """If it is stopped between the two commands that this may need, the file is where it was, with its new name."""
        old, before, behind = file.name, place.words, target.place.words
        has_words = before is not None and behind is not None
        is_elsewhere = place.text != target.place.text and not (has_words and set(before or ()) == set(behind or ()))
        if is_elsewhere and not has_words:
            raise fault(errno.EPERM, "not a place of words")
        if new != old:
            self._new_name(target, new)
            self.image.rename(file, new)
        if is_elsewhere:
            try:
                self.image.move(file, place, target.place)
            except Refused:
                if new != old:
                    self.image.rename(file, old)
                raise

    @answering
    def link(self, number: int, target_number: int, name: bytes) -> Entry:
        """A second link of a file gives it more words."""
        file, target = self._node_of_file(number).file, self._folder(target_number)
        if name != file.name or self._is_marker(file):
            raise fault(errno.EPERM, "a file has one name")
        if self.image.is_here(file, target.place):
            raise fault(errno.EEXIST, "it is here already")
        self.image.move(file, ROOT, target.place)
        self._now_changed()
        self._tell(file)
        return self._entry(self._leaf(target, file))

    # Bytes of files.

    @answering
    def open(self, number: int, flags: int) -> Opened:
        node = self._node_of_file(number)
        if node.file.is_gone:
            raise fault(errno.ENOENT, "it was removed")
        if writes(flags):
            self._may_change(node.file)
        handle = self._opened(node, flags)
        if self.handles[handle].writes:
            return Opened(handle, 0)
        is_kept = node.version == node.file.version and not node.writers
        node.version = node.file.version
        return Opened(handle, NO_FLUSH | (KEEP_CACHE if is_kept else 0))

    def _may_change(self, file: File) -> None:
        if self._is_marker(file):
            raise fault(errno.EPERM, "no file of the image")

    def _opened(self, node: Leaf, flags: int) -> int:
        handle = self._number()
        file = node.file
        opened = self.handles[handle] = Handle(node, writes(flags))
        file.handles += 1
        if opened.writes:
            file.draft = file.draft or Draft()
            file.draft.writers += 1
            node.writers += 1
            if file.draft.writers != node.writers:
                # The draft is seen here from now on, and written at two paths.
                self._tell(file)
            if flags & os.O_TRUNC:
                self._empty(node)
        return handle

    def _empty(self, node: Leaf) -> None:
        file, draft = node.file, draft_to_write(node.file)
        was_dirty = draft.is_dirty
        if file.size if draft.content is None else draft.content:
            draft.content = bytearray()
            draft.is_written(time.time_ns())
            draft.is_emptied = not was_dirty
            self._is_written(node)
        else:
            # There is nothing to store, but programs look at the time.
            file.looks.modified = time.time_ns()
            self._tell(file)

    def _is_written(self, node: Leaf) -> None:
        node.file.version += 1
        for other in node.file.nodes:
            if other.writers and other is not node:
                self.changed(other.number)

    def _must_be_made(self, file: File) -> None:
        """Raises the refusal of a new file. Nothing of it is stored, so no call may report success."""
        if file.refusal:
            if file.draft:
                file.draft.is_refused = True
            raise file.refusal

    def _must_be_here(self, file: File) -> None:
        """Raises also if another client has removed the file."""
        self._must_be_made(file)
        if file.is_lost:
            if file.draft:
                file.draft.is_refused = True
            raise fault(errno.ESTALE, "another client has removed it")

    def _content(self, node: Leaf) -> bytes | bytearray:
        """The bytes as they are seen at this path."""
        draft, file = self._draft_of(node), node.file
        self._must_be_here(file)
        if draft and draft.content is not None:
            return draft.content
        return self._stored(file)

    def _stored(self, file: File) -> bytes:
        """The bytes of a file without what was written to it and not stored. A marker has none."""
        return file.kept if file.is_gone or self._is_marker(file) else self.image.content(file)

    def _drafted(self, file: File, draft: Draft) -> bytearray:
        """The bytes of the draft."""
        self._must_be_here(file)
        if draft.content is None:
            draft.content = bytearray(self._stored(file))
        return draft.content

    @answering
    def read(self, handle: int, offset: int, size: int) -> bytes | bytearray:
        return self._content(self.handles[handle].node)[offset:offset + size]

    @answering
    def write(self, handle: int, offset: int, data: bytes | memoryview, flags: int) -> int:
        node = self.handles[handle].node
        draft = draft_to_write(node.file)
        content = self._drafted(node.file, draft)
        if flags & os.O_APPEND:
            offset = len(content)
        self._fits(offset + len(data))
        if offset > len(content):
            content.extend(bytes(offset - len(content)))
        content[offset:offset + len(data)] = data
        draft.is_written(time.time_ns())
        self._is_written(node)
        return len(data)

    def _fits(self, size: int) -> None:
        if size > self.image.limits.file_bytes:
            raise fault(errno.EFBIG, "a file has at most so many bytes")

    def _resize(self, node: Node, size: int, handle: int | None) -> None:
        """Through an open file the draft changes, as by a write. By a path the file is changed in the image at once, with what was written to it."""
        if not isinstance(node, Leaf):
            raise fault(errno.EISDIR, "a folder")
        self._may_change(node.file)
        self._fits(size)
        if handle is not None and self.handles[handle].writes:
            self._cut(node, size)
            return
        temporary = self.handles[self._opened(node, os.O_WRONLY)]
        try:
            self._cut(node, size)
            self._commit(node, draft_to_write(node.file))
        finally:
            # If it was refused, a draft without other writers is dropped.
            self._end_writing(temporary)

    def _cut(self, node: Leaf, size: int) -> None:
        draft = draft_to_write(node.file)
        content = self._drafted(node.file, draft)
        if size < len(content):
            del content[size:]
        else:
            content.extend(bytes(size - len(content)))
        draft.is_written(time.time_ns())
        self._is_written(node)

    @answering
    def flush(self, handle: int, process: int) -> None:
        """A program closes the file. A shell opens the file of `> x`, makes it the output of the command, and closes the first descriptor before a
        byte is written: that does not end the writing."""
        closed = self.handles[handle]
        self._must_be_made(closed.file)
        if not closed.writes:
            return
        draft = draft_to_write(closed.file)
        if self._is_unstored(closed.file, draft) and (
                draft.is_dirty and not draft.is_emptied or not is_open_in(process, closed.node.inode)):
            self._commit(closed.node, draft)

    def _is_unstored(self, file: File, draft: Draft) -> bool:
        """Whether its bytes differ from those in the image, or it isn't there yet."""
        return draft.is_dirty or file is self.image.waiting

    @answering
    def fsync(self, handle: int) -> None:
        node = self.handles[handle].node
        self._must_be_made(node.file)
        draft = node.file.draft
        if draft and self._is_unstored(node.file, draft):
            self._commit(node, draft)

    def _commit(self, node: Leaf, draft: Draft) -> None:
        """Stores the draft whole. If it is refused it stays, and can be tried again."""
        file = node.file
        self._must_be_here(file)
        if not file.is_gone:
            try:
                self.image.write(file, bytes(draft.content or b""))
            except Refused:
                draft.is_refused = True
                raise
        self._is_stored(file, draft, node)

    def _is_stored(self, file: File, draft: Draft, node: Leaf | None) -> None:
        file.looks.modified = draft.modified or file.looks.modified
        draft.is_dirty = draft.is_emptied = draft.is_refused = False
        file.version += 1
        self._tell(file, node)

    @answering
    def release(self, handle: int) -> None:
        """The handle is closed for the last time."""
        self._end_writing(self.handles.pop(handle))

    def _end_writing(self, handle: Handle) -> None:
        file, node = handle.file, handle.node
        file.handles -= 1
        if not handle.writes:
            return
        draft = draft_to_write(file)
        node.writers -= 1
        draft.writers -= 1
        if draft.writers:
            if not node.writers:
                # The image's bytes are seen here again.
                self.changed(node.number)
            return
        try:
            # What was written through a mapping after the last close. What was refused at a close is dropped: the caller got the error.
            if self._is_unstored(file, draft) and not draft.is_refused:
                self._commit(node, draft)
        except (Refused, OSError) as error:
            self._lose(file, f"what was written after the last close is lost: {error}")
        finally:
            if file.is_gone and draft.content is not None:
                file.kept = bytes(draft.content)
            file.draft = None
            if draft.is_dirty:
                file.version += 1
                self._tell(file)

    def _lose(self, file: File, why: str) -> None:
        self.has_lost = True
        say(f"mount: {file.name.decode()}: {why}")

    def finish(self) -> None:
        """Stores what was written and not closed, as a close would, when there are no more requests. Reports each file that can't be stored."""
        self.changed = lambda number: None
        written = {handle.file: handle.node for handle in self.handles.values() if handle.writes}
        for file, node in written.items():
            if file.refusal or (file.is_lost or not file.is_gone) and self._is_unstored(file, draft_to_write(file)):
                try:
                    self._store(node)
                except OSError as error:
                    self._lose(file, f"what was written and not closed is lost: {error.strerror}")

    @answering
    def _store(self, node: Leaf) -> None:
        self._commit(node, draft_to_write(node.file))
