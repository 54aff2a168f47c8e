"""What `tools/sync` and `tools/import` share: what is in a folder or a maildir, and how it comes into an image.

- `sync`, `bring`: the commands `tools/sync` and `tools/import`.
- `walk`: the files of a folder or a maildir, and what is not a file.
- `forms`: turns texts into words and names of an image.
- `names`: the names that files have in an image, the same at every run.
- `mails`, `addresses`, `music`: words from the header of a mail, and from the tags of a piece of music.
- `threads`: which mails are one thread, and its word.
- `cache`: what an earlier run read from mails and music.
- `entries`: each file with its name, its size, its words and its date.
- `changes`: what is new, changed or gone, compared with what an image holds.
- `carrying`: the commands that make the changes, many sent ahead of their replies.
- `memory`: what earlier runs brought in, to distinguish a change of the image from one of the folder.
- `room`: how many files and words an image has room for, what helps if they are too few, and what a folder needs in an image of its own.
- `private`: a copy of an image, on which a dry run works.
- `options`: numbers and dates of the command line.
- `report`: counts, and lines.

A text of a path is a `str` as the system gives it to Python; names and words of an image are bytes.
"""
