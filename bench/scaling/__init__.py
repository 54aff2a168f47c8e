"""The parts of `bench/scale`: collections of files of real size, in LISFS and beside it in other programs.

- `making`: makes the collections, and `mailing` their mails.
- `facts`: what a collection has: each file with its name, its size and its words; and how many files an image has room for.
- `systems`: what a program is asked that keeps a collection. `in_lisfs`, `in_sqlite` and `in_notmuch` are such programs.
- `questions`: what they are asked and what they change, with the right answers.
- `comparing`: the collection goes into each of them, and they are asked alternately.
- `growth`: how costs grow with files and with words.
"""
