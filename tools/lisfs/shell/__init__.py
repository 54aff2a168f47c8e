"""A prompt over an image: the parts of `tools/shell`. None of it is proved.

- `cli`: the command.
- `commands`: the syntax of each command, what it does, and when it is refused.
- `session`: the place of an open image, the names of its files, and which of them are at a place.
- `explaining`: a sentence for each refusal, with the word that it is about.
- `looking`, `tagging`, `copying`: the shell's own commands.
- `undoing`: what undoes each command.
- `earlier`: the last change of an earlier shell, for `undo`.
- `running`: runs a line.
- `completing`: what Tab completes.
- `terminal`: what a person sees and types.
"""
