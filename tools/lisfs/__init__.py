"""The tools for images. They use only the built program, and are not proved.

What all tools share, each module using those above it:

- `constants`: limits, built-in heads and refusals of the program, copied from its sources.
- `limits`: limits of images, the smallest image that holds what is needed, and what helps if one is full.
- `words`: the forms of words and of names of files.
- `refusals`: what each refusal means.
- `formulas`: the one reader of formulas.
- `showing`: text that does nothing to a terminal.
- `client`: one run of the program.
- `endings`: the line that says which error has ended a tool.
- `dumps`: what an image holds at the start.
- `index`: which words each file has.
- `image`: an open image, and the index in step with it.
- `making`: makes an image whole or not at all.
- `derived`: how many words a file would have on its own if none were cut.

The tools: `folder` (`sync` and `import`), `mount`, `shell`, `web` (`browse`), `edit`, `enlarge`, `serve` and `talk`.
"""
