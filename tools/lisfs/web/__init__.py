"""An image in a web browser: the parts of `tools/browse`. None of it is proved.

- `cli`: the command.
- `places`: a place as steps that can be taken out, negated and joined.
- `image`: what a page asks the program, the changes, and the index, which is updated with them.
- `contents`: which of a file's bytes are shown as text.
- `markup`: HTML in which all that is not markup is escaped.
- `pages`: the pages, made from what `image` returns.
- `site`: who may send requests, and which page or change is requested.
- `connections`: many clients at once, none of which delays another one.
- `style.css`, `script.js`, `icon.svg`: all that a browser gets besides the pages.
"""
