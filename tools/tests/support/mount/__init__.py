"""Requests to a mount and its answers, for its tests.

- `asking`: the ways to ask: directly, by messages, and as programs do.
- `answers`: tables of requests and answers, and mounts that get them.
- `mails`: a session that makes an image of mails.
- `programs.txt`: programs over a mount, and what they print.
"""
