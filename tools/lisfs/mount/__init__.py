"""An image as a file system for any program: the parts of `tools/mount`. None of it is proved.

- `cli`: the command.
- `image`: what folders show of an open image, and the commands that change it.
- `nodes`: what a mount keeps, apart from the image, about each file and folder that the kernel knows.
- `shown`: which words a folder shows, so that a program that walks all folders comes to an end.
- `tree`: the calls of a file system, answered from an image, whatever way they come.
- `kernel`: the kernel's protocol: the messages of /dev/fuse.
- `attach`: how it is mounted on a folder, and unmounted.
"""
