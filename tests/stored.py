"""Stored files: a program of these tests writes them, or says whether they are what it makes."""
import os
import sys

TOP = os.path.join(os.path.dirname(os.path.abspath(__file__)), '..')


def crate(name, made):
    """Files of a crate, by their names."""
    return {os.path.join(TOP, 'crates', name, file): content for file, content in made.items()}


def settle(made, write):
    """`made` has each file's path, and its content as text or bytes."""
    for path, content in made.items():
        data = content if isinstance(content, bytes) else content.encode()
        if write:
            with open(path, 'wb') as f:
                f.write(data)
            continue
        with open(path, 'rb') as f:
            if f.read() != data:
                sys.exit('%s is not what this program makes' % os.path.relpath(path, TOP))
