"""Running a program on an input that is given whole or, through a pipe, in pieces that cut lines anywhere. One of rt's is
proved and built first, where it is not built yet of what stands here."""
import functools
import os
import subprocess
import tempfile
import threading
import time

from stored import TOP

START = os.path.join(TOP, 'host', 'start')


def command(name, *arguments):
    """How a program that rt built is started."""
    return [START, os.path.join(TOP, 'target', 'bin', name), *arguments]


@functools.lru_cache(maxsize=None)
def build(program):
    """Builds it, once in a run of these tests."""
    subprocess.run([os.path.join(TOP, 'host', 'build'), os.path.basename(program)], check=True)


def given(pipe, data, pieces):
    """Writes an input in so many pieces, or until the program takes no more."""
    size = max(1, -(-len(data) // pieces))
    try:
        with pipe:
            for at in range(0, len(data), size):
                pipe.write(data[at:at + size])
                pipe.flush()
                if pieces > 1:
                    time.sleep(0.002)
    except BrokenPipeError:
        pass


def printed(words, data, pieces):
    """What it prints on standard output and on standard error, as bytes, and its exit status."""
    if words[0] == START:
        build(words[1])
    with tempfile.TemporaryFile() as errors:
        program = subprocess.Popen(words, stdin=subprocess.PIPE, stdout=subprocess.PIPE, stderr=errors)
        writer = threading.Thread(target=given, args=(program.stdin, data, pieces))
        writer.start()
        with program.stdout:
            out = program.stdout.read()
        status = program.wait()
        writer.join()
        errors.seek(0)
        return out, errors.read(), status
