"""What is told on standard output. A reader that went away, as `head -1` does, is no reason to end: the files are written all the same."""
import os
import sys


def write(text):
    """Writes to standard output at once; where nobody reads it any more, what follows goes nowhere, and so does what Python flushes at its end."""
    try:
        sys.stdout.write(in_its_letters(text))
        sys.stdout.flush()
    except BrokenPipeError:
        nowhere = os.open(os.devnull, os.O_WRONLY)
        os.dup2(nowhere, sys.stdout.fileno())
        os.close(nowhere)


def in_its_letters(text):
    """A text in the letters that standard output has: of others, such as ±, a question mark is left."""
    encoding = sys.stdout.encoding or 'utf-8'
    return text.encode(encoding, 'replace').decode(encoding)


def tell(sentence):
    write(sentence + '\n')
