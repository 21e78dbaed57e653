"""Where a map comes from: checksums of the list and of what was run, and the day."""
import hashlib
from datetime import date
from pathlib import Path

from mapper.errors import Stop
from mapper.records import Source


def checksum(path):
    """The SHA-256 of a file."""
    try:
        return hashlib.sha256(Path(path).read_bytes()).hexdigest()
    except OSError as error:
        raise Stop(f'{path} cannot be read: {error.strerror}.')


def source_of(wells, way):
    """The list of wells, the way that its sheets were run (runs/ways.py), and the day by the local clock."""
    return Source(Path(wells).name, checksum(wells), checksum(way.path), date.today().isoformat(), way.called)
