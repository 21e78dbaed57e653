"""The foot of the page: where the map comes from, so that it can be made again."""
from html import escape

SHOWN = 16  # digits of a checksum; the whole of it is in the title


def checksum(digits):
    return '<span class="checksum" title="%s">%s</span>' % (escape(digits), escape(digits[:SHOWN]))


def foot(m):
    """The day, the list and its checksum, and what was run with its own; nothing where they are not known."""
    source = m.source
    if source is None:
        return ''
    return '<footer><p>Made on %s from %s (SHA-256 %s) by %s (SHA-256 %s).</p></footer>' % (
        escape(source.made), escape(source.list_name), checksum(source.checksum), escape(source.by), checksum(source.program))
