"""The two judgements at the head of the page, never one for the other: whether the arithmetic held, and what is doubtful in the list."""
import re
from html import escape

from mapper.doubts.judgements import arithmetic_words, capital, doubt_words
from mapper.drawing.scales import count

# Signs beside the colours, for eyes and printers that do not tell these apart.
SIGNS = {
    'sound': '<circle cx="8" cy="8" r="7"/><path d="M4.6 8.4L7 10.8L11.6 5.6"/>',
    'failed': '<circle cx="8" cy="8" r="7"/><path d="M5.3 5.3L10.7 10.7M10.7 5.3L5.3 10.7"/>',
    'doubted': '<path d="M8 1.5L15 14H1Z"/><path d="M8 6V9.6M8 11.4V12.2"/>',
}
GRAVE = 'This cannot be a water table, and was drawn by --anyway:'


def in_pieces(sentence):
    """A sentence as HTML; its options are kept in one piece, since a line may else end between their hyphens."""
    return re.sub(r'--[a-z][a-z-]*', r'<span class="option">\g<0></span>', escape(sentence))


def told(sentence):
    """A sentence as an item of a list."""
    return '<li>%s</li>' % in_pieces(sentence)


def judgement(kind, name, body):
    """One of the two lines: its kind has a colour and a sign."""
    sign = '<svg xmlns="http://www.w3.org/2000/svg" class="sign" viewBox="0 0 16 16" aria-hidden="true">%s</svg>' % SIGNS[kind]
    return '<div class="judgement %s %s">%s<div>%s</div></div>' % (name, kind, sign, body)


def arithmetic(m):
    """How many nodes passed the audit, and what it means that some did not."""
    run = m.runs[m.drawn]
    words = '<strong>%s.</strong>' % capital(arithmetic_words(run.passed, run.passed + run.failed))
    if run.failed:
        words += ' %s did not pass the audit and %s no level.' % (count(run.failed), 'has' if run.failed == 1 else 'have')
    return judgement('failed' if run.failed else 'doubted' if m.doubts else 'sound', 'arithmetic', '<p>%s</p>' % words)


def doubt_item(doubt):
    """A doubt as an item of a list; a grave one says first what it is."""
    return '<li>%s%s</li>' % ('<strong>%s</strong> ' % in_pieces(GRAVE) if doubt.grave else '', in_pieces(doubt.sentence))


def the_list(m):
    """What is doubtful in the list, the gravest first, or that nothing was found."""
    words = '<p><strong>%s%s</strong></p>' % (capital(doubt_words(m.doubts)), ':' if m.doubts else '.')
    if not m.doubts:
        return judgement('sound', 'list', words)
    first = sorted(m.doubts, key=lambda doubt: not doubt.grave)
    return judgement('doubted', 'list grave' if first[0].grave else 'list', words + '<ul>%s</ul>' % ''.join(map(doubt_item, first)))


def banner(m):
    """Both judgements, a line each."""
    return '<div class="banner">%s%s</div>' % (arithmetic(m), the_list(m))
