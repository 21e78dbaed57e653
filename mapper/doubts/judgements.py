"""The two judgements, never one for the other: whether the arithmetic held, and what is doubtful in the list."""
from mapper.errors import Stop
from mapper.numbers import counted

NO_DOUBT = 'nothing doubtful was found in the list'
DOUBTFUL = 'Doubtful: '


def arithmetic_words(passed, total):
    """How many nodes passed the audit."""
    return f'the arithmetic held at {passed:,} of {counted(total, "node")}'


def doubt_words(doubts):
    """How much is doubtful, in a few words."""
    return f'{counted(len(doubts), "doubt")} about the list' if doubts else NO_DOUBT


def capital(words):
    return words[:1].upper() + words[1:]


def both_words(m, where):
    """Both judgements in the line that a run ends with; `where` the doubts are told."""
    return f'{capital(arithmetic_words(m.runs[m.drawn].passed, len(m.nodes)))}; {doubt_words(m.doubts)}{f", {where}" if m.doubts else ""}'


def in_order(doubts):
    """Grave doubts before the others, which stay as they are."""
    return sorted(doubts, key=lambda doubt: not doubt.grave)


def doubt_lines(doubts):
    """Each doubt as a line of its own."""
    return [DOUBTFUL + ' '.join(doubt.sentence.split()) for doubt in doubts]


def judgement_lines(m):
    """Both judgements, a line each, and a line for each doubt."""
    return [capital(arithmetic_words(m.runs[m.drawn].passed, len(m.nodes))) + '.'] + (doubt_lines(m.doubts) or [capital(NO_DOUBT) + '.'])


def stop_where_grave(doubts):
    """Ends a run whose list cannot be one of a water table."""
    grave = [doubt.sentence for doubt in doubts if doubt.grave]
    if grave:
        said = '\n'.join(['This cannot be a map of a water table:'] + [f'  {sentence}' for sentence in grave])
        raise Stop(f'{said}\nNothing was written. --anyway draws it all the same, with the doubt on the page.')
