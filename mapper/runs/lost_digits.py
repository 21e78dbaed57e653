"""Lost digits, mended: as entered first, and where nodes fail, once more from a round corner near the wells."""
from dataclasses import dataclass
from typing import List

from mapper.doubts.spots import is_enough, option, spots_of
from mapper.errors import Refused
from mapper.lists.nodes import unanswered
from mapper.numbers import counted, shown
from mapper.records import Nodes, Run
from mapper.runs.origin import AS_ENTERED
from mapper.runs.refusals import refusal

SIMPLER = 'a simpler --trend may help, or one well in place of several close together'
ONE_OF_THEM = 'keep one of the wells that share a spot, or %s'
NUGGET = ', or a larger --nugget, without which a gaussian model hardly tells near wells apart'


@dataclass
class Attempt:
    """One way through the nodes: its run, the nodes as it answered them, and the program's listings where they are asked for."""
    run: Run
    nodes: Nodes
    listings: List[bytes]


def named(origin):
    return f'({shown(origin[0])}, {shown(origin[1])})'


def as_asked(origin):
    return f'The origin is moved to {named(origin)}, as asked.'


def drawn_map(made):
    """The map of the better attempt, as entered where they are alike, and its listings."""
    attempts = attempts_of(made)
    drawn = max(range(len(attempts)), key=lambda i: (not attempts[i].run.refused, attempts[i].run.passed))
    made.leave_out(attempts[drawn].run.origin)
    for sentence in made.turned_away:
        made.tell(sentence)
    for sentence in told([each.run for each in attempts], drawn, made.options.origin, what_helps(made.survey)):
        made.say(sentence)
    return made.map(attempts[drawn].nodes, [each.run for each in attempts], drawn), attempts[drawn].listings


def attempts_of(made):
    """The attempt that `--origin` names; else the one as entered, and where that leaves something to mend the moved one."""
    wanted, to = made.options.origin, made.corner
    if wanted == 'moved':
        return [attempt(made, to, 'moved', False)]
    mendable = wanted == 'auto' and to != AS_ENTERED
    entered = attempt(made, AS_ENTERED, 'as entered', mendable)
    if not mendable or not (entered.run.failed or entered.run.refused):
        return [entered]
    return [entered, attempt(made, to, 'moved', not entered.run.refused)]


def attempt(made, origin, what, may_be_refused):
    """One way through the nodes. A refusal by 19 is an attempt too where there is another one: digits may be all that is missing in one of them."""
    nodes, listings = unanswered(made.nodes.x, made.nodes.y, made.nodes.names), []
    try:
        run = made.through(made.sheets(origin, nodes), what, listings.append if made.options.listing else None)
    except Refused as refused:
        if refused.number != 19 or not may_be_refused:
            raise made.refused(refused.number)
        run = Run(origin, {}, refused.number)
        made.turned_away.append(turned_away(made, origin, refused.number))
    return Attempt(run, nodes, listings)


def turned_away(made, origin, number):
    where = 'As entered' if origin == AS_ENTERED else f'With the origin moved to {named(origin)}'
    return f'{where} the map is turned away. {refusal(number, made.wells, made.options.trend, made.external)}'


def told(runs, drawn, wanted, helps):
    """What there is to say of the runs: where the origin is moved both counts in one sentence; and what to do about nodes that fail still."""
    if wanted == 'moved':
        yield as_asked(runs[0].origin)
    elif len(runs) == 2:
        yield both(*runs, drawn)
    failed = runs[drawn].failed
    if failed:
        yield f'{counted(failed, "node")} did not pass, {tried(len(runs), wanted)}; {helps}.'


def what_helps(survey):
    """What may mend nodes that fail: of wells at one spot one is enough, whatever the trend and the model."""
    if spots_of(survey.wells):
        return ONE_OF_THEM % ('take a simpler --trend' if is_enough(survey) and survey.trend != 'constant' else f'give {option(survey)}')
    return SIMPLER + (NUGGET if survey.variogram.model == 'gaussian' else '')


def tried(runs, wanted):
    """What was done about the origin of nodes that fail."""
    if wanted == 'auto':
        return 'and moving the origin does not mend it' if runs == 2 else 'with the origin near the wells already'
    return 'with coordinates as entered (without --origin the origin is moved where that helps)' if wanted == 'as-entered' else 'with the origin moved'


def both(entered, moved, drawn):
    total = counted(sum((moved if entered.refused else entered).verdicts.values()), 'node')
    first = f'the map is refused by {entered.refused}' if entered.refused else f'{entered.passed:,} of {total} pass'
    second = f'it is refused by {moved.refused}' if moved.refused else f'{moved.passed:,} {"of " + total + " pass" if entered.refused else "do"}'
    which = 'with the origin moved' if drawn else 'as entered'
    return f'With coordinates as entered {first}; with the origin moved to {named(moved.origin)} {second}; the map is drawn {which}.'
