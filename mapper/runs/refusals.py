"""Words for every refusal, for the driller: what is wrong, and what to do. Numbers are those of docs/REFERENCE.md, section 8."""
from mapper.doubts.spots import spots_of
from mapper.naming import called, several
from mapper.nearest_wells import near_advice
from mapper.numbers import counted
from mapper.runs.survey_file import DRIFT, NODES, PROGRAM_WELLS, WELLS, columns

REFUSALS = {
    1: 'A well has a level without a place, or a place without a level. Look for the well whose x, y or level is missing; fill it in, or take the well out.',
    2: 'A node has only one of its two coordinates. Give every node both x and y.',
    3: 'No trend was named. Choose one; --trend constant is the plain choice.',
    4: 'The survey names a trend that the program does not know. Choose --trend constant, linear or quadratic, and name a further column by --external.',
    5: 'The regularization is below zero or not a number. Give 0 or a small number above it, such as --regularization 1e-10.',
    6: 'The external column does not have one number for each well. Fill it in at every well, or leave --external out.',
    7: 'There are fewer wells than the trend needs: constant needs 1, linear 3, quadratic 6, and an external column one more. '
       'Measure more wells, or choose a simpler trend.',
    8: 'The external column does not have one number for each node. Fill it in at every node, or leave --external out.',
    9: f'This is more than is taken: at most {WELLS} wells ({PROGRAM_WELLS} by the program wellmap, as for --sheets and --listing), {DRIFT} columns of the '
       f'trend and {NODES} nodes a sheet. Keep the wells that matter most for the place, or make several maps.',
    10: 'The tolerance is below zero or not a number. Give 0 or a number above it, such as --tolerance 1e-9.',
    11: 'A number is not finite: of the model, or a level, a coordinate or an external value that is empty or too large. '
        'Correct it, or leave its well or node out.',
    12: 'The exponential model has a range that is not above zero. Give --range in metres, above 0, or leave it out to have it fitted; or choose another '
        '--model.',
    13: 'The points do not have two coordinates each. Give every well x and y.',
    14: 'A semivariogram needs at least two wells. Measure one more, or give --nugget, --sill and --range yourself.',
    15: 'The semivariogram was asked for with fewer than 1 or more than 64 bins. Ask for a number between them.',
    16: 'The survey file is not whole. Write it anew, and see that it is carried over byte for byte.',
    17: 'The program was lent too little room to work in. This should not happen with this tool; build the program anew, and report it.',
    18: 'The program was lent too little room for its answers. This should not happen with this tool; build the program anew, and report it.',
    19: 'The wells do not settle the map: the equations have no single answer.',
    22: 'The same-spot distance is not a number of metres above 0. Give --same-spot in metres, such as 0.01 for a centimetre, or leave it out.',
    100: 'A call named a model or a kind of kriging that there is none of. Choose --model spherical, exponential, gaussian or linear.',
}


def refusal(number, wells=(), trend='constant', external=None, asked=None, most=WELLS):
    """The sentence for a refusal, with what these wells have to do with it; `asked` is the place that was asked for, if any, and `most` how many are taken."""
    said = f'Refused ({number}). {REFUSALS.get(number, "The program gave a number that is not known here; build it anew.")}'
    if number == 7 and wells:
        need = len(columns(trend, external))
        said += f' The {trend} trend{f" with {external}" if external else ""} needs {counted(need, "well")}; this list has {len(wells)}.'
    if number == 9 and wells:
        said += f' This list has {counted(len(wells), "well")}.{too_many(wells, asked, most)}'
    return said + (f' {unsettled(wells, trend, external)}' if number == 19 else '')


def too_many(wells, asked, most):
    """What to do about wells past what is taken: nothing where they are not too many."""
    if len(wells) <= most:
        return ''
    whole = ' Without --sheets and --listing all of them are taken.' if len(wells) <= WELLS else ''
    return f'{whole} {near_advice(wells, asked, most)}'


def unsettled(wells, trend, external):
    """Why a pivot may be too small, and what to do."""
    spots = spots_of(wells)
    if spots:
        which = '; '.join(several(map(called, same)) for same in spots)
        return f'These wells share a spot: {which}. Keep one of each, or raise --regularization, to a millionth of the sill for example.'
    causes = []
    if trend != 'constant':
        causes.append(f'all wells on one {"line or curve" if trend == "quadratic" else "line"}')
    if external:
        causes.append(f'a column {external} that is the same at every well, or goes with the trend')
    if causes:
        return f'No two wells share a spot; look for {" or ".join(causes)}, and choose a simpler trend.'
    return 'No two wells share a spot; look at --sill and --nugget, which may be too small to tell wells apart, or raise --regularization.'
