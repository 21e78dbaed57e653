"""The variogram that the map is made with: the numbers given, the others fitted, and the sentence that says which."""
from mapper.model.fitting import fit
from mapper.model.residuals import residuals
from mapper.model.semivariogram import LEAST_FITTED, NEARER, bins_of, greatest_distance
from mapper.model.variogram_models import RANGES, REACH
from mapper.numbers import counted, shown, significant
from mapper.records import Variogram
from mapper.runs.building import library_there

FIGURES = 4       # of a fitted number, so that what is said is what was taken
NO_SPREAD = 1e-9  # of the levels: residuals below this are rounding
NOTHING_LEFT = ('The levels leave nothing to fit a model to (they are the same, or the trend goes through all of them), so a plain one was taken; '
                'the variances have no scale then.')
FEW_BINS = 'So few wells make too few bins to fit a model to, so a plain one was taken: '


def variogram_of(wells, trend, external, model, given, tell, progress=False):
    """The variogram, its bins, and a sentence, empty where all numbers are given; the bins are then left out where the call is not built."""
    if given.whole() and not (library_there() and len(wells) > 1):
        return Variogram(model, given.nugget, given.sill, given.range), [], ''
    rest = residuals(wells, trend, external) if trend != 'constant' or external else [well.level for well in wells]
    bins = bins_of(wells, rest, tell, progress)
    if given.whole():
        return Variogram(model, given.nugget, given.sill, given.range), bins, ''
    numbers, how, said = taken(wells, bins, model, given)
    variogram = Variogram(model, *numbers, how, given.names())
    return variogram, bins, f'{said} {told(variogram)} {source(wells, bins, trend, external, variogram.fitted)}'


def taken(wells, bins, model, given):
    """The three numbers, whether they are fitted or those of a plain model, and the sentence that says so."""
    longest, used = greatest_distance(wells), [each for each in bins if each.used]
    high = max(abs(well.level) for well in wells)
    plain_range = significant(longest / 2 / REACH[model], FIGURES) or 1.0
    if not max(each.semivariance for each in bins) > (NO_SPREAD * high) ** 2:
        return plain(given, model, 1.0, plain_range), 'plain', NOTHING_LEFT
    if len(used) < LEAST_FITTED:
        mean = sum(each.semivariance * each.pairs for each in bins) / sum(each.pairs for each in bins)
        sill = significant(mean, FIGURES)
        return plain(given, model, sill, plain_range), 'plain', FEW_BINS + plain_words(given, model, sill, longest)
    nugget, sill, span = (significant(each, FIGURES) for each in fit(used, model, given, longest))
    said = 'The model was fitted to the semivariogram.'
    if given.range is None and span >= significant(longest / REACH[model], FIGURES):
        said += f' The bins do not level off as far as the wells reach, so {RANGES[model]} is that reach; a trend may be missing.'
    return filled(given, *usable(model, nugget, sill), span), 'fitted', said


def filled(given, nugget, sill, span):
    """What is given goes before what was worked out."""
    return nugget if given.nugget is None else given.nugget, sill if given.sill is None else given.sill, span if given.range is None else given.range


def plain(given, model, sill, span):
    """A model for what cannot be fitted: no nugget, or the one given, and a sill above it."""
    nugget = given.nugget or 0.0
    return filled(given, nugget, sill if is_above(given, model, sill) else 2 * nugget, span)


def is_above(given, model, sill):
    """Whether a sill leaves something to the distance beside the nugget that is given, if any."""
    return model == 'linear' or sill > (given.nugget or 0.0)


def plain_words(given, model, sill, longest):
    """What a plain model is made of, but for what is given."""
    words = [] if given.sill is not None else ["the bins' average as the sill" if is_above(given, model, sill) else 'twice the nugget as the sill']
    if given.range is None:
        words.append(f'half the greatest distance as {RANGES[model]}' if longest else 'a range of one metre, since all wells share a spot')
    return ', '.join(words or ['no nugget']) + '.'


def usable(model, nugget, sill):
    """A sill above the nugget, and above nothing: a hundredth is left to the distance where the bins show none of it."""
    least = nugget / 100 or 1e-9
    return nugget, max(sill, significant(least if model == 'linear' else nugget + least, FIGURES))


def told(variogram):
    """The numbers as options, which give the same map again."""
    options = f'--model {variogram.model} --nugget {shown(variogram.nugget)} --sill {shown(variogram.sill)} --range {shown(variogram.range)}'
    return f'Taken: {options}' + (f' ({" and ".join(variogram.given)} as given).' if variogram.given else '.')


def source(wells, bins, trend, external, fitted):
    """What the bins were worked out on."""
    left = '' if trend == 'constant' and not external else f', on what a {trend} trend{f" with {external}" if external else ""} leaves over'
    nearer = shown(significant(NEARER * greatest_distance(wells), 3))
    far = f', of which those up to {nearer} m were fitted' if fitted and not all(each.used for each in bins) else ''
    return f'The semivariogram has {counted(len(bins), "bin")} of {counted(len(wells), "well")}{left}{far}.'
