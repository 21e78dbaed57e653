"""What is doubtful about the numbers that the map was asked for: what they let through, or smooth away."""
from mapper.numbers import shown
from mapper.records import Doubt

TOLERANCE = 1e-3
SHARE = 0.01  # of the model's top


def setting_doubts(survey):
    """The doubts about tolerance, regularization and nugget."""
    variogram, found = survey.variogram, []
    if survey.tolerance > TOLERANCE:
        found.append(f'The audit was told to allow {shown(survey.tolerance)}, and finds little wrong then. Leave --tolerance out, which is 1e-9, '
                     f'or give {TOLERANCE:g} at most.')
    if survey.regularization > SHARE * variogram.top:
        found.append(f'The regularization, {shown(survey.regularization)}, is more than a hundredth of what the model rises to, {shown(variogram.top)}: '
                     'it smooths the levels at the wells away. Leave --regularization out, or give a smaller one.')
    if variogram.nugget > variogram.top:
        found.append(f'The nugget, {shown(variogram.nugget)}, is above the sill, {shown(variogram.sill)}: near wells count less than far ones then. '
                     'Give a --sill above the --nugget, or leave both out to have them fitted.')
    return [Doubt(sentence) for sentence in found]
