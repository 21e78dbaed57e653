"""The variogram models, for the curve and the fit: how far each has risen at a distance, and how many ranges it takes to the top."""
import math

# The exponential and the gaussian model only come near the top: to 95 in a hundred of the rise, e^−3 being a twentieth.
REACH = {'spherical': 1.0, 'exponential': 3.0, 'gaussian': math.sqrt(3.0), 'linear': 1.0}
RANGES = {'spherical': 'the range', 'exponential': 'three times the range', 'gaussian': '√3 times the range', 'linear': 'the range'}
FORMULAS = {
    'spherical': 'nugget + (sill − nugget)·(1.5·q − 0.5·q³) with q = h ÷ range, and sill from the range on',
    'exponential': 'nugget + (sill − nugget)·(1 − e^−(h ÷ range))',
    'gaussian': 'nugget + (sill − nugget)·(1 − e^−(h² ÷ range²))',
    'linear': 'nugget + sill·(h ÷ range), and nugget + sill from the range on',
}


def rise(model, h, span):
    """How much of the way from bottom to top a model of that range has risen at the distance h."""
    if model == 'exponential':
        return 1.0 - math.exp(-(h / span))
    if model == 'gaussian':
        return 1.0 - math.exp(-(h * h) / (span * span))
    q = min(h / span, 1.0)
    return q if model == 'linear' else 1.5 * q - 0.5 * q ** 3
