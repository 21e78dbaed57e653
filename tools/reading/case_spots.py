"""Calls with a same-spot distance that are small enough to be computed by a proof, with the answers that tell each wrong reading of it."""
import math

from tools.generators.calls import Interpolate
from tools.patterns import bits
from tools.reading import case_text, fit, interpolator
from tools.reading.case_fits import print_case
from tools.reading.interpolator import ORDINARY, Query
from tools.reading.outcomes import of_fit, of_query
from tools.reading.survey import CONSTANT, EXTERNAL, Survey
from tools.reading.survey_file import file_length, write
from tools.reading.variogram import EXPONENTIAL, LINEAR, SAME_SPOT, SPHERICAL, Variogram
from tools.reading.wrong_spots import BY_NAME, OF_A_FIT, outcomes

LINE = Variogram(LINEAR, 0.0, 1.0, 1.0, 0.5)
HALF = Survey([2.0, 6.0], [0.0, 0.0, 0.5, 0.0], [CONSTANT], [], [0.25, 0.0], [], LINE, 0.0, 0.0)
JUST_BELOW = math.nextafter(0.5, 0.0)
# two wells in one yard and a third 5 away from the first, the field: nodes 0.25, 5 and 6.25 away from the first
YARD = Survey(
    values=[2.0, 5.0, 3.5],
    coords=[0.0, 0.0, 0.25, 0.0, 3.0, 4.0],
    codes=[EXTERNAL],
    external=[1.0, 0.5, 3.0],
    nodes=[0.0, 0.25, 5.0, 0.0, 3.75, 5.0],
    node_external=[1.5, 1.0, 2.0],
    variogram=Variogram(SPHERICAL, 0.25, 1.25, 8.0, 5.0),
    r=0.125,
    t=2.0**-50,
)
# two points half the field apart, one that is the field away from the first, and a target in the yard of a fourth
POINTS = Query(ORDINARY, 1, [2.0, 5.0, 3.5, 4.0], [0.0, 0.5, 1.0, 6.0], [3.0, 5.5], Variogram(SPHERICAL, 0.25, 1.25, 8.0, 1.0))


def at(call, spot):
    return call._replace(variogram=call.variogram._replace(same_spot=spot))


def apart(distance, r=0.0):
    return HALF._replace(coords=[0.0, 0.0, distance, 0.0], r=r)


def number_of(survey):
    return of_fit(survey)["number"][0]


def parts(outcome):
    return [outcome[name] for name in ("number", "figures", "variances", "weights", "multipliers", "trend")]


def print_told(right, sentences, module, outcome_of, call, never):
    """What each wrong sentence changes; those that this call cannot tell are named apart."""
    told = dict(outcomes(sentences, module, outcome_of, call))
    case_text.wrong(right, {name: other for name, other in told.items() if name not in never})
    print("not told here:", ", ".join(never))


def print_half():
    case_text.title("same spot 1: Linear 0, 1, 1 and field 0.5, two wells 0.5 apart (n = 2, p = 1, s = 3)")
    values = [LINE.evaluate(h) for h in (JUST_BELOW, 0.5)]
    assert list(map(bits, values)) == [0, bits(0.5)]
    outcome = print_case(HALF)
    # by hand: the node is at one spot with both wells, and these are not with each other
    assert parts(outcome) == [[0], [4.0], [0.0], [0.5, 0.5], [-0.25], [4.0]] and outcome["verdicts"] == [0]
    told = ["the field is the same spot too", "2^-52 in place of the field", "the field between wells alone", "distances counted from the field"]
    case_text.wrong(outcome, {name: other for name, other in outcomes(OF_A_FIT, fit, of_fit, HALF) if name in told})
    assert parts(of_fit(at(HALF, SAME_SPOT))) == [[0], [4.0], [0.25], [0.5, 0.5], [0.0], [4.0]]
    assert [number_of(apart(JUST_BELOW)), number_of(apart(0.25, 2.0**-52)), number_of(apart(0.25, 2.0**-53))] == [19, 0, 19]
    print("one step nearer 19; 0.25 apart with r = 2^-52 an answer, with 2^-53 19")


def print_yard():
    case_text.title("same spot 2: two wells in one yard, a third and a node at the field's distance (n = 3, m = 3, p = k = 1, s = 4)")
    outcome = print_case(YARD)
    assert outcome["number"] == [0]
    print_told(outcome, OF_A_FIT, fit, of_fit, YARD, ("the field cut off at the range", "squares compared before the root"))


def print_points():
    case_text.title("same spot 3: Ordinary, one axis, four points, two targets, the field 1 (s = 5)")
    outcome = of_query(POINTS)
    v = POINTS.variogram
    fields = {"kind": POINTS.kind, "d": POINTS.d, "values": POINTS.values, "coords": POINTS.coords, "targets": POINTS.targets}
    case_text.fields("inputs", {**fields, **v._asdict()})
    case_text.fields("expected", outcome)
    case_text.agrees(Interpolate(*POINTS[:5], tuple(v)).words(), case_text.ok(POINTS.m, outcome["figures"], outcome["variances"]))
    print_told(outcome, BY_NAME, interpolator, of_query, POINTS, ("the field cut off at the range", "squares compared before the root"))


def print_numbers():
    """22, 12, 11 and 10 by the field; the writer's own 22."""
    case_text.title("same spot: 22")
    below, above = math.nextafter(SAME_SPOT, 0.0), math.nextafter(SAME_SPOT, 1.0)
    assert [number_of(at(HALF, x)) for x in (below, 0.0, -0.0, -1.0, math.inf, math.nan)] == [22] * 6
    assert [number_of(at(HALF, x)) for x in (SAME_SPOT, above)] == [0, 0]
    without_range = HALF._replace(variogram=Variogram(EXPONENTIAL, 0.0, 1.0, 0.0))
    assert [number_of(at(without_range, x)) for x in (0.0, SAME_SPOT)] == [22, 12]
    assert number_of(at(HALF, 0.0)._replace(t=-1.0)) == 10
    assert number_of(HALF._replace(variogram=Variogram(LINEAR, 0.0, math.nan, 1.0, math.nan))) == 11
    room = file_length(HALF)
    assert [write(at(HALF, x), bytearray(room))[0] for x in (1.0, above, math.nan, SAME_SPOT)] == [22, 22, 22, 0]
    assert write(at(HALF, 1.0)._replace(r=math.nan), bytearray(room))[0] == 11 and write(at(HALF, 1.0), bytearray())[0] == 22
    assert write(at(HALF, 1.0)._replace(codes=[CONSTANT] * 65536), bytearray())[0] == 22
    print("22 by the f64 below 2^-52, 0, -0, -1, infinity and NaN; 2^-52 and the f64 above it are taken")
    print("Exponential with range 0: 22 with field 0, 12 with field 2^-52; t = -1 and field 0: 10; sill and field NaN: 11")
    print("the writer: 22 by 1, the f64 above 2^-52 and NaN, with no room and 65,536 codes too; 11 where r is NaN")


def print_all():
    print_half()
    print_yard()
    print_points()
    print_numbers()
