"""The exported calls of the archive over ctypes, as include/nakwemol.h has them: lists and areas of the reading in, the areas as they are after out."""
import ctypes
import pathlib
import subprocess
from ctypes import POINTER, c_double, c_size_t, c_uint8

NUMBERS, BYTES = [POINTER(c_double), c_size_t], [POINTER(c_uint8), c_size_t]
WELLS, NODES = [*NUMBERS, *NUMBERS, *BYTES, *NUMBERS], [*NUMBERS, *NUMBERS]
# the model, then nugget, sill, range and same-spot distance
VARIOGRAM = [c_uint8, *[c_double] * 4]
SURVEY = [*WELLS, *VARIOGRAM, c_double, *NODES, c_double]
PARAMETERS = {
    "nakwemol_fit": [*SURVEY, *NUMBERS, *NUMBERS, *NUMBERS, *BYTES, *NUMBERS, *NUMBERS, *NUMBERS],
    "nakwemol_interpolate": [*NUMBERS, *NUMBERS, *NUMBERS, c_size_t, c_uint8, *VARIOGRAM, *NUMBERS, *NUMBERS, *NUMBERS],
    "nakwemol_read": [*BYTES, *WELLS, *NODES, POINTER(c_size_t * 3), POINTER(c_double * 5), POINTER(c_uint8)],
    "nakwemol_write": [*SURVEY, *BYTES, POINTER(c_size_t)],
}


def load(archive, folder):
    """The calls of an archive, which is linked into a shared object in a folder."""
    shared = pathlib.Path(folder) / "libnakwemol.so"
    shared.parent.mkdir(parents=True, exist_ok=True)
    subprocess.run(["cc", "-shared", "-o", shared, "-Wl,--whole-archive", archive, "-Wl,--no-whole-archive"], check=True)
    library = ctypes.CDLL(str(shared))
    for name, parameters in PARAMETERS.items():
        getattr(library, name).argtypes = parameters
        getattr(library, name).restype = c_uint8
    return library


def numbers(xs):
    return (c_double * len(xs))(*xs)


def codes(xs):
    return (c_uint8 * len(xs))(*xs)


def handed(arguments):
    """An array goes as a pointer and its length, all else as it is."""
    for argument in arguments:
        yield argument
        if isinstance(argument, ctypes.Array):
            yield len(argument)


def survey_arguments(survey):
    wells = numbers(survey.values), numbers(survey.coords), codes(survey.codes), numbers(survey.external)
    return [*wells, *survey.variogram, survey.r, numbers(survey.nodes), numbers(survey.node_external), survey.t]


def fit(library, survey, areas):
    """A fit's number, and its areas after."""
    after = areas._make(codes(area) if name == "verdicts" else numbers(area) for name, area in areas._asdict().items())
    order = [after.work, after.figures, after.variances, after.verdicts, after.weights, after.multipliers, after.trend]
    number = library.nakwemol_fit(*handed([*survey_arguments(survey), *order]))
    return number, after._make(map(list, after))


def interpolate(library, query, areas):
    """An interpolation's number, and its areas after."""
    after = areas._make(map(numbers, areas))
    lists = numbers(query.values), numbers(query.coords), numbers(query.targets)
    call = [*lists, query.d, query.kind, *query.variogram, after.work, after.figures, after.variances]
    return library.nakwemol_interpolate(*handed(call)), after._make(map(list, after))


def write(library, survey, area):
    """The writer's number, how many bytes it says that it wrote, and the area after. Where it is refused it says nothing: 77 stays."""
    after, length = codes(area), c_size_t(77)
    number = library.nakwemol_write(*handed([*survey_arguments(survey), after, ctypes.byref(length)]))
    return number, length.value, bytes(after)


def read(library, data, lengths):
    """The reader's number, the lists that it read, and nugget, sill, range, r, t and the model that it hands back."""
    areas = [codes([0] * length) if place == 2 else numbers([0.0] * length) for place, length in enumerate(lengths)]
    counts, options, model = (c_size_t * 3)(), (c_double * 5)(), c_uint8(0)
    places = [ctypes.byref(counts), ctypes.byref(options), ctypes.byref(model)]
    number = library.nakwemol_read(*handed([codes(data), *areas]), *places)
    return number, [list(area) for area in areas], [*options], model.value
