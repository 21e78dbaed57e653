"""Survey files by their bytes, put together here from the paper's sentence, apart from the reading's writer."""
import struct

from tools.reading import case_text
from tools.reading.case_fits import EXTERNALS, NO_NODES
from tools.reading.outcomes import shown
from tools.reading.survey import CONSTANT, EXTERNAL, LINEAR as LINEAR_DRIFT, Survey
from tools.reading.survey_file import Lists, body, read, trailer, write
from tools.reading.variogram import EXPONENTIAL, GAUSSIAN, LINEAR, SPHERICAL, Variogram
from tools.reading.wellmap import printed

SURVEY = Survey(
    values=[3.0],
    coords=[5.0, 7.0],
    codes=[CONSTANT, EXTERNAL],
    external=[9.0],
    nodes=[11.0, 13.0, 17.0, 19.0],
    node_external=[23.0, 29.0],
    variogram=Variogram(GAUSSIAN, 0.25, 2.0, 8.0),
    r=0.125,
    t=0.0625,
)
# the same with a third code: no two of n, m and the code count are equal
THREE_CODES = SURVEY._replace(codes=[CONSTANT, EXTERNAL, LINEAR_DRIFT])
NOTE = b"abc"
MODELS = {"Spherical": SPHERICAL, "Exponential": EXPONENTIAL, "Gaussian": GAUSSIAN, "Linear": LINEAR}


def parts(model=3, note=b"", n=1, m=2, r=0.125, t=0.0625, codes=(1, 4), code_count=None, version=1):
    """What stands in the file, in turn: its name and its bytes."""
    code_count = len(codes) if code_count is None else code_count
    yield "note", note
    for name, x in (("nugget", 0.25), ("sill", 2.0), ("range", 8.0), ("r", r), ("t", t)):
        yield name, struct.pack("<d", x)
    lists = ("value", [3.0]), ("coordinate", [5.0, 7.0]), ("external", [9.0]), ("node", [11.0, 13.0, 17.0, 19.0]), ("node external", [23.0, 29.0])
    for name, xs in lists:
        for x in xs:
            yield name, struct.pack("<d", x)
    yield "codes", bytes(codes)
    yield "S", struct.pack("<I", len(note))
    yield "n", struct.pack("<H", n)
    yield "m", struct.pack("<H", m)
    yield "code count", struct.pack("<H", code_count)
    yield "model", bytes([model])
    yield "version", bytes([version])
    yield "zeros", bytes([0, 0])


def joined(**changes):
    return b"".join(part for _, part in parts(**changes))


def written(survey):
    area = bytearray(400)
    number, length = write(survey, area)
    assert number == 0 and not any(area[length:])
    return bytes(area[:length])


def empty_lists(codes=2):
    return Lists([0.0] * 1, [0.0] * 2, [0] * codes, [0.0] * 1, [0.0] * 4, [0.0] * 2)


def assert_reads_back(data, survey):
    areas = empty_lists(len(survey.codes))
    number, got = read(data, areas)
    assert number == 0 and [list(map(shown, lent)) for lent in areas] == [list(map(shown, items)) for items in survey[:6]]
    assert list(map(shown, [*got.variogram, got.r, got.t])) == list(map(shown, [*survey.variogram, survey.r, survey.t]))


def print_bytes(data):
    for at in range(0, len(data), 16):
        print(f"  {at:4}", *(f"{byte:3}" for byte in data[at:at + 16]))


def print_parts(**changes):
    at = 0
    for name, part in parts(**changes):
        if part:
            print(f"  {at:4} {name:14} {part.hex(' ')}")
        at += len(part)


def print_file(title, data, **changes):
    case_text.title(title)
    print_parts(**changes)
    print(f"all {len(data)} bytes, in decimal")
    print_bytes(data)
    print("wellmap prints", repr(printed(data).decode()), "(7, since n < p)")


def print_written():
    data = joined()
    assert written(SURVEY) == data
    assert_reads_back(data, SURVEY)
    case_text.title("survey file: the survey")
    case_text.survey(SURVEY)
    print_file("survey file 1: what the writer writes (S = 0)", data)
    wrong = {
        "r and t exchanged": joined(r=0.0625, t=0.125),
        "n and m exchanged": joined(n=2, m=1),
        "models 2 and 3 exchanged": joined(model=2),
        "a note": joined(note=NOTE),
    }
    case_text.wrong({"bytes": list(data)}, {name: {"bytes": list(other)} for name, other in wrong.items()})


def print_with_note():
    data = joined(note=NOTE)
    assert_reads_back(data, SURVEY)
    print_file("survey file 2: the same survey after a note of three bytes (S = 3)", data, note=NOTE)


def print_three_codes():
    codes = THREE_CODES.codes
    data = joined(codes=codes)
    assert written(THREE_CODES) == data
    assert_reads_back(data, THREE_CODES)
    print_file("survey file 3: the same survey with codes 1, 4, 2 (n = 1, m = 2, three codes)", data, codes=codes)
    wrong = {
        "m and the code count exchanged": joined(codes=codes, m=3, code_count=2),
        "n and m exchanged": joined(codes=codes, n=2, m=1),
        "n and the code count exchanged": joined(codes=codes, n=3, code_count=1),
    }
    assert all(read(other, empty_lists(3))[0] == 16 for other in wrong.values())
    case_text.wrong({"bytes": list(data)}, {name: {"bytes": list(other)} for name, other in wrong.items()})


def print_orders():
    """16 before 18, and 18 alone."""
    case_text.title("survey file: 16 and 18")
    data, none = joined(codes=THREE_CODES.codes), Lists([], [], [], [], [], [])
    bare = SURVEY._replace(values=[], coords=[], codes=[], external=[], nodes=[], node_external=[])
    longest = bare._replace(codes=[CONSTANT] * 65482)
    too_long = bare._replace(codes=[CONSTANT] * 65483)
    assert (read(joined(codes=THREE_CODES.codes, version=2), none)[0], read(data, none)[0]) == (16, 18)
    assert [write(longest, bytearray(lent))[0] for lent in (65536, 65535, 0)] == [0, 18, 18]
    assert [write(too_long, bytearray(lent))[0] for lent in (65537, 65536, 0)] == [16, 16, 16]
    print("a file of another version, no room: 16; the file, no room: 18")
    print("65,482 codes alone make 65,536 bytes: written into so many, 18 where one is missing; 65,483: 16, with room and without")


def print_models():
    case_text.title("survey file: the model's byte, at 132 of file 1, the fourth from the end")
    for name, model in MODELS.items():
        survey = SURVEY._replace(variogram=SURVEY.variogram._replace(model=model))
        data = written(survey)
        assert data == joined(model=model) and data[-4] == model and data[132] == model
        assert_reads_back(data, survey)
        print(f"  {name:12} {data[132]}")
    for byte in (0, 5, 255):
        assert read(joined(model=byte), empty_lists())[0] == 16
        print(f"  byte {byte}: refused by 16")


def of_wells(n):
    """A survey of n wells and no node."""
    return SURVEY._replace(values=[3.0] * n, coords=[5.0, 7.0] * n, codes=[CONSTANT], external=[], nodes=[], node_external=[])


def with_version(survey, version):
    return body(survey) + trailer(survey, version=version)


def read_number(data):
    return read(data, Lists(*([0.0] * 1500 for _ in range(6))))[0]


def print_versions():
    case_text.title("survey file: the version's byte, the third from the end, by the wells")
    for n, version in ((0, 1), (48, 1), (49, 2), (96, 2)):
        area = bytearray(2400)
        number, length = write(of_wells(n), area)
        assert number == 0 and area[length - 3] == version and bytes(area[:length]) == with_version(of_wells(n), version)
        print(f"  {n} wells are written with version {version}")
    assert [write(of_wells(97), bytearray(lent))[0] for lent in (2400, 0)] == [16, 16]
    told = {1: {n: 0 for n in (0, 48, 49, 60, 97, 500)}, 2: {0: 16, 48: 16, 49: 0, 60: 0, 96: 0, 97: 16, 305: 16}, 0: {60: 16}, 3: {60: 16}}
    for version, numbers in told.items():
        assert {n: read_number(with_version(of_wells(n), version)) for n in numbers} == numbers, version
        print(f"  version {version} is read with wells and number", *(f"{n}: {number}," for n, number in numbers.items()))
    print("  97 wells are not written: 16, with room and without")


def print_reports():
    case_text.title("what wellmap prints for the files of fits 1 and 2")
    for survey in (EXTERNALS, NO_NODES):
        data = written(survey)
        print(f"the file's {len(data)} bytes\n  {data.hex()}\nwhat is printed")
        print(printed(data).decode(), end="")


def print_all():
    print_written()
    print_with_note()
    print_three_codes()
    print_orders()
    print_models()
    print_versions()
    print_reports()
