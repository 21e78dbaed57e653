"""Which of the two ways a survey's sheets are run: both are proved, and give the same bits where both can be asked."""
from mapper.runs.building import program
from mapper.runs.by_library import ByLibrary
from mapper.runs.by_program import ByProgram
from mapper.runs.library_calls import library_calls
from mapper.runs.survey_file import PROGRAM_WELLS, WELLS, can_say, program_takes

BY_CALL = "The figures come from the library's proved call nakwemol_fit, and not from the program wellmap: %s."
TOO_MANY, NO_DISTANCE = f'this takes at most {PROGRAM_WELLS} wells', 'the survey files that this reads do not carry a same-spot distance'
FEWER, NO_SAME_SPOT = f'keep at most {PROGRAM_WELLS} wells', 'leave --same-spot out'


def most_wells(options):
    """How many wells a run takes: the program's where it is to run survey files, or its own lines are asked for; else the library's."""
    return PROGRAM_WELLS if options.sheets is not None or options.listing else WELLS


def way_of(survey, tell, progress=False):
    """The program wherever it takes a survey, so that anybody can run the sheets again; else the library's call."""
    if program_takes(survey):
        return ByProgram(program(tell, progress))
    return ByLibrary(*library_calls(tell, progress, f'Install one, or {" and ".join(instead for _, instead in reasons(survey))}.'))


def way_notes(survey):
    """What is said of the way, where it is not the usual one."""
    return [] if program_takes(survey) else [BY_CALL % ', and '.join(why for why, _ in reasons(survey))]


def reasons(survey):
    """Why the program cannot be asked, and what would have to be otherwise."""
    if len(survey.wells) > PROGRAM_WELLS:
        yield TOO_MANY, FEWER
    if not can_say(survey):
        yield NO_DISTANCE, NO_SAME_SPOT
