"""Builds the oracle, feeds calls to it and reads its answers: see README.md for the protocol."""
import pathlib
import subprocess
import sys

ROOT = pathlib.Path(__file__).resolve().parents[2]
PROGRAM = ROOT / "target" / "oracle" / "oracle"
# answers the calls that name a same-spot distance
SECOND = PROGRAM.with_name("oracle_same_spot")


def build(source):
    """The oracle, from the path of the original kriging.rs."""
    subprocess.run([ROOT / "tools" / "oracle" / "build.sh", source], check=True, stdout=subprocess.DEVNULL)


def answers_of(program, calls):
    if not program.exists():
        sys.exit("build the oracle first: tools/oracle/build.sh PATH-OF-KRIGING.RS")
    run = subprocess.run([program], input="\n".join(calls) + "\n", text=True, capture_output=True)
    if run.returncode != 0:
        sys.exit(run.stderr)
    answers = run.stdout.splitlines()
    assert len(answers) == len(calls), (len(answers), len(calls))
    return answers


def ask(calls):
    """The oracle's answers, a line each, to the calls, a line each: those that name a same-spot distance are the second build's, all others the original's."""
    named = [call.startswith("below ") for call in calls]
    answers = {}
    for program, second in ((PROGRAM, False), (SECOND, True)):
        places = [place for place, names in enumerate(named) if names == second]
        if places:
            answers.update(zip(places, answers_of(program, [calls[place] for place in places])))
    return [answers[place] for place in range(len(calls))]
