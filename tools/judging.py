"""Whether what a run answered and left is what a run of its trace may answer and leave, by the second reading."""
from reference import Image, show
from reference_runs import Answered, keeps_others, must, opening_of
from reference_texts import bad_request, requests_of


def judge(before, text, said, left, workers, budget):
    """What the run was, if it may be so."""
    must(bad_request(text) is None, f"the trace is bad in line {bad_request(text)}")
    trace, lines, opened = requests_of(text), said.decode().splitlines(), Image(before)
    replies, rest = lines[: len(trace)], lines[len(trace) :]
    must(rest and rest[0] in ("run closed", "run stopped"), "it isn't said how the run ended")
    is_stopped = rest[0] == "run stopped"
    run = Answered(opening_of(opened), trace, workers, replies, is_stopped)
    image = Image(left)
    must(image.state() == ("dirty" if is_stopped else "clean"), f"left {image.state()}")
    must(rest[1:] in (show(left, False), show(left, True)), "the report is of another image")
    must(keeps_others(opened, image), "what roots behind the eighth reach was changed")
    run.check(budget, opening_of(image).values, image.used)
    return (
        f"{rest[0]}, as it may: {len(replies) - replies.count('unanswered')} of {len(trace)} "
        f"requests answered, {len(run.arrivals)} of them moves that were done"
    )
