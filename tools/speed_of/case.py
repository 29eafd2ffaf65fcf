"""What is measured, and how it is measured on one program or on two in turn."""
from dataclasses import dataclass, field


class Missing(Exception):
    """Why something is not measured."""


@dataclass
class Case:
    """One thing that is measured: `measure` takes a program and gives a number for each name of a figure."""

    part: str
    name: str
    rows: int
    measure: object
    unit: str = "s"
    work: int = 0  # how much is done in the measured time, for a rate; 0: no rate
    base: str = ""  # cases of the same base are compared with the first of them, by the time of one piece of work
    is_shared: bool = False  # whether it is measured once, and not for each program


@dataclass
class Figure:
    """The numbers of one case and one name, a list for each program, in the order of the passes."""

    case: Case
    name: str
    numbers: list = field(default_factory=list)
    reason: str = ""


def figure_of(case, name, count, figures):
    """The figure of a case and a name, a new one for so many programs if there is none yet."""
    return figures.setdefault((case.part, case.name, case.rows, name), Figure(case, name, [[] for _ in range(count)]))


def measured_once(case, program, place, count, figures):
    """Measures a case on one program, and adds to its figures what came of it: whether it could."""
    try:
        numbers = case.measure(program)
    except Missing as reason:
        figure_of(case, "", count, figures).reason = str(reason)
        return False
    for name, number in numbers.items():
        figure_of(case, name, count, figures).numbers[place].append(number)
    return True


def measured(cases, programs, passes, tell):
    """Measures all cases on all programs in turn, so many times: the figures. What is missing is not tried again."""
    figures, gone = {}, set()
    for turn in range(passes):
        for at, case in enumerate(cases):
            tell(f"pass {turn + 1} of {passes}, {case.part} {case.name}, {case.rows:,} rows")
            for place, program in enumerate(programs[:1] if case.is_shared else programs):
                if (at, place) not in gone and not measured_once(case, program, place, len(programs), figures):
                    gone.add((at, place))
    return list(figures.values())
