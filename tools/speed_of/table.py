"""The figures as a table in Markdown, and as CSV."""
import csv
import statistics

DIGITS = {"s": 3, "ms": 3, "us": 1, "bytes": 0, "a second": 0}


def spelled(number, digits):
    """A number with a comma at each thousand, or nothing where there is none."""
    return "" if number is None else f"{number:,.{digits}f}"


def unit_of(figure):
    """What the figure's numbers count."""
    return "a second" if figure.name.endswith("a second beside") else figure.case.unit


def each(figure, place):
    """The least number of a figure, of a time that for one piece of work."""
    return min(figure.numbers[place]) / (figure.case.work if figure.case.work and figure.name == "" else 1)


def firsts(figures):
    """What the first case of each base has for one piece of work, by the base, the name and the program."""
    found = {}
    for figure in figures:
        for place, numbers in enumerate(figure.numbers):
            if figure.case.base and numbers:
                found.setdefault((figure.case.base, figure.name, place), each(figure, place))
    return found


def columns(figure, place, first):
    """The least and the median number, the rate by the least, and one piece of work against that of the first of its base."""
    numbers, case = figure.numbers[place], figure.case
    if not numbers:
        return None, None, None, None
    rate = case.work / min(numbers) if case.work and figure.name == "" and min(numbers) > 0 else None
    return min(numbers), statistics.median(numbers), rate, ratio(each(figure, place), first.get((case.base, figure.name, place)))


def ratio(new, old):
    """A number against another."""
    return None if new is None or not old else new / old


def lines_of(figures, count):
    """The head and the lines of the table, each a list of texts."""
    first = firsts(figures)
    head = ["Part", "What", "Rows", "Unit"]
    for name in [""] if count == 1 else [" old", " new"]:
        head += [f"Least{name}", f"Median{name}", f"A second{name}", f"Against first{name}"]
    lines = [head + (["Least new/old", "Median new/old"] if count == 2 else [])]
    for figure in figures:
        case, digits = figure.case, DIGITS[unit_of(figure)]
        line = [case.part, case.name + (f": {figure.name}" if figure.name else ""), f"{case.rows:,}", unit_of(figure)]
        found = [columns(figure, place, first) for place in range(count)]
        for least, median, rate, against in found:
            line += [spelled(least, digits), spelled(median, digits), spelled(rate, 0), spelled(against, 2)]
        if count == 2:
            line += [spelled(ratio(found[1][at], found[0][at]), 3) for at in (0, 1)]
        if figure.reason:
            line[4] = f"not there: {figure.reason}"
        lines.append(line)
    return lines


def print_table(lines):
    """The table in Markdown."""
    print("| " + " | ".join(lines[0]) + " |\n|" + "---|" * len(lines[0]))
    for line in lines[1:]:
        print("| " + " | ".join(line) + " |", flush=True)


def write_csv(lines, path):
    """The same as CSV, with plain numbers."""
    with open(path, "w", newline="") as file:
        writer = csv.writer(file, lineterminator="\n")
        writer.writerow(lines[0])
        for line in lines[1:]:
            writer.writerow(line[:2] + [cell if cell.startswith("not there") else cell.replace(",", "") for cell in line[2:]])
