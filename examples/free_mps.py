"""Reads a problem in free MPS, as docs/LANGUAGES.md has it. The text is taken as it stands; the program is what judges it."""
from fractions import Fraction


def read_mps(text):
    """Columns [lower, upper, integer], rows [form, lower, upper], the objective's form, its constant, and 1 or -1 for its direction."""
    columns, rows, by_name, places, sets, section, whole = [], [], {}, {}, {}, "", False
    cost, objective, constant, sign = None, {}, Fraction(0), 1
    for fields, is_header in ((line.split(), line[0] not in " \t") for line in text.split("\n") if line.split() and line[0] != "*"):
        if is_header:
            section, fields = fields[0], fields[1:]
        if section == "ENDATA":
            break
        if section == "NAME" or not fields:
            continue
        if section == "OBJSENSE":
            sign = -1 if fields[0].upper().startswith("MAX") else 1
        elif section == "ROWS" and fields[0] == "N" and cost is None:
            cost, by_name[fields[1]] = fields[1], [objective, None, None]
        elif section == "ROWS":
            by_name[fields[1]] = [{}, *(Fraction(0) if fields[0] in kinds else None for kinds in ("GE", "LE"))]
            rows.append(by_name[fields[1]])
        elif fields[1] == "'MARKER'":
            whole = fields[2] == "'INTORG'"
        elif section == "COLUMNS":
            if fields[0] not in places:
                places[fields[0]] = len(columns)
                columns.append([Fraction(0), None, whole])
            entries = zip(fields[1::2], map(Fraction, fields[2::2]))
            for name, number in entries:
                by_name[name][0].update({places[fields[0]]: number} if number else {})
        else:
            kind = fields.pop(0) if section == "BOUNDS" else ""
            needs = 1 if kind in ("FR", "MI", "PL", "BV") else 2 if kind else len(fields) // 2 * 2
            name_of_set = fields.pop(0) if len(fields) > needs else ""
            if sets.setdefault(section, name_of_set) != name_of_set:
                continue
            if kind:
                column, number = columns[places[fields[0]]], Fraction(fields[1]) if needs == 2 else None
                column[0] = Fraction(0) if kind == "BV" else column[0] if kind in ("UP", "UI", "PL") else number
                column[1] = Fraction(1) if kind == "BV" else column[1] if kind in ("LO", "LI", "MI") else number
                column[2] |= kind in ("BV", "LI", "UI")
            for name, number in [] if kind else zip(fields[::2], map(Fraction, fields[1::2])):
                row = by_name[name]
                if name == cost:
                    constant = -number
                elif section == "RHS":
                    row[1:] = [None if bound is None else number for bound in row[1:]]
                else:
                    low, high = (min(number, 0), max(number, 0)) if None not in row[1:] else (-abs(number), abs(number))
                    row[1:] = [row[2] + low if row[2] is not None else row[1], row[1] + high if row[1] is not None else row[2]]
    return columns, rows, objective, constant, sign
