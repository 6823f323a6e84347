"""Asks over day D, five stops and seven rows, two of them of clients 7 and 9, and prints what comes."""

import figures

STOPS = 5

# from, to, start, travel, owner
DAY_D = [
    *(0, 1, 100, 20, 0),
    *(1, 2, 120, 30, 0),
    *(0, 2, 130, 10, 7),
    *(1, 4, 130, 5, 9),
    *(2, 3, 145, 15, 0),
    *(2, 3, 150, 40, 0),
    *(3, 4, 200, 5, 0),
]


def answer_text(answer):
    if isinstance(answer, figures.Value):
        return f"{answer.value} from {answer.source} to {answer.target}, visits {answer.visits}"
    if isinstance(answer, figures.Nothing):
        return f"none, visits {answer.visits}"
    return str(answer)


def distances_text(filled):
    if isinstance(filled, figures.Refused):
        return str(filled)
    return " ".join("unreached" if distance is None else str(distance) for distance in filled.distances)


def office_text(office):
    return f"{office.rows} rows" if isinstance(office, figures.Rows) else str(office)


def main():
    for asker, a, w in (0, 100, 300), (7, 100, 300), (9, 100, 300), (0, 100, 100), (0, 300, 100):
        print(f"diameter for asker {asker}, {a} to {w}:", answer_text(figures.diameter(DAY_D, STOPS, asker, a, w)))
    for pivot in (2, 150), (2, 99):
        answer = figures.pivot_diameter(DAY_D, STOPS, 0, 100, 199, pivot)
        print(f"pivot-diameter by stop {pivot[0]} at {pivot[1]}:", answer_text(answer))
    for source in 0, 2, 5:
        filled = figures.distances_from(DAY_D, STOPS, 0, 100, 300, source)
        print(f"distances from {source}:", distances_text(filled))
    for n in 5, 4:
        print(f"office check with {n} stops:", office_text(figures.office_check(DAY_D, n)))


if __name__ == "__main__":
    main()
