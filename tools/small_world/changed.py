"""Journals of which a line was changed, to try who judges them."""
from .disk import KEPT, LOST

STAMP = "2024-03-31T00:00Z"


def changed(chance, lines):
    """Lines of which one, drawn from those of turns, is another, or is missing, or stands there twice. One that tells of a disk that
    stops is drawn more often than others."""
    stops = [place for place, line in enumerate(lines) if f" stop {KEPT} " in line or f" stop {LOST} " in line]
    turns = [place for place, line in enumerate(lines) if line[0].isdigit()]
    number = chance.choice(stops if stops and chance.random() < 0.5 else turns)
    words = lines[number].split(" ")
    other = chance.choice(["0", "1", "2", "3", "4", "5", "6", "-"])
    ways = {
        "owner": [" ".join([words[0], other, *words[2:]])],
        "word": [" ".join([*words[:2], chance.choice(["answer", "campaign", f"tick {STAMP}", "hear 0", "hear 7", "stop"])])],
        "number": [" ".join([str(int(words[0]) + 1), *words[1:]])],
        "more": [f"{lines[number]} done"],
        "missing": [],
        "twice": [lines[number]] * 2,
    }
    if number in stops:
        ways["end"] = [" ".join([*words[:3], LOST if words[3] == KEPT else KEPT, *words[4:]])]
        ways["no stop"] = [" ".join([*words[:2], *words[4:]])]
    return [*lines[:number], *ways[chance.choice(list(ways))], *lines[number + 1 :]]
