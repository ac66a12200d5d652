"""A page with a picture, which needs nothing beside it: its script draws the marks that are in view."""
import json
import os
from html import escape
from string import Template

from small_world.texts import report_of

from .layout import COLUMN, LEFT
from .palette import STYLE, style_of
from .picture import ARROW, SIGNS
from .svg import element, group

FOLDER = os.path.dirname(os.path.abspath(__file__))


def read(name):
    with open(os.path.join(FOLDER, name), encoding="utf-8") as file:
        return file.read()


def page_of(picture, jobs, launch, note):
    """The page of a run: the picture, what is asked of it, and the report of the run beneath it. Where there are jobs, what is
    about these alone is shown, and where there is a launch, it is chosen."""
    kinds = {mark.kind for mark in picture.marks}
    values = {
        "title": escape(picture.name),
        "extent": escape(picture.extent()),
        "note": f'<p class="note">{escape(note)}</p>' if note else "",
        "style": STYLE + style_of(*read("page.css").split("/* colours */\n")),
        "legend": "".join(sign_of(sign, told) for kind, sign, told in SIGNS if kind in kinds),
        "arrow": ARROW,
        "names": "\n".join(picture.names()),
        "report": escape(report_of(picture.world)),
        "data": json.dumps(data_of(picture, jobs, launch), separators=(",", ":")).replace("</", "<\\/"),
        "script": read("page.js"),
    }
    return Template(read("page.html")).substitute(values)


def sign_of(sign, told):
    """A sign of the legend."""
    drawn = element("svg", inside=group(sign, 1, 9), width=20, height=18, aria_hidden="true")
    return f"<li>{drawn} {escape(told)}</li>\n"


def data_of(picture, jobs, launch):
    """What the page's script draws from."""
    layout, shown = picture.layout, picture.launches
    is_drawn = {number for mark in picture.marks for number in mark.launches}
    ways = [shown.events[number] if number in is_drawn else [] for number in range(len(shown.numbers))]
    return {
        "width": layout.width,
        "height": layout.height,
        "left": LEFT,
        "column": COLUMN,
        "first": layout.first,
        "until": layout.until,
        "members": layout.members,
        "jobs": [job.name for job in picture.run.jobs],
        "asked": sorted(jobs or []),
        "chosen": launch,
        "launches": shown.titles(),
        "ways": ways,
        "marks": [packed(mark) for mark in picture.marks],
    }


def packed(mark):
    """A mark as the script has it. Replicas are bits of a number."""
    who = sum(1 << who for who in set(mark.who))
    jobs = sorted(mark.jobs) if mark.jobs is not None else None
    return [int(mark.left), int(mark.right) + 1, who, jobs, mark.launches, mark.target, mark.text]
