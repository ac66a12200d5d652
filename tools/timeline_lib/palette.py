"""The colours of pictures, on a light paper and on a dark one. Each sign has a contrast of 3 and more to what lies behind it, and
signs of one form have colours that deuteranopes tell apart; the tests reckon both."""

LIGHT = {
    "paper": "#ffffff",
    "ink": "#333333",
    "small": "#555555",
    "note": "#a02818",
    "frame": "#858585",
    "tick": "#333344",
    "stop": "#1a1a1a",
    "letter": "#6b7c93",
    "lost": "#96140c",
    "call": "#00594c",
    "late": "#b06a00",
    "vote": "#63127f",
    "learned": "#2a80d0",
    "leader": "#008f7a",
    "stopped": "#333333",
    "candidate_fill": "#fff1cc",
    "leader_fill": "#ddf3ed",
    "stopped_fill": "#e2e2e2",
    "free_fill": "#eef1f6",
}
DARK = {
    "paper": "#15191f",
    "ink": "#e2e5ea",
    "small": "#b4bac4",
    "note": "#ff9a8a",
    "frame": "#7d858f",
    "tick": "#ccccdd",
    "stop": "#f4f4f4",
    "letter": "#93a5bb",
    "lost": "#ff7a66",
    "call": "#3fd0a8",
    "late": "#f0b030",
    "vote": "#dba8f5",
    "learned": "#4a9df0",
    "leader": "#2fb894",
    "stopped": "#f0f0f0",
    "candidate_fill": "#33290f",
    "leader_fill": "#10352c",
    "stopped_fill": "#3a3d42",
    "free_fill": "#20262f",
}
FORMS = """
text{font:11px sans-serif}.name{font-weight:bold;font-size:12px}.label{stroke-width:3;paint-order:stroke;stroke-linejoin:round}
.part{stroke-dasharray:2 2}.letter,.lost{fill:none}.lost{stroke-dasharray:3 2}
path.lost,path.void{stroke-dasharray:none;stroke-width:2;fill:none}
.fault{stroke-width:2;fill:none}line.fault{stroke-dasharray:6 3}
.within{stroke-width:2}.call,.late{stroke-width:1.5}.late{stroke-dasharray:4 3}.base{stroke-width:2}
.version{stroke-width:1.5;stroke-dasharray:8 3}
.candidate{stroke-dasharray:5 3}.candidate,.leader,.stopped{stroke-width:1.5}
.found,.waiting{stroke-width:2.5}.waiting{stroke-dasharray:3 2}
"""
COLOURS = """
.paper,.base,.within,.found,.waiting{fill:PAPER}text{fill:INK}.small{fill:SMALL}.note{fill:NOTE}.label{stroke:PAPER}
line,.track,.part{stroke:FRAME}.letter{stroke:LETTER}.arrow{fill:LETTER}.lost,.void{stroke:LOST}
.fault{stroke:NOTE}.call,.found{stroke:CALL}.launch,.answer{fill:CALL}.late,.waiting{stroke:LATE}.campaign{fill:LATE}
.candidate{fill:CANDIDATE_FILL;stroke:LATE}.leader{fill:LEADER_FILL;stroke:LEADER}
.stopped{fill:STOPPED_FILL;stroke:STOPPED}.free{fill:FREE_FILL;stroke:FRAME}
.tick,.hear{fill:TICK}.stop{fill:STOP}.within{stroke:STOP}.restart,.learned{fill:LEARNED}.vote{fill:VOTE}.base{stroke:VOTE}
.version{stroke:LEARNED}
"""


def coloured(rules, palette):
    """Rules with the colours of a palette in place of their names."""
    for name in sorted(palette, key=len, reverse=True):
        rules = rules.replace(name.upper(), palette[name])
    return rules


def style_of(forms, colours):
    """A style sheet: forms, and colours for a light paper and for a dark one."""
    dark = coloured(colours, DARK)
    return f"{forms}{coloured(colours, LIGHT)}@media(prefers-color-scheme:dark){{{dark}}}\n"


STYLE = style_of(FORMS, COLOURS)
