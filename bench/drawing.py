"""The table of times as a picture of bars."""

from html import escape

WIDTH = 1000
LEFT = 430
RIGHT = 130
HIGH = 13
COLOURS = {"by hand": "#8a8f98", "yew": "#2f6fb3"}


def text(x, y, words, more=""):
    return f'<text x="{x:.1f}" y="{y:.1f}"{more}>{escape(words)}</text>'


def picture(head, rows):
    """An SVG picture of two bars for each row, the nanoseconds a node by hand and with yew, on one scale, with their ratio.

    `head` is lines of text. A row has `job`, `name`, `nodes`, `short` and `ratio()`, and in `times` the seconds of both sides, None
    where a side was not measured. A row that is short is pale and has a ~ beside its ratio, as in the table."""
    each = [[time * 1e9 / row.nodes if time is not None and time > 0 else None for time in row.times] for row in rows]
    longest = max([value for pair in each for value in pair if value is not None], default=1.0)
    scale = (WIDTH - LEFT - RIGHT) / longest
    parts, y = [], 26
    for line in head:
        parts.append(text(16, y, line, ' class="head"'))
        y += 20
    x = LEFT
    for side, colour in COLOURS.items():
        parts.append(f'<rect x="{x}" y="{y - 9}" width="10" height="10" fill="{colour}"/>')
        parts.append(text(x + 16, y, f"ns a node {side}" if side == "by hand" else f"ns a node, {side}"))
        x += 160
    y += 14
    job = None
    for row, pair in zip(rows, each):
        if row.job != job:
            job = row.job
            y += 22
            parts.append(text(16, y, job, ' class="job"'))
            y += 10
        pale = ' opacity="0.45"' if row.short else ""
        parts.append(text(LEFT - 10, y + HIGH + 4, row.name, ' text-anchor="end" class="name"'))
        for side, value in zip(COLOURS, pair):
            if value is None:
                parts.append(text(LEFT + 4, y + HIGH - 3, "-"))
            else:
                parts.append(f'<rect class="{side.replace(" ", "-")}" x="{LEFT}" y="{y}" width="{value * scale:.2f}" height="{HIGH - 2}" '
                             f'fill="{COLOURS[side]}"{pale}><title>{escape(row.name)}: {value:,.2f} ns a node, {side}</title></rect>')
                parts.append(text(LEFT + value * scale + 5, y + HIGH - 3, f"{value:,.1f}"))
            y += HIGH
        ratio = row.ratio()
        if ratio is not None:
            parts.append(text(WIDTH - 16, y - HIGH + 4, f"{ratio:,.2f}{'~' if row.short else ''}", ' text-anchor="end" class="ratio"'))
        y += 8
    y += 16
    style = "text{font:11px sans-serif}.head{font-size:13px}.job{font-size:13px;font-weight:bold}.ratio{font-weight:bold}"
    return "\n".join([
        f'<svg xmlns="http://www.w3.org/2000/svg" width="{WIDTH}" height="{y}" viewBox="0 0 {WIDTH} {y}">',
        f"<style>{style}</style>", f'<rect class="ground" width="{WIDTH}" height="{y}" fill="#fff"/>', *parts, "</svg>"]) + "\n"
