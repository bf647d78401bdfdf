"""The plot of times over header records, as SVG."""
import math

WIDTH, HEIGHT = 860, 400
TOP, BOTTOM = 92, 336
# Left and right edge of each panel.
PANELS = [(70, 420), (470, 820)]
RECORDS = [0, 128, 256, 384, 512]
# Each with its words, its colour and its place in the legend.
SIDES = [('library', 'library', '#0b62c4', 398), ('digest', 'of it the digest', '#7c3aed', 490),
         ('reference', 'reference', '#c2410c', 636), ('librpm', 'librpm', '#15803d', 748)]
FONT = "-apple-system, 'Segoe UI', 'Noto Sans', 'DejaVu Sans', Helvetica, Arial, sans-serif"


def ticks(most):
    """Round numbers from 0 to at least `most`."""
    rough = most / 4
    unit = 10 ** math.floor(math.log10(rough))
    step = next(unit * factor for factor in (1, 2, 2.5, 5, 10) if unit * factor >= rough)
    return [step * number for number in range(math.ceil(most / step) + 1)]


def text(x, y, words, anchor='middle', size=13, colour='#4b5563', more=''):
    return (f'<text x="{x:.1f}" y="{y:.1f}" text-anchor="{anchor}" font-size="{size}" fill="{colour}"{more}>'
            f'{words}</text>')


def line(x1, y1, x2, y2, colour, width=1.0):
    return f'<line x1="{x1:.1f}" y1="{y1:.1f}" x2="{x2:.1f}" y2="{y2:.1f}" stroke="{colour}" stroke-width="{width}"/>'


def points(pairs):
    return ' '.join(f'{x:.1f},{y:.1f}' for x, y in pairs)


def drawn(panels):
    """The sides with times in every case: librpm may be missing."""
    every = [case for _, cases in panels for case in cases]
    return [side for side in SIDES if not any(isinstance(getattr(case, side[0]), str) for case in every)]


def panel(left, right, title, cases, marks, sides):
    across = lambda records: left + (right - left) * records / RECORDS[-1]
    up = lambda nanos: BOTTOM - (BOTTOM - TOP) * nanos / 1000 / marks[-1]
    yield text((left + right) / 2, TOP - 14, title, size=14, colour='#111827')
    for mark in marks:
        yield line(left, up(1000 * mark), right, up(1000 * mark), '#9ca3af' if mark == 0 else '#e5e7eb')
        yield text(left - 8, up(1000 * mark) + 4, f'{mark:g}', anchor='end')
    for records in RECORDS:
        yield line(across(records), BOTTOM, across(records), BOTTOM + 5, '#9ca3af')
        yield text(across(records), BOTTOM + 21, str(records))
    for side, _, colour, _ in reversed(sides):
        times = [(across(int(case.name)), getattr(case, side)) for case in cases]
        low = [(x, up(time.low)) for x, time in times]
        high = [(x, up(time.high)) for x, time in times]
        middle = [(x, up(time.middle)) for x, time in times]
        yield f'<polygon points="{points(low + high[::-1])}" fill="{colour}" fill-opacity="0.15"/>'
        yield (f'<polyline points="{points(middle)}" fill="none" stroke="{colour}" stroke-width="2.2"'
               ' stroke-linejoin="round"/>')
        for x, y in middle:
            yield f'<circle cx="{x:.1f}" cy="{y:.1f}" r="3.2" fill="{colour}"/>'


def svg(panels):
    """Panels are (title, cases); a case's name is its number of records, the rest times of the sides."""
    sides = drawn(panels)
    names = [words for _, words, _, _ in sides]
    most = max(getattr(case, side[0]).high for _, cases in panels for case in cases for side in sides)
    marks = ticks(most / 1000)
    middle = (TOP + BOTTOM) / 2
    parts = [
        f'<svg xmlns="http://www.w3.org/2000/svg" viewBox="0 0 {WIDTH} {HEIGHT}" width="{WIDTH}" height="{HEIGHT}"'
        f' role="img" font-family="{FONT}">',
        f'<title>Time of one reading over the number of header records: {", ".join(names)}</title>',
        f'<rect width="{WIDTH}" height="{HEIGHT}" rx="6" fill="#ffffff"/>',
        text(24, 34, 'Time of one reading', anchor='start', size=17, colour='#111827', more=' font-weight="600"'),
        text(22, middle, 'microseconds', more=f' transform="rotate(-90 22 {middle:.1f})"'),
    ]
    for _, words, colour, x in sides:
        parts += [line(x, 29, x + 26, 29, colour, 2.2), f'<circle cx="{x + 13}" cy="29" r="3.2" fill="{colour}"/>']
        parts.append(text(x + 33, 33.5, words, anchor='start', colour='#111827'))
    parts.append(text(PANELS[1][1], 54, 'median; the shade is the middle half', anchor='end', size=11.5))
    for (left, right), (title, cases) in zip(PANELS, panels):
        parts += panel(left, right, title, cases, marks, sides)
        parts.append(text((left + right) / 2, BOTTOM + 44, 'header records'))
    return '\n'.join([*parts, '</svg>', ''])
