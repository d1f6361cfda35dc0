"""A post's voltage, current and insulation over the night, each on its own axis, behind them its sessions and findings."""
from .axis import Axis, whole_steps
from .curves import runs, thinned
from .markup import short, tag, text
from .messages import tenths
from .scale import LEFT, PLOT, WIDTH

HEAD, PANEL = 24, 88
# above the panels, for the numbers of findings
ABOVE = 16
INSULATION_TICKS = (0, 20, 60, 150, 300, 510)


def drawing(night, post, groups):
    scale, top = groups.scale, ABOVE if post.findings else 0
    tops = [top + place * (HEAD + PANEL) for place in range(4)]
    panels = [draw(post, scale, tops[place]) for place, draw in enumerate((voltage, current, insulation))]
    bottom = tops[-1]
    return tag('svg', sessions(night, post, scale, top + HEAD, bottom), guides(groups, post, top, bottom), *panels, scale.labels(bottom + 17),
               class_='readings', viewBox=f'0 0 {WIDTH} {bottom + 24}', role='img', aria_label=told(post))


def told(post):
    volts, amps, kohms = post.bounds
    return (f'Curves of post {post.number}: voltage from {tenths(volts[0])} to {tenths(volts[1])} V, current from {tenths(amps[0])} to '
            f'{tenths(amps[1])} A, insulation from {kohms[0]} to {kohms[1]} kOhm')


def voltage(post, scale, top):
    points = [(reading.time, reading.volt / 10) for reading in post.readings.kept]
    axis = whole_steps(0, max(value for _, value in points), top + HEAD + PANEL, PANEL)
    return panel('Voltage', 'V', axis, scale, top, curve(points, post, scale, axis))


def current(post, scale, top):
    points = [(reading.time, reading.amps / 10) for reading in post.readings.kept]
    values = [value for _, value in points]
    axis = whole_steps(min(values), max(values), top + HEAD + PANEL, PANEL)
    return panel('Current', 'A', axis, scale, top, curve(points, post, scale, axis))


def insulation(post, scale, top):
    points = [(reading.time, reading.kohm) for reading in post.readings.kept]
    axis = Axis(0, 510, INSULATION_TICKS, top + HEAD + PANEL, PANEL, bend=True)
    if post.set_up.yes_no:
        return panel('Insulation', 'kOhm, a sensor of yes (510) and no (0)', axis, scale, top, curve(points, post, scale, axis))
    least = [(reading.time, min(510, reading.volt / 100)) for reading in post.readings.kept]
    words = 'kOhm, root scale; dashed: 100 Ohm per volt'
    return panel('Insulation', words, axis, scale, top, curve(least, post, scale, axis, 'curve least'), curve(points, post, scale, axis))


def panel(name, unit, axis, scale, top, *shapes):
    bottom = top + HEAD + PANEL
    lines = ''.join(tag('path', class_='zero' if value == 0 else 'grid', d=f'M{LEFT} {short(axis.y(value))}h{PLOT}')
                    + tag('text', text(value), class_='tick', x=LEFT - 8, y=axis.y(value) + 4, text_anchor='end') for value in axis.ticks)
    head = tag('text', tag('tspan', text(name), class_='post'), text(f', {unit}'), class_='head', x=LEFT, y=top + HEAD - 7)
    return tag('g', scale.grid(top + HEAD, bottom), lines, head, *shapes, class_=f'panel {name.lower()}')


def curve(points, post, scale, axis, class_='curve'):
    d = ''.join('M' + 'L'.join(f'{short(scale.x(time))} {short(axis.y(value))}' for time, value in thinned(run, scale))
                for run in runs(points, post.set_up.silence, scale))
    return tag('path', class_=class_, d=d)


def sessions(night, post, scale, top, bottom):
    return ''.join(tag('rect', class_='during', x=scale.x(session.opened), y=top, height=bottom - top,
                       width=max(1.0, scale.x(night.end if session.closed is None else session.closed) - scale.x(session.opened))) for session in post.sessions)


def guides(groups, post, top, bottom):
    """A dashed line at each group of findings, its number above where there is room."""
    lines, taken, scale = [], 0, groups.scale
    for number, group in groups.all_of(post):
        left, right = scale.x(group.low), scale.x(group.high)
        if right - left > 2:
            lines.append(tag('rect', class_='found', x=left, y=top, width=right - left, height=bottom - top))
        lines.append(tag('path', class_='found', d=f'M{short(left)} {top}V{bottom}'))
        if left > taken:
            lines.append(tag('text', text(f'F{number}'), class_='number', x=left, y=top - 4, text_anchor='middle'))
            taken = left + 24
    return ''.join(lines)
