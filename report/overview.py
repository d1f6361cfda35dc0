"""The night at a glance: a row for each post with its sessions, under it a lane for each finding that it has; at the bottom what was refused."""
from textwrap import shorten

from . import hover
from .groups import DIGIT, times
from .markup import short, tag, text
from .scale import LEFT, PLOT, WIDTH
from .words import FINDINGS, REFUSALS

TOP, BAR, LANE, GAP = 26, 28, 17, 10
# more than the mean width of a letter
LETTER = 6.2
# letters of a name that is cut short
SHORTEST = 30


def drawing(night, groups):
    scale, rows, y = groups.scale, [], TOP
    for post in night.posts:
        row, y = post_row(night, post, groups, y)
        rows.append(row)
    if night.refusals:
        row, y = refused_row(groups, y)
        rows.append(row)
    return tag('svg', scale.grid(TOP - 8, y), scale.labels(TOP - 13), *rows,
               class_='night', viewBox=f'0 0 {WIDTH} {y}', role='group', aria_label='Sessions, findings and refusals over the night')


def post_row(night, post, groups, y):
    scale = groups.scale
    parts = [label(f'Post {post.number}', y + 12, 'post'), label(f'channel {post.set_up.channel}', y + 25)]
    if post.accepted:
        parts.append(tag('path', tag('title', text(hover.presence(post))), class_='heard',
                         d=f'M{short(scale.x(post.first))} {short(y + BAR / 2)}H{short(scale.x(post.last))}'))
    parts += [bar(night, post, place, session, scale, y) for place, session in enumerate(post.sessions, 1)]
    if post.all_sessions > len(post.sessions):
        parts.append(more_bar(night, post, scale, y))
    y += BAR + 3
    for number, alike in groups.findings[post.number].items():
        parts.append(lane(f'F{number}', FINDINGS[number].name, alike, scale, y + LANE / 2))
        parts += [finding_mark(post, number, group, scale, y + LANE / 2) for group in alike]
        y += LANE
    return tag('g', *parts, class_='row', id=f'row-post-{post.number}'), y + GAP


def refused_row(groups, y):
    scale = groups.scale
    parts = [label('Refused', y + 12, 'post')]
    y += 18
    for number, alike in groups.refusals.items():
        parts.append(lane(f'R{number}', REFUSALS[number], alike, scale, y + LANE / 2))
        parts += [refusal_mark(number, group, scale, y + LANE / 2) for group in alike]
        y += LANE
    return tag('g', *parts, class_='row', id='row-refused'), y + GAP


def bar(night, post, place, session, scale, y):
    left = scale.x(session.opened)
    width = max(2.0, scale.x(night.end if session.closed is None else session.closed) - left)
    shape = tag('rect', class_='session' if session.closed is not None else 'session open', x=left, y=y + 3, width=width, height=BAR - 6, rx=3)
    names = (session.first.words(), session.first.protocol, '')
    name = next(name for name in names if LETTER * len(name) + 14 < width or not name)
    return tag('a', tag('title', text(hover.session(post, place, session))), shape, tag('text', text(name), x=left + 7, y=y + BAR / 2 + 4),
               href=f'#{hover.session_id(post, place)}')


def more_bar(night, post, scale, y):
    """The sessions that are not kept one by one."""
    left, right = scale.x(post.sessions[-1].closed), scale.x(night.end if post.latest.closed is None else post.latest.closed)
    shape = tag('rect', class_='session more', x=left, y=y + 8, width=max(2.0, right - left), height=BAR - 16)
    return tag('a', tag('title', text(hover.more_sessions(post))), shape, href=f'#{hover.session_id(post, "more")}')


def label(words, y, class_=None):
    return tag('text', text(words), class_=class_, x=LEFT - 12, y=y, text_anchor='end')


def lane(number, name, groups, scale, y):
    """Its number and count at the left, its name before the first mark or behind the last."""
    first, last, marks = scale.x(groups[0].low), scale.x(groups[-1].high), sum(group.number for group in groups)
    x, words = named(name, (LEFT, first - LEFT - 12), (last + 36, LEFT + PLOT - last - 42))
    return (tag('path', class_='lane', d=f'M{LEFT} {short(y)}h{PLOT}') + label(f'{number} {times(marks)}', y + 4, 'number')
            + (tag('text', text(words), class_='name', x=x, y=y + 4) if words else ''))


def named(name, *rooms):
    """Where a name goes: the first room that it fits into, or the widest, with its last words left out."""
    for x, width in rooms:
        if LETTER * len(name) < width:
            return x, name
    x, width = max(rooms, key=lambda room: room[1])
    letters = int(width / LETTER)
    return x, shorten(name, letters, placeholder=' …') if letters >= SHORTEST else ''


def finding_mark(post, number, group, scale, y):
    left, right = scale.x(group.low), scale.x(group.high)
    if group.number == 1:
        shape = tag('path', d=f'M{short(left)} {short(y - 6)}l4 6-4 6-4-6z')
    else:
        shape = tag('rect', x=left - 3, y=y - 5, width=right - left + 6, height=10)
    return tag('a', tag('title', text(hover.findings(post, number, group))), shape, several(group, right, y),
               class_='finding', href=f'#{hover.finding_id(post, number, group)}')


def refusal_mark(number, group, scale, y):
    left, right = scale.x(group.low), scale.x(group.high)
    cross = tag('path', d=f'M{short(left - 4)} {short(y - 4)}l8 8m0-8l-8 8M{short(left)} {short(y)}H{short(right)}')
    return tag('a', tag('title', text(hover.refusals(number, group))), cross, several(group, right, y),
               class_='refusal', href=f'#{hover.refusals_id(number)}')


def several(group, right, y):
    """The number of a group behind it, over its end where the drawing ends."""
    if group.number == 1:
        return ''
    number = times(group.number)
    return tag('text', text(number), class_='several', x=min(right + 6, WIDTH - DIGIT * len(number)), y=y + 4)
