"""What the drawing of the night shows, mark by mark, held to what was told: the place of each on the time axis, and its words on hover."""
import re
from collections import Counter

from said import PAPERS, SENTENCES
from tabled import TIME
from told import ROUND, Finding, clock, ms

# what lengths are rounded to
NEAR = 0.2

ONE = re.compile(rf'({TIME}), record (\d+), post (\d+)\nF(\d+) (.*)\n(0[12]: ".*")(?:\n02: ".*")?\n.+')
SEVERAL = re.compile(rf'({TIME}) to ({TIME}), (\d+) records from (\d+) to (\d+), post (\d+)\nF(\d+) (.*)\n(0[12]: ".*")(?:\n02: ".*")?')
REFUSED = re.compile(rf'({TIME}), record (\d+)\nR(\d+) (.*)\n(.*)')
SEVERAL_REFUSED = re.compile(r'(\d+) records from (\d+) to (\d+)\nR(\d+) (.*)')


def axis(svg, begin=0):
    """The place of a time, by the first and the last label of the time axis, which begins there. Labels are as received, and rise but for the round."""
    labels = []
    for label in svg.all('text', 'tick'):
        if label['text-anchor'] == 'middle':
            before = labels[-1][0] if labels else begin
            labels.append((before + (ms(label.text()) - before) % ROUND, float(label['x'])))
    (first, left), (last, right) = labels[0], labels[-1]
    return lambda time: left + (right - left) * (time - first) / (last - first)


def span(mark):
    """The left and the right end of a mark's times: a block reaches 3 beyond them."""
    rects = list(mark.all('rect'))
    if rects:
        left = float(rects[0]['x'])
        return left + 3, left + float(rects[0]['width']) - 3
    at = float(re.match(r'M(-?[\d.]+) ', mark.one('path')['d'])[1])
    return at, at


def near(got, want):
    return all(abs(a - b) <= NEAR for a, b in zip(got, want))


def findings(page, told, names, rows):
    """Every finding has one mark, and the mark leads to its row."""
    faults, shown = [], Counter()
    for post in told.channels:
        row = page.by_id(f'row-post-{post}')
        place = axis(page.one('svg', 'night'), min(told.times))
        for mark in row.all('a', 'finding'):
            title = mark.one('title').text()
            alike = rows.get((mark['href'] or '').removeprefix('#'), [])
            one, several = ONE.fullmatch(title), SEVERAL.fullmatch(title)
            if one:
                time, count, of, number, name, sentence = one.groups()
                sound = alike == [Finding(int(of), int(number), ms(time), int(count))]
            elif several:
                first, last, times, begin, end, of, number, name, sentence = several.groups()
                sound = (bool(alike) and (first, last) == (clock(alike[0].time), clock(alike[-1].time)) and int(times) == len(alike)
                         and (int(begin), int(end)) == (alike[0].count, alike[-1].count) and mark.one('text').text() == f'×{len(alike):,}')
            else:
                sound = False
            sound = sound and int(of) == post and alike[0].number == int(number) and name == names.get(int(number))
            sound = sound and sentence == f'{PAPERS[int(number)]}: "{SENTENCES[int(number)]}"'
            if not sound or not near(span(mark), (place(told.at[alike[0].count]), place(told.at[alike[-1].count]))):
                faults.append(f'mark {title!r} to {mark["href"]}')
            shown.update(alike)
    return faults + [f'{finding} is drawn {shown[finding]} times' for finding in told.findings if shown[finding] != 1]


def lanes(page, names, words):
    """A lane's name is that of its number, all of it or its first words."""
    faults, number = [], ''
    for label in page.one('svg', 'night').all('text'):
        if 'number' in label.classes:
            number = label.text().split(' ')[0]
        elif 'name' in label.classes:
            got, whole = label.text(), (names if number[0] == 'F' else words)[int(number[1:])]
            if not (got == whole or got.endswith(' …') and whole.startswith(got[:-1])):
                faults.append(f'lane {number}: {got}')
    return faults


def sessions(page, told):
    faults, place = [], axis(page.one('svg', 'night'), min(told.times))
    for post, sessions in told.sessions.items():
        bars = list(page.by_id(f'row-post-{post}').all('rect', 'session'))
        if len(bars) != len(sessions):
            faults.append(f'post {post}: {len(bars)} bars for {len(sessions)} sessions')
        for bar, (opened, closed) in zip(bars, sessions):
            left, width = float(bar['x']), float(bar['width'])
            right = place(max(told.times) if closed is None else closed)
            if not near((left, left + width), (place(opened), right)) or ('open' in bar.classes) != (closed is None):
                faults.append(f'post {post}: a bar from {left} to {left + width} for {opened} to {closed}')
    return faults


def refusals(page, told, words):
    """Every refusal is under one cross of its lane."""
    if not told.refusals:
        return []
    faults, shown = [], Counter()
    first_time = min(told.times)
    place, row = axis(page.one('svg', 'night'), first_time), page.by_id('row-refused')
    by_count = {refusal.count: refusal for refusal in told.refusals}
    for mark in row.all('a', 'refusal'):
        title = mark.one('title').text()
        one, several = REFUSED.fullmatch(title), SEVERAL_REFUSED.fullmatch(title)
        if one:
            time, count, number, why, line = one.groups()
            alike = [by_count.get(int(count))]
            sound = alike[0] and (clock(alike[0].time), alike[0].line) == (time, line)
        elif several:
            times, first, last, number, why = several.groups()
            alike = [each for each in told.refusals if each.number == int(number) and int(first) <= each.count <= int(last)]
            sound = len(alike) == int(times) and mark.one('text').text() == f'×{len(alike):,}'
        else:
            alike, number, why, sound = [], 0, '', False
        left = float(re.match(r'M(-?[\d.]+) ', mark.one('path')['d'])[1]) + 4
        sound = sound and alike[0].number == int(number) and why == words.get(int(number))
        if not sound or not near([left], [place(first_time if alike[0].came is None else alike[0].came)]):
            faults.append(f'cross {title!r}')
        shown.update(each for each in alike if each)
    return faults + [f'{refusal} is drawn {shown[refusal]} times' for refusal in told.refusals if shown[refusal] != 1]
