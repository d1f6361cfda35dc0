"""What the tables of a page say, taken apart and held to what was told."""
import re
from collections import Counter

from said import FINDINGS
from told import Finding, clock, ms

TIME = r'\d+:\d\d:\d\d\.\d{3}'


def cells(row):
    return [cell.text() for cell in row.children]


def table(page, caption):
    """The rows of the table whose caption begins so; post 1 is not post 10."""
    begins = re.compile(re.escape(caption) + r'(?!\d)')
    found = [table for table in page.all('table') if begins.match(table.one('caption').text())]
    return list(found[0].one('tbody').all('tr')) if len(found) == 1 else []


def finding_rows(page, told, names):
    """Each row's id with the findings that it tells; where it tells anything else than they are, that is a fault."""
    rows, faults = {}, []
    for post in told.channels:
        for row in table(page, f'Findings of post {post}'):
            when, which, finding, name, what = cells(row)
            number = int(finding[1:])
            if finding != f'F{number}' or name != names.get(number):
                faults.append(f'row {row["id"]}: {finding} {name}')
            if ' to ' in which:
                first, last = map(int, which.split(' to '))
                alike = [each for each in told.findings if (each.post, each.number) == (post, number) and first <= each.count <= last]
                times = [clock(each.time) for each in alike]
                sound = (bool(alike) and each_of(row) == listed(times) and what.startswith(f'{len(alike):,} times: ')
                         and when == f'{times[0]} to {times[-1]}' and (first, last) == (alike[0].count, alike[-1].count))
                if not sound:
                    faults.append(f'row {row["id"]}: {when}, {which}, {what}')
            else:
                alike = [Finding(post, number, ms(when), int(which))]
            rows[row['id']] = alike
    return rows, faults


def each_of(row):
    return row.one('span', 'each').text()


def listed(times, most=200):
    """All of them, or the first and how many more."""
    more = f', and {len(times) - most:,} more up to {times[-1]}' if len(times) > most else ''
    return ', '.join(times[:most]) + more


def tally_rows(page, told):
    """02, Req 08: of each post what it accepted, and of these how many have each finding."""
    found = Counter((finding.post, finding.number) for finding in told.findings)
    want = [[str(post), *(f'{count:,}' for count in (told.accepted[post], *(found[post, k] for k in FINDINGS)))] for post in sorted(told.channels)]
    got = [cells(row) for row in table(page, 'The tallies of each post')]
    return [] if got == want else [f'tallies: {got}']


def session_rows(page, told):
    faults = []
    for post, sessions in told.sessions.items():
        want = [(str(place), clock(opened), 'still open' if closed is None else clock(closed)) for place, (opened, closed) in enumerate(sessions, 1)]
        got = [tuple(cells(row)[:3]) for row in table(page, f'Sessions of post {post}')]
        if got != want:
            faults.append(f'sessions of post {post}: {got}')
    return faults


def refusal_rows(page, told, words):
    """Every refusal stands in the row of those alike; of more than 200 alike the first 200 and their count."""
    faults = []
    for number in sorted({refusal.number for refusal in told.refusals}):
        left = {}
        for refusal in (each for each in told.refusals if each.number == number):
            left.setdefault((refusal.channel, refusal.start, *refusal.line.split(' ')[3:5]), []).append(refusal)
        rows = table(page, f'R{number} {words[number]}: {sum(map(len, left.values())):,}')
        if len(rows) != len(left):
            faults.append(f'R{number}: {len(rows)} rows for {len(left)} kinds')
        for row in rows:
            fault = refusal_row(row, number, left)
            faults += [f'R{number}: {fault}: {row.text()}'] if fault else []
        faults += [f'R{number}: {alike[0]} has no row' for alike in left.values()]
    return faults


def refusal_row(row, number, left):
    """Takes its refusals out of those left."""
    channel, post, what, *start, each = cells(row)
    listed = [(int(count), ms(time)) for count, time in re.findall(rf'(\d+) at ({TIME})', row.one('span', 'each').text())]
    key = next((key for key, alike in left.items() if (alike[0].count, alike[0].time) == listed[0]), None)
    if key is None:
        return 'not such a refusal'
    alike = left.pop(key)
    if listed[:200] != [(refusal.count, refusal.time) for refusal in alike[:200]]:
        return 'other records or times'
    if len(alike) > 200 and f'and {len(alike) - 200:,} more' not in each:
        return 'not how many more'
    if len(alike) > 1 and not each.startswith(f'{len(alike):,} times: '):
        return 'not how many'
    if (channel, post) != (str(alike[0].channel), 'none' if alike[0].post is None else str(alike[0].post)):
        return 'another channel or post'
    if start != ([str(alike[0].start)] if number == 5 else []):
        return 'another start bit'
    if len(alike) == 1 and row.one('code').text() != alike[0].line:
        return 'another frame'
    return None
