"""A page held to what was told of its night: all that it lacks, or has and should not."""
import curved
import dom
import drawn
import said
import sound
import tabled
from told import clock

NAMES, WORDS = said.names(), said.refusals()


def faults(text, told, thinned=False):
    """Of the text of a page, as Chromium dumps it."""
    try:
        page = dom.read(text)
        rows, found = tabled.finding_rows(page, told, NAMES)
        return [*sound.alone(text), *sound.led(page), *summary(page, told), *tabled.tally_rows(page, told),
                *found, *listed_once(told, rows), *drawn.findings(page, told, NAMES, rows), *drawn.lanes(page, NAMES, WORDS), *rules(page, told),
                *tabled.session_rows(page, told), *drawn.sessions(page, told),
                *tabled.refusal_rows(page, told, WORDS), *drawn.refusals(page, told, WORDS),
                *curved.curves(page, told, whole=not thinned)]
    except dom.Missing as missing:
        return [str(missing)]


def listed_once(told, rows):
    listed = [finding for alike in rows.values() for finding in alike]
    return [] if sorted(listed) == sorted(told.findings) else [f'{len(listed)} findings in the tables, and not the {len(told.findings)} of the night']


def rules(page, told):
    rows = [tabled.cells(row) for row in tabled.table(page, 'The rules')]
    numbers = [finding.number for finding in told.findings]
    want = [[f'F{k}', NAMES[k], f'{said.PAPERS[k]}: {said.SENTENCES[k]}{said.mended(k, told.older)}', f'{numbers.count(k):,}'] for k in sorted(set(numbers))]
    return [] if rows == want else [f'rules: {rows}']


def summary(page, told):
    first = next(page.one('main').all('p')).text()
    accepted, found, refused = sum(told.accepted.values()), len(told.findings), len(told.refusals)
    parts = [f'{clock(min(told.times))} to {clock(max(told.times))}', f' {told.records:,} records, {accepted:,} accepted',
             f' {refused:,} refused' if refused else ' none refused', f' {found:,} findings (' if found else ' No finding.']
    faults = [f'the summary lacks {part!r}' for part in parts if part not in first]
    rows = [tabled.cells(row) for row in tabled.table(page, 'The posts of the night')]
    want = [(str(post), str(channel), post in told.older, f'{told.accepted[post]:,}', f'{sum(refusal.post == post for refusal in told.refusals):,}')
            for post, channel in sorted(told.channels.items())]
    got = [(row[0], row[1], row[2].endswith(', the older interface (001)'), row[5], row[6]) for row in rows]
    return faults if got == want else [*faults, f'posts: {got}']
