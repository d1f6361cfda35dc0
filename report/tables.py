"""The tables of a page: what the drawings show, in words and for print."""
from . import clock, hover, messages
from .groups import times
from .markup import tag, text
from .messages import tenths
from .nightlog import Raw
from .words import FINDINGS, REFUSALS, mended

TALLIES = 'The tallies of each post\'s record at the end of the night: frames and ticks accepted since set-up, and how many of them have each finding'


def table(caption, heads, rows, id=None):
    """Heads and the caption are words, rows are markup."""
    head = tag('tr', *(tag('th', text(words), scope='col') for words in heads))
    return tag('table', tag('caption', text(caption)), tag('thead', head), tag('tbody', *rows), id=id)


def row(first, *cells, id=None):
    """The first cell names its row."""
    return tag('tr', tag('th', first, scope='row'), *(tag('td', cell) for cell in cells), id=id)


def posts(night):
    def of(post):
        found = counts('F', totals(post.findings)) or 'none'
        cells = (post.set_up.channel, limits(post.set_up), f'{post.set_up.silence} ms', f'{post.all_sessions:,}', f'{post.accepted:,}', f'{post.refused:,}',
                 found)
        return row(tag('a', text(post.number), href=f'#post-{post.number}'), *map(text, cells))

    return table('The posts of the night', ('Post', 'Channel', 'Limits', 'W', 'Sessions', 'Accepted', 'Refused', 'Findings'), map(of, night.posts))


def tallies(night):
    """02, Req 08: "eleven counts, one per finding, and the count of accepted frames and ticks since set-up", and Req 14's twelfth: what the lines of the
    replay come to, which is what the post's record holds at the end."""
    def of(post):
        found = (post.findings[number].total if number in post.findings else 0 for number in FINDINGS)
        return row(tag('a', text(post.number), href=f'#post-{post.number}'), *(text(f'{count:,}') for count in (post.accepted, *found)))

    return table(TALLIES, ('Post', 'Accepted', *(f'F{number}' for number in FINDINGS)), map(of, night.posts))


def limits(set_up):
    sensor = ', a yes/no insulation sensor' if set_up.yes_no else ''
    interface = ', the older interface (001)' if set_up.older else ''
    return f'{tenths(set_up.volt)} V, {tenths(set_up.charge)} A out, {tenths(set_up.discharge)} A back{sensor}{interface}'


def totals(lanes):
    return {number: lane.total for number, lane in sorted(lanes.items())}


def counts(letter, often):
    """Of numbers and how often each is."""
    return ', '.join(f'{letter}{number}\u00a0{times(total)}' for number, total in often.items())


def sessions(post):
    def of(place, session):
        closed = ('still open', '') if session.closed is None else (clock.told(session.closed), clock.lasting(session.closed - session.opened))
        return row(*map(text, (place, clock.told(session.opened), *closed, *session.first, session.state or '', *peaks(session))),
                   id=hover.session_id(post, place))

    heads = ('No.', 'From', 'To', 'Lasting', 'Protocol', 'Plug', 'Ended', 'Highest V', 'Strongest A', 'Lowest kOhm')
    rows = [of(*numbered) for numbered in enumerate(post.sessions, 1)]
    if post.all_sessions > len(post.sessions):
        words = f'and {post.all_sessions - len(post.sessions):,} more, up to session {post.all_sessions:,} from {clock.told(post.latest.opened)} on'
        rows.append(row(text(words), *[''] * (len(heads) - 1), id=hover.session_id(post, 'more')))
    return table(f'Sessions of post {post.number}', heads, rows)


def peaks(session):
    return ('', '', '') if session.volt is None else (tenths(session.volt), tenths(session.amps), session.kohm)


def findings(post, groups):
    """A row for each mark of the drawing."""
    rows = (finding(post, number, group, groups.listed) for number, group in groups.all_of(post))
    return table(f'Findings of post {post.number}', ('Time', 'Record', 'Finding', 'Name', 'What came'), rows)


def finding(post, number, group, listed):
    if group.number == 1:
        when, which, what = clock.told(group.low), group.first, text(messages.accepted_words(Raw(*group.raw).record()))
    else:
        when, which = f'{clock.told(group.low)} to {clock.told(group.high)}', f'{group.first} to {group.last}'
        each = ', '.join(clock.told(time) for _, time in group.each(listed))
        what = often(group) + tag('span', text(each + more(group, listed, clock.told(group.high))), class_='each')
    return row(text(when), text(which), text(f'F{number}'), text(FINDINGS[number].name), what, id=hover.finding_id(post, number, group))


def often(group):
    return text(f'{group.number:,} times: ') if group.number > 1 else ''


def more(group, listed, last):
    """Of a list that ends before its group does."""
    return f', and {group.number - listed:,} more up to {last}' if group.number > listed else ''


def refusals(night, number, listed):
    """Those alike, of one channel, identifier and start bit, in one row; where there are too many kinds of them, the rest in the last row."""
    heads = ('Channel', 'Post', 'What came', *(('Start bit',) if number == 5 else ()), 'Record and time')
    rows = [refused(group, listed) for group in night.kinds[number].values()]
    if rest := night.others.get(number):
        words = f'{rest.number:,} records of other channels, identifiers or start bits, from {rest.first} to {rest.last}'
        rows.append(row(text('others'), *[''] * (len(heads) - 2), text(words)))
    return table(f'R{number} {REFUSALS[number]}: {night.refusals[number].total:,}', heads, rows, id=hover.refusals_id(number))


def refused(group, listed):
    record, answer = Raw(*group.raw).record(), group.answer
    what = text(messages.name(record))
    if group.number == 1:
        what += ' ' + tag('code', text(record.desk_line()))
    each = ', '.join(f'{count} at {clock.told(time)}' for count, time in group.each(listed)) + more(group, listed, f'record {group.last}')
    start = [] if answer.start is None else [text(answer.start)]
    return row(text(record.channel), text('none' if answer.post is None else answer.post), what, *start, often(group) + tag('span', text(each), class_='each'))


def rules(night):
    def of(number, total):
        sentence = text(f'{FINDINGS[number].paper}: ') + tag('q', text(FINDINGS[number].sentence))
        for more in dict.fromkeys(more for post in night.posts for more in mended(number, post.set_up)):
            sentence += text(' 02: ') + tag('q', text(more))
        return row(text(f'F{number}'), text(FINDINGS[number].name), sentence, text(f'{total:,}'))

    return table('The rules behind the findings of this night', ('Finding', 'Name', 'Sentence', 'Found'), (of(*each) for each in night.found().items()))
