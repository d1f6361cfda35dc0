"""A night as one page of HTML that needs nothing beside itself."""
from pathlib import Path

from . import clock, overview, readings, tables
from .groups import LISTED, Groups
from .markup import tag, text
from .scale import Scale
from .words import MALFORMED, SET_UPS

STYLE = Path(__file__).with_name('style.css')
# the browser is told as well that nothing is to be loaded
POLICY = "default-src 'none'; style-src 'unsafe-inline'"

KEY = ('Bar: a session, from New_Charge_Session to Charge_Session_Finished, dashed if it was still open at the end; line: frames and ticks were accepted. '
       '◆ a finding, ▬×3 several too close to be told apart. × a refusal, drawn at the latest time accepted before it.')
ON_SCREEN = ' Pointing at a mark tells its time and rule, and a click leads to its row below.'


def page(night, sources):
    title = f'Night {night.name}'
    head = ['<meta charset="utf-8">', f'<meta http-equiv="Content-Security-Policy" content="{POLICY}">', '<meta name="viewport" content="width=device-width">',
            '<meta name="color-scheme" content="light dark">', tag('title', text(f'{title}: {span(night)}')),
            tag('style', '\n', STYLE.read_text(encoding='utf-8'))]
    told = warning(*refusal(night, sources[0])) if night.refused else replayed(night)
    parts = [tag('h1', text(title)), *told, footer(night, sources)]
    body = tag('body', tag('main', *(f'\n{part}' for part in parts), '\n'))
    return '<!DOCTYPE html>\n' + tag('html', '\n', tag('head', *(f'\n{part}' for part in head), '\n'), '\n', body, '\n', lang='en') + '\n'


def replayed(night):
    groups = Groups(night, Scale(night.begin, night.end)) if night.begin is not None else None
    return [summary(night), *warning(*empty(night), *ending(night.ending)), tables.posts(night), tables.tallies(night), *glance(night, groups),
            *(of_post(night, post, groups) for post in night.posts), refused(night, groups), *rules(night)]


def refusal(night, posts):
    """Why nothing was replayed."""
    line, number = night.refused
    yield (f'Nothing was replayed: the set-up in line {line} of {posts} is refused, R{number}: {SET_UPS[number]}. '
           f'The log has {several(night.records, "record")}.')
    yield from ending(night.ending)


def empty(night):
    if night.records == 0:
        yield 'The log holds no record.'


def span(night):
    if night.refused:
        return 'nothing replayed'
    return f'{clock.told(night.begin)} to {clock.told(night.end)}' if night.begin is not None else 'nothing accepted'


def summary(night):
    lasting = f', {clock.lasting(night.end - night.begin)}' if night.begin is not None else ''
    often = tables.totals(night.refusals)
    refused = f'{sum(often.values()):,} refused ({tables.counts("R", often)})' if often else 'none refused'
    found = night.found()
    findings = f'{several(sum(found.values()), "finding")} ({tables.counts("F", found)})' if found else 'No finding'
    words = f'{span(night)}{lasting}. {several(night.records, "record")}, {night.accepted:,} accepted, {refused}. '
    return tag('p', text(words), tag('strong', text(f'{findings}.')))


def several(number, word):
    return f'{number:,} {word}' if number == 1 else f'{number:,} {word}s'


def ending(ending):
    """How the log ends, if not behind a whole record."""
    if ending.cut:
        yield f'The log is cut: a piece of a record is left over at byte {ending.byte:,}.'
    elif ending.refusal:
        yield f'The log is malformed at byte {ending.byte:,}, R{ending.refusal}: {MALFORMED[ending.refusal]}. Nothing behind that was read.'


def warning(*sentences):
    return [tag('p', text(words), class_='warning') for words in sentences]


def glance(night, groups):
    if night.begin is None:
        return []
    key = tag('figcaption', text(KEY), tag('span', text(ON_SCREEN), class_='screen'))
    return [tag('section', tag('h2', text('The night')), tag('figure', overview.drawing(night, groups), key))]


def of_post(night, post, groups):
    parts, none = [tag('h2', text(f'Post {post.number}, channel {post.set_up.channel}'))], []
    for held, words, part in ((post.readings.kept, 'Power_Modules_Status', lambda: tag('figure', readings.drawing(night, post, groups))),
                              (post.sessions, 'session', lambda: tables.sessions(post)),
                              (post.findings, 'finding', lambda: tables.findings(post, groups))):
        if held:
            parts.append(part())
        else:
            none.append(f'no {words}')
    if none:
        words = ', '.join(none)
        parts.append(tag('p', text(f'{words[0].upper()}{words[1:]}.')))
    return tag('section', *parts, id=f'post-{post.number}')


def refused(night, groups):
    most = groups.listed if groups else LISTED
    listed = [tables.refusals(night, number, most) for number in sorted(night.refusals)]
    return tag('section', tag('h2', text('Refusals')), *(listed or [tag('p', text('Nothing was refused.'))]), id='refusals')


def rules(night):
    return [tag('section', tag('h2', text('Rules')), tables.rules(night), id='rules')] if night.found() else []


def footer(night, sources):
    words = f'From {", ".join(sources)}. Times are those of the recorder\'s clock: hours, minutes, seconds and milliseconds.'
    return tag('footer', tag('p', text(' '.join([words, *rounds(night)]))))


def rounds(night):
    """How often the clock came round, if it did."""
    count = 0 if night.begin is None else night.end // clock.ROUND - night.begin // clock.ROUND
    if count:
        often = 'once' if count == 1 else f'{count:,} times'
        yield f'The clock came round {often} in this night: behind {clock.told(clock.ROUND - 1)} it shows {clock.told(0)} again, and the axes go on.'
