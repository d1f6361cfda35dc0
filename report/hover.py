"""What a mark or a bar says on hover, and the names by which the drawings point to the tables."""
from . import clock, messages
from .nightlog import Raw
from .words import FINDINGS, REFUSALS, mended


def finding_id(post, number, group):
    return f'post-{post.number}-f{number}-{group.first}'


def session_id(post, place):
    return f'post-{post.number}-session-{place}'


def refusals_id(number):
    return f'refused-{number}'


def rule(post, number):
    """A finding's name, and the sentence behind it."""
    name, sentence, paper = FINDINGS[number]
    words = f'F{number} {name}\n{paper}: "{sentence}"'
    return words + ''.join(f'\n02: "{sentence}"' for sentence in mended(number, post.set_up))


def findings(post, number, group):
    if group.number == 1:
        when = f'{clock.told(group.low)}, record {group.first}, post {post.number}'
        what = f'\n{messages.accepted_words(Raw(*group.raw).record())}'
    else:
        when = f'{clock.told(group.low)} to {clock.told(group.high)}, {group.number} records from {group.first} to {group.last}, post {post.number}'
        what = ''
    return f'{when}\n{rule(post, number)}{what}'


def refusals(number, group):
    words = f'R{number} {REFUSALS[number]}'
    if group.number == 1:
        record = Raw(*group.raw).record()
        return f'{clock.told(record.time)}, record {group.first}\n{words}\n{record.desk_line()}'
    return f'{group.number} records from {group.first} to {group.last}\n{words}'


def session(post, place, session):
    if session.closed is None:
        until = 'still open at the end'
    else:
        until = f'to {clock.told(session.closed)}, {clock.lasting(session.closed - session.opened)}, {session.state}'
    return f'Post {post.number}, session {place}\n{clock.told(session.opened)} {until}\n{session.first.words()}'


def more_sessions(post):
    return f'Post {post.number}: {post.all_sessions - len(post.sessions):,} more sessions, behind the {len(post.sessions)} that are drawn one by one'


def presence(post):
    return f'Post {post.number}: accepted from {clock.told(post.first)} to {clock.told(post.last)}'
