"""What holds of every page: it needs nothing beside itself, and a reader who sees no drawing or has no mouse finds his way."""
import re
from collections import Counter

OUTSIDE = re.compile(r'https?:|//|@import|url\(|<script|<link|<iframe|<object|<embed|<img|<image|<use|\son\w+=|\ssrc=|javascript:', re.IGNORECASE)


def alone(text):
    faults = [f'refers outside: {text[found.start():found.start() + 60]!r}' for found in OUTSIDE.finditer(text)]
    if "default-src 'none'" not in text:
        faults.append('no policy that loads nothing')
    return faults


def led(page):
    """Links lead somewhere, tables have captions and heads, drawings have labels, headings are in order."""
    faults = []
    ids = Counter(f'#{node["id"]}' for node in page.all() if node['id'])
    faults += [f'{times} of {name}' for name, times in ids.items() if times > 1]
    faults += [f'{link["href"]} leads nowhere' for link in page.all('a') if link['href'] not in ids]
    for table in page.all('table'):
        heads = [head['scope'] for head in table.one('thead').all('th')]
        rows = [[cell['scope'] for cell in row.children] for row in table.one('tbody').all('tr')]
        if not table.one('caption').text() or set(heads) != {'col'} or any(row != ['row'] + [None] * (len(heads) - 1) for row in rows):
            faults.append(f'table {table.one("caption").text()}')
    faults += ['a drawing without a label' for svg in page.all('svg') if not svg['aria-label'] or svg['role'] not in ('img', 'group')]
    headings = [int(node.tag[1]) for node in page.all() if re.fullmatch('h[1-6]', node.tag)]
    faults += [] if headings[:1] == [1] and set(headings[1:]) == {2} else [f'headings {headings}']
    if page.one('html')['lang'] != 'en' or not page.one('head').one('title').text():
        faults.append('no language or no title')
    return faults
