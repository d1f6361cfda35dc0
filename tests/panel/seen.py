"""What stands on the page, card by card, as the browser has it."""

CARDS = '''[...document.querySelectorAll('.post')].map((card) => {
  const text = (name) => card.querySelector('.' + name).innerText.trim();
  const all = (where, name) => [...where.querySelectorAll(name)];
  const row = (node) => [node.querySelector('dt').textContent, ...['value', 'note', 'age'].map((name) => node.querySelector('.' + name).textContent),
    node.classList.contains('marked')];
  const rows = (name) => all(card.querySelector('.' + name), '.row').map(row);
  return {
    number: text('number'), channel: text('channel'), state: card.dataset.heard, session_state: card.dataset.session || '',
    heard: text('heard'), when: text('when'), session: text('session'), within: text('within'),
    finding: card.querySelector('.finding').hidden ? null : [text('latest'), all(card.querySelector('.words'), 'li').map((each) => each.textContent)],
    readings: rows('readings'), safety: card.querySelector('.safety').hidden ? [] : rows('safety'), tally_head: text('tally-head'),
    tallies: all(card, '.tallies li').map((each) => [each.querySelector('.name').textContent, Number(each.querySelector('.count').textContent)]),
    each: all(card, '.each li').map((each) => each.textContent),
    messages: all(card, '.message').map((each) => [each.querySelector('h3').textContent,
      all(each, '.row').map((pair) => [pair.querySelector('dt').textContent, pair.querySelector('.value').textContent])]),
    limits: all(card.querySelector('.limits'), '.row').map((pair) => [pair.querySelector('dt').textContent, pair.querySelector('.value').textContent]),
  };
})'''


def cards(tab):
    return tab.run(CARDS)


def opened(browser, panel):
    """The panel's page, with its cards."""
    tab = browser.open(panel.address)
    tab.until("document.querySelectorAll('.post').length === 16")
    return tab


def line(tab, name):
    """A line around the cards, by its name; None where it is not shown."""
    return tab.run(f"(() => {{ const node = document.getElementById('{name}'); return node.hidden ? null : node.textContent; }})()")


def read_to(tab, records, patience=10):
    """Waits until the page has so many records."""
    return tab.until(f"document.getElementById('log').textContent.includes(', {records} records')", patience)
