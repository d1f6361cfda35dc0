'use strict';
/* The page's state comes as events, once a second and at each finding; what it says is put into the page as text and never as markup. */
const $ = (id) => document.getElementById(id);
const SILENCE = 3000;

const put = (node, text) => { if (node.textContent !== text) node.textContent = text; };

const made = (tag, name, ...children) => {
  const node = document.createElement(tag);
  if (name) node.className = name;
  node.append(...children);
  return node;
};

/* As many children as items, each made once and then told its item. */
const listed = (parent, items, make, tell) => {
  while (parent.children.length > items.length) parent.lastElementChild.remove();
  items.forEach((item, place) => {
    if (!parent.children[place]) parent.append(make(item));
    tell(parent.children[place], item);
  });
};

const part = (node, name) => node.querySelector('.' + name);

const two = (number) => String(number).padStart(2, '0');
const clock = (date) => [date.getHours(), date.getMinutes(), date.getSeconds()].map(two).join(':');
const wall = (date) => `${date.getFullYear()}-${two(date.getMonth() + 1)}-${two(date.getDate())} ${clock(date)}`;

/* ---- a post's card */

const card = (post) => {
  const node = made('article', 'post',
    made('h2', '', made('span', 'number', `Post ${post.post}`), made('span', 'channel')),
    made('p', 'heard'), made('p', 'small when'), made('p', 'session'), made('p', 'small within'),
    made('div', 'finding', made('p', 'small latest'), made('ul', 'words')),
    made('dl', 'readings'), made('h3', 'safety-head', 'Safety controller'), made('dl', 'safety'),
    made('h3', 'tally-head'), made('ul', 'tallies'), made('ul', 'each'),
    made('details', 'all', made('summary', '', 'Messages as they stand'), made('div', 'messages')),
    made('details', 'set', made('summary', '', 'Set up with'), made('dl', 'limits')));
  node.id = `post-${post.post}`;
  node.tabIndex = -1;
  node.setAttribute('aria-label', `Post ${post.post}`);
  return node;
};

const row = () => made('div', 'row', made('dt'), made('dd', '', made('span', 'value'), made('span', 'note'), made('span', 'age')));

const readings = (parent, items) => listed(parent, items, row, (node, item) => {
  node.classList.toggle('marked', item.marked);
  put(node.querySelector('dt'), item.name);
  put(part(node, 'value'), item.value);
  put(part(node, 'note'), item.note);
  put(part(node, 'age'), `${item.age} old`);
});

const pairs = (parent, items) => listed(parent, items, row, (node, [name, value]) => {
  put(node.querySelector('dt'), name);
  put(part(node, 'value'), value);
});

const heardState = (post) => {
  if (post.channel === null) return 'none';
  if (!post.heard.time) return post.heard.ticks ? 'ticks' : 'never';
  return post.heard.silent ? 'silent' : 'heard';
};

const heardWords = {
  none: () => 'Not set up',
  never: () => 'Never heard',
  ticks: () => 'SILENT: never heard, ticks alone',
  silent: (post) => `SILENT: last heard ${post.heard.ago} ago`,
  heard: (post) => `Last heard ${post.heard.ago} ago`,
};

const within = (kept, name) => kept ? `${kept[0]} ${kept[1]}, ${kept[2]} old` : `no ${name} yet`;

const sessionTold = (node, session) => {
  node.dataset.session = session ? 'open' : 'closed';
  put(part(node, 'session'), session ? `Session open since ${session.since} (${session.age}): ${session.protocol}, ${session.plug}` : 'No session open');
  const stopped = session?.stop ? `; ${within(session.stop)}` : '';
  put(part(node, 'within'), session ? `In it: ${within(session.status, 'power modules status')}; ${within(session.control, 'power control')}${stopped}` : '');
};

const findingTold = (node, finding) => {
  part(node, 'finding').hidden = !finding;
  if (!finding) return;
  put(part(node, 'latest'), `Latest finding ${finding.time}, ${finding.age} before the post's latest`);
  listed(part(node, 'words'), finding.words, () => made('li'), put);
};

const talliesTold = (node, post) => {
  put(part(node, 'tally-head'), `Findings among ${post.accepted} accepted`);
  listed(part(node, 'tallies'), post.tallies, () => made('li', '', made('span', 'name'), made('span', 'count')), (item, tally) => {
    item.classList.toggle('some', tally.count > 0);
    item.title = tally.words;
    put(part(item, 'name'), tally.name);
    put(part(item, 'count'), String(tally.count));
  });
  listed(part(node, 'each'), post.tallies.filter((tally) => tally.count > 0), () => made('li'), (item, tally) => {
    put(item, `${tally.name} ${tally.words}: ${tally.count}, latest ${tally.time}`);
  });
};

const message = () => made('section', 'message', made('h3'), made('dl', 'signals'));

const messagesTold = (node, messages) => listed(part(node, 'messages'), messages, message, (section, item) => {
  put(section.querySelector('h3'), `${item.name}, ${item.id}: ${item.time}, ${item.age} old`);
  pairs(part(section, 'signals'), item.signals);
});

const told = (node, post) => {
  const state = heardState(post), set = state !== 'none';
  node.dataset.heard = state;
  put(part(node, 'channel'), set ? `Channel ${post.channel}` : 'No channel');
  put(part(node, 'heard'), heardWords[state](post));
  for (const child of node.children) child.hidden = !set && child.tagName !== 'H2' && !child.classList.contains('heard');
  if (!set) return;
  const frame = post.heard.time ? `latest frame ${post.heard.time}` : 'no frame';
  put(part(node, 'when'), post.last === null ? '' : `As of ${post.last}; ${frame}`);
  sessionTold(node, post.session);
  findingTold(node, post.finding);
  readings(part(node, 'readings'), post.readings);
  readings(part(node, 'safety'), post.safety);
  part(node, 'safety-head').hidden = part(node, 'safety').hidden = post.safety.length === 0;
  talliesTold(node, post);
  messagesTold(node, post.messages);
  pairs(part(node, 'limits'), post.limits);
};

/* ---- what stands around the cards */

const places = (posts) => listed($('places'), posts, (post) => {
  const link = made('a', '', `Post ${post.post}`);
  link.href = `#post-${post.post}`;
  return link;
}, (link, post) => {
  const state = heardState(post);
  link.classList.toggle('marked', state === 'silent' || state === 'ticks' || Boolean(post.finding));
  link.classList.toggle('open', Boolean(post.session));
  put(link, `${post.post}${post.finding ? ' finding' : ''}${state === 'silent' || state === 'ticks' ? ' silent' : ''}${post.session ? ' session' : ''}`);
});

/* A finding that was not there before is said to whoever listens to the page. */
const latest = new Map();
const spoken = (posts) => {
  for (const { post, finding } of posts) {
    const words = finding ? `Post ${post}: ${finding.words.join('; ')}, ${finding.time}` : '';
    if (words && latest.has(post) && latest.get(post) !== words) put($('news'), words);
    latest.set(post, words);
  }
};

const freshTold = (fresh) => {
  const recorder = fresh.recorder === null ? 'Nothing accepted yet' : `As of ${fresh.recorder} by the recorder's clock`;
  const written = fresh.written === null ? 'the log cannot be looked at' : `log written ${wall(new Date(fresh.written))}, ${fresh.ago} ago`;
  put($('fresh'), `${recorder}; ${written}`);
};

const logTold = (log) => {
  const piece = log.piece ? `; ${log.piece} bytes of a record that is not whole are waited for` : '';
  put($('log'), `${log.name}: read to byte ${log.read} of ${log.size}, ${log.records} records${piece}`);
  $('trouble').hidden = log.trouble === null;
  put($('trouble'), log.trouble === null ? '' : `Nothing more is read of the log: ${log.trouble}`);
};

/* ---- the connection */

let heardAt = 0, lostAt = 0;

const lost = () => {
  lostAt = lostAt || Date.now();
  document.body.classList.add('lost');
  const since = heardAt ? `; what stands here is of ${wall(new Date(heardAt))}` : '';
  put($('connection'), `Connection lost at ${clock(new Date(lostAt))}${since}; trying again`);
};

const found = () => {
  heardAt = Date.now();
  lostAt = 0;
  document.body.classList.remove('lost');
  put($('connection'), 'Connected');
};

const shown = (event) => {
  const state = JSON.parse(event.data);
  found();
  freshTold(state.fresh);
  logTold(state.log);
  put($('refused'), `Refused frames and ticks: ${state.refused}`);
  listed($('posts'), state.posts, card, told);
  places(state.posts);
  spoken(state.posts);
};

/* A browser gives up where it was refused, as one client too many is. */
const connect = () => {
  const events = new EventSource('/events');
  events.onmessage = shown;
  events.onerror = () => {
    lost();
    if (events.readyState === EventSource.CLOSED) setTimeout(connect, 1000);
  };
};
connect();
setInterval(() => { if (heardAt && Date.now() - heardAt > SILENCE) lost(); }, 500);

/* On paper nothing is folded. */
addEventListener('beforeprint', () => { for (const each of document.querySelectorAll('details')) each.open = true; });
