// The script of the page that timeline.py, which stands beside this file, makes.
'use strict';
const table = document.querySelector('table'), body = table.tBodies[0], form = document.querySelector('form');
const {states, dates, today, years, keys} = JSON.parse(document.getElementById('data').textContent);
const count = document.getElementById('count'), PAGE = +table.dataset.page;
const [NUMBER, OWNER, TYPE, STATE, DUE, PURPOSE, MOMENTS, LINES, MARKS, REPLACES] =
  keys.columns.map((_, place) => place);
const STOP = dates.indexOf('protect_stop'), field = name => form.elements[name];
const part = (name, attributes) => {
  const made = document.createElementNS('http://www.w3.org/2000/svg', name);
  for (const [key, value] of Object.entries(attributes)) made.setAttribute(key, value);
  return made;
};
const cell = (name, content) => {
  const made = document.createElement('td');
  made.className = name;
  made.append(content);
  return made;
};
const SHAPES = {
  c: 'M-5 5l10 10M-5 15l10-10', d: 'M-5 5h10v10h-10z', r: 'M-6 0h12l-6 9z',
  '>': 'M-8 4l7 6l-7 6z', '<': 'M8 4l-7 6l7 6z'
};
const CLASSES = {
  c: 'mark compromised', d: 'solid destroyed', r: 'solid rotation', '>': 'solid later', '<': 'solid before'
};
function mark([kind, x, since]) {
  const place = part('svg', {x: x + '%', overflow: 'visible', class: 'place'});
  place.append(part('path', {class: CLASSES[kind], d: SHAPES[kind]}));
  if (kind !== 'c') return [place];
  const begun = part('svg', {x: since + '%', overflow: 'visible'});
  begun.append(part('path', {class: 'mark', d: 'M0 3v14'}));
  return [part('line', {class: 'mark', x1: since + '%', x2: x + '%', y1: 10, y2: 10}), begun, place];
}
function line([kind, from, to], state) {
  if (kind === 'wait') return part('line', {class: kind, x1: from + '%', x2: to + '%', y1: 10, y2: 10});
  const [y, height] = kind === 'protect' ? [3, 14] : [7, 6];
  return part('rect', {class: 'bar ' + kind, x: from + '%', y, width: Math.max(to - from, .05).toFixed(3) + '%', height,
    fill: `url(#s${state})`, stroke: `var(--s${state})`});
}
function drawn(key) {
  const row = document.createElement('tr'), button = document.createElement('button');
  row.className = 'key';
  Object.assign(row.dataset, {number: key[NUMBER], owner: key[OWNER], type: key[TYPE], due: key[DUE],
    state: states[key[STATE]]});
  button.type = 'button';
  button.textContent = key[NUMBER];
  button.setAttribute('aria-expanded', false);
  button.setAttribute('aria-label', `key ${key[NUMBER]}: all texts and dates`);
  const picture = part('svg', {'aria-hidden': true});
  const grid = part('svg', {viewBox: '0 0 100 20', preserveAspectRatio: 'none', width: '100%', height: 20});
  grid.append(part('path', {class: 'grid', d: years.map(x => `M${x} 0v20`).join('')}));
  picture.append(grid, ...key[LINES].map(one => line(one, key[STATE])),
    part('line', {class: 'today', x1: today + '%', x2: today + '%', y1: 0, y2: 20}), ...key[MARKS].flatMap(mark));
  row.append(cell('number', button), cell('owner', key[OWNER]), cell('type', key[TYPE]),
    cell('state' + (key[DUE] ? ' due' : ''), key[DUE] || states[key[STATE]]), cell('purpose', key[PURPOSE]),
    cell('time', picture));
  row.addEventListener('click', event => {
    if (event.target === button || getSelection().isCollapsed) toggle(row, button, key);
  });
  return row;
}
function toggle(row, button, key) {
  const is_open = button.getAttribute('aria-expanded') === 'true';
  button.setAttribute('aria-expanded', !is_open);
  if (is_open) return row.nextSibling.remove();
  const more = document.createElement('tr'), list = document.createElement('dl'), all = cell('all', list);
  const others = keys.rows.filter(one => one[REPLACES] === key[NUMBER]).map(one => one[NUMBER]);
  const facts = [['key', key[NUMBER]], ['owner', key[OWNER]], ['type', key[TYPE]],
    ['state', states[key[STATE]] + (key[DUE] && ', ' + key[DUE])], ['purpose', key[PURPOSE]],
    ...(key[REPLACES] ? [['replaces', 'key ' + key[REPLACES]]] : []),
    ...(others.length ? [['replaced by', 'key ' + others.join(', ')]] : []),
    ...dates.map((name, place) => [name.replace('_', ' '), moment(key[MOMENTS][place])]).filter(([, text]) => text)];
  for (const [name, text] of facts) {
    list.append(document.createElement('dt'), document.createElement('dd'));
    list.lastChild.previousSibling.textContent = name;
    list.lastChild.textContent = text;
  }
  more.className = 'more';
  all.colSpan = 6;
  more.append(all);
  row.after(more);
}
const moment = seconds => seconds === null ? '' : new Date(seconds * 1000).toISOString().replace('.000', '');
let page = 0;
for (const [name, value] of new URLSearchParams(location.hash.slice(1))) {
  if (name === 'page') page = Math.max(0, value - 1);
  else if (name === 'due') field('due').checked = true;
  else if (field(name)) field(name).value = value;
}
const by = {
  number: () => 0, owner: key => key[OWNER], type: key => key[TYPE], state: key => key[STATE],
  stop: key => key[MOMENTS][STOP] === null ? Infinity : key[MOMENTS][STOP]
};
function show() {
  const order = by[field('sort').value], is = (name, text) => !field(name).value || field(name).value === text;
  const kept = keys.rows.filter(key => is('owner', key[OWNER]) && is('type', key[TYPE])
    && is('state', states[key[STATE]]) && (!field('due').checked || key[DUE]));
  kept.sort((a, b) => order(a) < order(b) ? -1 : order(a) > order(b) ? 1 : a[NUMBER] - b[NUMBER]);
  const pages = Math.max(1, Math.ceil(kept.length / PAGE));
  page = Math.min(page, pages - 1);
  const shown = kept.slice(page * PAGE, (page + 1) * PAGE);
  body.replaceChildren(...shown.map(drawn));
  const first = kept.length ? page * PAGE + 1 : 0;
  count.textContent = `${first} to ${page * PAGE + shown.length} of ${kept.length} keys`;
  field('previous').disabled = page === 0;
  field('next').disabled = page === pages - 1;
}
form.addEventListener('change', () => { page = 0; show(); });
field('previous').addEventListener('click', () => { page -= 1; show(); });
field('next').addEventListener('click', () => { page += 1; show(); });
form.addEventListener('submit', event => event.preventDefault());
show();
