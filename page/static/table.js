// The table of the matches, and the ways from a row to the text and back.

import { colour, element, field } from './words.js';
import { select } from './marks.js';

const MOST_CELL = 200; // characters of a group that the table shows

const body = field('matches').tBodies[0];
const text = field('text');
let shown = []; // where each match starts and ends
let shownText = '';
let current = -1; // the row of the match in which the caret stands, or that was last gone to
let isUsed = false; // whether the caret was ever put into the text

function cell(haystack, group, bytes, index, name) {
  const made = document.createElement('td');
  const before = name === null ? '' : `${name} `;
  if (group === null) {
    made.append(element('small', '', `${before}took no part`));
    return made;
  }
  const [start, end] = group;
  const part = haystack.slice(start, Math.min(end, start + MOST_CELL));
  const cut = end - start > MOST_CELL ? '…' : '';
  made.append(element('span', index === 0 ? 'match' : colour(index - 1), part + cut), ' ',
    element('small', '', `${before}${bytes[0]}..${bytes[1]}`));
  return made;
}

function heads(names, isList) {
  const [own] = names;
  if (!isList) return ['#', 'match', ...own.slice(1).map((name, i) => `${i + 1} ${name ?? ''}`)];
  const most = Math.max(...names.map((listed) => listed.length), 1);
  return ['#', 'pattern', 'match', ...Array.from({ length: most - 1 }, (_, i) => `${i + 1}`)];
}

function row(haystack, groups, bytes, i) {
  const made = document.createElement('tr');
  const head = document.createElement('th');
  const button = element('button', '', `${i + 1}`);
  head.scope = 'row';
  button.type = 'button';
  button.tabIndex = i === 0 ? 0 : -1; // The arrow keys go from row to row.
  button.setAttribute('aria-label', `Match ${i + 1}: show it in the text`);
  head.append(button);
  made.append(head, ...groups.map((group, k) => cell(haystack, group, bytes[k], k, null)));
  return made;
}

// In a list groups have other names in each pattern, so the names stand in the cells.
function rowOfList(haystack, groups, bytes, i, number, names) {
  const made = row(haystack, [], [], i);
  const listed = document.createElement('td');
  listed.append(element('span', colour(number), `${number}`));
  made.append(listed, ...groups.map((group, k) => cell(haystack, group, bytes[k], k,
    names[number][k])));
  return made;
}

export function drawTable(haystack, answer, isList) {
  const { names = [], numbers = [], matches = [], spans = [] } = answer;
  const head = document.createElement('tr');
  for (const title of names.length > 0 ? heads(names, isList) : []) {
    const made = element('th', '', title.trim());
    made.scope = 'col';
    head.append(made);
  }
  field('matches').tHead.replaceChildren(...(names.length > 0 ? [head] : []));
  body.replaceChildren(...matches.map((groups, i) => (isList
    ? rowOfList(haystack, groups, spans[i], i, numbers[i], names)
    : row(haystack, groups, spans[i], i))));
  shown = matches.map(([whole]) => whole);
  shownText = haystack;
  current = -1;
  followCaret();
}

const buttonOf = (index) => body.rows[index].querySelector('button');

// Makes a row the one that is marked, and that the Tab key comes to.
function setCurrent(index) {
  if (current >= 0) body.rows[current]?.classList.remove('current');
  if (index >= 0) {
    body.querySelector('button[tabindex="0"]').tabIndex = -1;
    buttonOf(index).tabIndex = 0;
    body.rows[index].classList.add('current');
  }
  current = index;
}

// The match at the caret: that which begins there, or else that which it is in or at the end of.
function matchAtCaret() {
  if (!isUsed || text.value !== shownText) return -1;
  const at = text.selectionStart;
  const last = shown.findLastIndex(([start]) => start <= at);
  return last >= 0 && at <= shown[last][1] ? last : -1;
}

function followCaret() {
  const index = matchAtCaret();
  setCurrent(index);
  field('to-row').classList.toggle('shown', index >= 0);
  field('to-row').textContent = index >= 0 ? `To row ${index + 1} of the table` : 'To its row';
  if (index >= 0 && document.activeElement === text) reveal(body.rows[index]);
}

// Scrolls the table alone.
function reveal(made) {
  const scroll = made.closest('.scroll');
  const top = field('matches').tHead.offsetHeight;
  if (made.offsetTop < scroll.scrollTop + top) scroll.scrollTop = made.offsetTop - top;
  const below = made.offsetTop + made.offsetHeight - scroll.clientHeight;
  if (below > scroll.scrollTop) scroll.scrollTop = below;
}

// To which row a key leads.
const STEPS = {
  ArrowDown: (row) => row + 1, ArrowUp: (row) => row - 1, Home: () => 0, End: () => Infinity,
};

body.addEventListener('keydown', (event) => {
  const step = STEPS[event.key];
  if (step === undefined || !event.target.matches('button')) return;
  event.preventDefault();
  const from = event.target.closest('tr').sectionRowIndex;
  const index = Math.max(0, Math.min(step(from), body.rows.length - 1));
  setCurrent(index);
  buttonOf(index).focus();
});
body.addEventListener('click', ({ target }) => {
  if (!target.matches('button')) return;
  const index = target.closest('tr').sectionRowIndex;
  if (text.value === shownText) select(...shown[index]);
});
field('to-row').addEventListener('click', () => {
  const index = matchAtCaret();
  if (index < 0) return;
  buttonOf(index).focus();
});
document.addEventListener('selectionchange', () => {
  if (document.activeElement === text) followCaret();
});
text.addEventListener('input', followCaret);
text.addEventListener('focus', () => {
  isUsed = true;
  followCaret();
});
