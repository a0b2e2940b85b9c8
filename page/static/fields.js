// The fields of the page, and the question that they make.

import { colour, field } from './words.js';

export const MOST_PATTERNS = 100;
// What a limit may be at most: the greatest number up to which all numbers are told apart.
export const LIMITS = { nest_limit: 2 ** 32 - 1, size_limit: Number.MAX_SAFE_INTEGER };
export const FLAGS = 'imsRUx';
const MOST_LINES = 8; // that a field shows

const rows = () => [...field('patterns').children];
export const patternFields = () => rows().map((row) => row.querySelector('textarea'));
export const foundNotes = () => rows().map((row) => row.querySelector('.found'));
const flagFields = () => [...document.querySelectorAll('input[name="flag"]')];

// A field is as high as the lines that it holds.
function fit(area) {
  area.rows = Math.min(area.value.split('\n').length, MOST_LINES);
}

// Numbers the patterns, from 0 on, where there are several.
function renumber() {
  const all = rows();
  const isList = all.length > 1;
  all.forEach((row, i) => {
    const [label, note, button, area] = row.children;
    area.id = i === 0 ? 'pattern' : `pattern-${i}`;
    note.id = `found-${i}`;
    area.setAttribute('aria-describedby', `found-${i} refusal fault hint`);
    label.htmlFor = area.id;
    label.textContent = isList ? `Pattern ${i}` : 'Pattern';
    label.className = isList ? colour(i) : '';
    button.hidden = !isList;
    button.setAttribute('aria-label', `Remove pattern ${i}`);
    if (!isList) note.textContent = '';
  });
  field('add').disabled = all.length >= MOST_PATTERNS;
  field('replacement').disabled = isList;
}

function addRow(value) {
  const row = rows()[0].cloneNode(true);
  const area = row.querySelector('textarea');
  area.value = value;
  area.removeAttribute('aria-invalid');
  area.autofocus = false;
  row.querySelector('.found').textContent = '';
  field('patterns').append(row);
  fit(area);
  return area;
}

// What stands in the fields, with a limit that is no number as null.
export function question() {
  const limit = (name) => {
    const value = /^[0-9]+$/.test(field(name).value) ? Number(field(name).value) : Infinity;
    return value <= LIMITS[name] ? value : null;
  };
  return { patterns: patternFields().map((area) => area.value),
    flags: flagFields().filter((flag) => flag.checked).map((flag) => flag.value).join(''),
    nest_limit: limit('nest_limit'), size_limit: limit('size_limit'), text: field('text').value,
    replacement: field('replacement').value };
}

// Puts a question into the fields.
export function fill(asked) {
  rows().slice(1).forEach((row) => row.remove());
  patternFields()[0].value = asked.patterns[0];
  asked.patterns.slice(1).forEach(addRow);
  renumber();
  for (const flag of flagFields()) flag.checked = asked.flags.includes(flag.value);
  for (const name of ['nest_limit', 'size_limit', 'text', 'replacement']) {
    field(name).value = asked[name];
  }
  [patternFields()[0], field('replacement')].forEach(fit);
}

// Adds and removes patterns, and calls back when one was.
export function watchFields(changed) {
  const lines = (area) => area.matches('.pattern textarea, #replacement');
  field('form').addEventListener('input', ({ target }) => { if (lines(target)) fit(target); });
  field('form').addEventListener('keydown', (event) => {
    if (event.key === 'Enter' && !event.shiftKey && lines(event.target)) event.preventDefault();
  });
  field('form').addEventListener('submit', (event) => event.preventDefault());
  field('add').addEventListener('click', () => {
    const area = addRow('');
    renumber();
    area.focus();
    changed();
  });
  field('patterns').addEventListener('click', ({ target }) => {
    if (!target.matches('.remove')) return;
    const row = target.closest('.pattern');
    const next = row.nextElementSibling ?? row.previousElementSibling;
    row.remove();
    renumber();
    next.querySelector('textarea').focus();
    changed();
  });
}
