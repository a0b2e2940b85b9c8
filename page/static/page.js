// Asks what the patterns find whenever a field changes, and draws what comes back.

import { copy, drawCode } from './code.js';
import { drawExplained } from './explained.js';
import { LIMITS, fill, foundNotes, patternFields, question, watchFields } from './fields.js';
import { fragmentOf, questionOf } from './link.js';
import { drawMarks } from './marks.js';
import { drawTable } from './table.js';
import { cost, element, field, found, groupsNote, number, replacedNote, say, summary }
  from './words.js';

const MOST_AROUND = 100;    // characters of a refused pattern before its fault, in it, and after it
const MOST_BYTES = 2 << 20; // of a request
const SOON = 150;           // milliseconds after which a search is shown to run

const main = field('main');

// A refused pattern, marked where it is at fault; or from there on, where it isn't finished.
function drawFault(refused, { fault, fault_end: faultEnd }) {
  if (fault === undefined) {
    field('fault').replaceChildren();
    return;
  }
  const [bytes, at] = fault;
  const [endBytes, end] = faultEnd ?? [0, refused.length];
  const [first, last] = [Math.max(at - MOST_AROUND, 0), Math.min(end, at + MOST_AROUND)];
  const after = last < end ? '' : refused.slice(end, end + MOST_AROUND);
  const shown = element('code', '', (first > 0 ? '…' : '') + refused.slice(first, at));
  const kind = faultEnd === undefined ? 'unfinished' : '';
  const mark = element('mark', kind, refused.slice(at, last) + (last < end ? '…' : ''));
  shown.append(mark, after + (last === end && end + MOST_AROUND < refused.length ? '…' : ''));
  field('fault').replaceChildren(faultEnd === undefined
    ? `Not finished, from offset ${number(bytes)} on: `
    : `From offset ${number(bytes)} to ${number(endBytes)}: `, shown);
  field('fault').scrollTop = mark.offsetTop - field('fault').offsetTop;
}

// Why the question is refused, and in which field.
function drawRefusal(asked, answer) {
  const isList = asked.patterns.length > 1;
  patternFields().forEach((area, i) => {
    area.setAttribute('aria-invalid', 'refusal' in answer && answer.number === i);
  });
  for (const name of Object.keys(LIMITS)) {
    field(name).setAttribute('aria-invalid', asked[name] === null);
  }
  const own = isList && answer.number !== undefined ? `Pattern ${answer.number}: ` : '';
  say('refusal', 'refusal' in answer ? own + answer.refusal : '');
  drawFault(asked.patterns[answer.number], answer);
}

function show(asked, answer) {
  const patterns = asked.patterns.length;
  const isRefused = 'refusal' in answer;
  drawRefusal(asked, answer);
  say('summary', isRefused ? '' : summary(answer, asked.text));
  say('cost', isRefused ? '' : cost(answer, patterns));
  foundNotes().forEach((note, i) => {
    note.textContent = isRefused || patterns === 1 ? '' : found(answer, i);
  });
  say('replaced', answer.replaced ?? '');
  say('replaced-note', isRefused ? '' : replacedNote(answer, patterns));
  say('matches-note', groupsNote(answer));
  drawMarks(asked.text, answer, patterns > 1);
  drawTable(asked.text, answer, patterns > 1);
  drawExplained(answer);
  drawCode(answer);
}

async function answerTo(asked, signal) {
  for (const [name, most] of Object.entries(LIMITS)) {
    if (asked[name] === null) {
      return { refusal: `the limit of ${name === 'nest_limit' ? 'nesting' : 'size'} is no whole `
        + `number up to ${number(most)}` };
    }
  }
  const body = new Blob([JSON.stringify(asked)], { type: 'application/json' });
  if (body.size > MOST_BYTES) return { refusal: 'patterns and text have over 2 MB' };
  try {
    return await (await fetch('search', { method: 'POST', body, signal })).json();
  } catch {
    return { refusal: 'the server of this page does not answer' };
  }
}

// That a search runs, and that what is shown is the answer to an earlier question.
let busyTimer = null;
let answeredText = '';
function showBusy() {
  main.classList.add('busy');
  say('busy', 'Searching … What is shown is out of date.');
}

function endBusy() {
  clearTimeout(busyTimer);
  busyTimer = null;
  main.classList.remove('busy');
  say('busy', '');
}

// The last question alone is of use: the server ends the search for the one before, whose
// connection is closed.
let waiting = null;
async function ask() {
  const own = new AbortController();
  waiting = own;
  const asked = question();
  main.classList.toggle('moved', asked.text !== answeredText);
  const answer = await answerTo(asked, own.signal);
  if (own !== waiting) return;
  waiting = null;
  answeredText = asked.text;
  endBusy();
  show(asked, answer);
  field('results').setAttribute('aria-busy', false);
}

// Asks once the fields no longer change: they may do so a thousand times at once, as where a
// program types a text of many lines.
let due = null;
function askSoon() {
  waiting?.abort();
  waiting = null;
  busyTimer ??= setTimeout(showBusy, SOON);
  field('results').setAttribute('aria-busy', true);
  clearTimeout(due);
  due = setTimeout(ask);
}

// Puts what stands in the fields into the address, and copies that.
async function makeLink() {
  try {
    history.replaceState(null, '', fragmentOf(question()));
  } catch (fault) {
    say('link-note', `There is no link: ${fault.message}.`);
    return;
  }
  const isCopied = await copy(location.href);
  say('link-note', isCopied ? 'The link was copied, and is in the address bar.'
    : 'The link is in the address bar.');
}

// Takes the question from the address, if it has one.
function takeLink() {
  say('link-note', '');
  if (location.hash.length > 1) {
    try {
      fill(questionOf(location.hash));
    } catch (fault) {
      say('link-note', `The link is ignored: ${fault.message}.`);
    }
  }
  askSoon();
}

field('form').addEventListener('input', () => {
  say('link-note', '');
  askSoon();
});
field('link').addEventListener('click', makeLink);
window.addEventListener('hashchange', takeLink);
watchFields(askSoon);
takeLink();
