// The marks under the text, and where its places are on the screen.

import { MOST_MARKED, colour, element, field } from './words.js';

const marks = field('marks');
const text = field('text');

// The parts of a match, each with the last group that it is in: groups may overlap where a loop
// has left one from an earlier pass.
function parts(groups) {
  const taken = groups.filter((group) => group !== null);
  const ends = [...new Set(taken.flat())].sort((a, b) => a - b);
  return ends.slice(1).map((end, i) => {
    const start = ends[i];
    const last = groups.findLastIndex((group) => group && group[0] <= start && end <= group[1]);
    return { start, end, name: last === 0 ? '' : colour(last - 1) };
  });
}

// The parts of a match of one of several patterns: it has the colour of its pattern, and one that
// follows another of the same colour begins with a line.
function partOfList([[start, end]], number, before) {
  const isNext = before !== undefined && before.end === start && before.number === number;
  return [{ start, end, name: `${colour(number)}${isNext ? ' next' : ''}` }];
}

export function drawMarks(haystack, { matches = [], numbers = [] }, isList) {
  const drawn = document.createDocumentFragment();
  let at = 0;
  let before;
  matches.forEach((groups, i) => {
    const [start, end] = groups[0];
    if (end > MOST_MARKED) return;
    drawn.append(haystack.slice(at, start));
    if (start === end) drawn.append(element('span', 'empty', ''));
    const own = isList ? partOfList(groups, numbers[i], before) : parts(groups);
    for (const part of start === end ? [] : own) {
      const name = part.name || (i % 2 === 0 ? 'match' : 'other');
      drawn.append(element('span', name, haystack.slice(part.start, part.end)));
    }
    before = { end, number: numbers[i] };
    at = end;
  });
  // A line feed at the end has a line of its own in the field above.
  drawn.append(haystack.slice(at, Math.max(at, MOST_MARKED)), '\n');
  marks.replaceChildren(drawn);
  marks.scrollTop = text.scrollTop;
}

// Selects a part of the text, and scrolls so that it is seen.
export function select(start, end) {
  const before = element('div', 'mirror measured', text.value.slice(0, start));
  const here = element('span', '', '\u200b');
  before.append(here);
  field('field').append(before);
  const top = here.offsetTop;
  before.remove();
  text.focus({ preventScroll: true });
  text.setSelectionRange(start, end);
  text.scrollTop = top - text.clientHeight / 3;
  text.scrollIntoView({ block: 'nearest' });
}

text.addEventListener('scroll', () => { marks.scrollTop = text.scrollTop; });
