// What is said of an answer, and how elements are made. All that was typed is put into the page as
// text, never as markup.

export const field = (name) => document.getElementById(name);

// Writes a text into an element, unless it is there: readers tell what is written anew.
export function say(name, text) {
  if (field(name).textContent !== text) field(name).textContent = text;
}

export const number = (value) => value.toLocaleString('en');

export function counted(value, noun, several = `${noun}s`) {
  return `${number(value)} ${value === 1 ? noun : several}`;
}

export function element(kind, name, content) {
  const made = document.createElement(kind);
  if (name) made.className = name;
  made.textContent = content;
  return made;
}

// The class with the colour of a group, or of a pattern where there are several.
const COLOURS = 5;
export const colour = (index) => `group${index % COLOURS + 1}`;

export const MOST_MARKED = 50000; // characters of the text in which matches are marked

export function summary(answer, haystack) {
  const notes = [counted(answer.count, 'match', 'matches')];
  if (answer.count > answer.matches.length) {
    notes.push(`the first ${number(answer.matches.length)} are shown`);
  }
  if (haystack.length > MOST_MARKED) {
    notes.push(`marked in the first ${number(MOST_MARKED)} characters`);
  }
  return notes.join(', ');
}

export function cost(answer, patterns) {
  const share = `${number(answer.tried)} of at most ${number(answer.bound)} tries`;
  const have = patterns === 1 ? 'The pattern has' : 'The patterns have';
  return `The first search made ${share}. ${have} ${counted(answer.places, 'place')} and `
    + `${counted(answer.arrows, 'arrow')}.`;
}

// How many of the matches are of one of several patterns.
export function found(answer, index) {
  const count = answer.counts[index];
  if (count > 0) return counted(count, 'match', 'matches');
  return answer.matched.includes(index) ? 'within others' : 'no match';
}

export function groupsNote({ groups = 0, names = [] }) {
  const shown = Math.max(0, ...names.map((own) => own.length - 1));
  return groups <= shown ? ''
    : `The first ${number(shown)} of ${number(groups)} groups are shown.`;
}

export function replacedNote(answer, patterns) {
  if (patterns > 1) return 'Several patterns replace nothing.';
  if (answer.replaced === null) return 'The replaced text may be too long.';
  return answer.is_cut ? `These are its first ${number(answer.replaced.length)} characters.` : '';
}
