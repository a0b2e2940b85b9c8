// What the patterns mean, as a list of lists.

import { element, field, number, say } from './words.js';

// Each row comes with how deep it is: one level below that of the part that has it.
function listed(rows) {
  const lists = [document.createElement('ul')];
  for (const [depth, words] of rows) {
    lists.length = Math.min(lists.length, depth + 1);
    if (lists.length === depth) {
      const inner = document.createElement('ul');
      lists[depth - 1].lastElementChild.append(inner);
      lists.push(inner);
    }
    lists[depth].append(element('li', '', words));
  }
  return lists[0];
}

export function drawExplained({ explained = [], unexplained = 0 }) {
  field('explained').replaceChildren(...(explained.length > 0 ? [listed(explained)] : []));
  const noun = unexplained === 1 ? 'part is' : 'parts are';
  say('explained-note', unexplained === 0 ? '' : `${number(unexplained)} more ${noun} left out.`);
}
