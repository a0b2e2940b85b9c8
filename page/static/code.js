// The code that does what the page shows.

import { field, say } from './words.js';

const NOTES = {
  rattle: 'A program over crates/regex_lite: docs/GUIDE.md says how to run it.',
  c: 'A program over the library for C: bindings/c says how to build it.',
  rust: 'A program over the crate in bindings/rust.',
  python: 'A program over the package in bindings/python. Its offsets count characters.',
};

let shown = {};
const language = () => document.querySelector('input[name="language"]:checked').value;

// Shows the code of an answer, which has none where it is refused, or where it would be too long.
export function drawCode(answer) {
  shown = answer.code ?? {};
  say('code', shown[language()] ?? '');
  field('copy').disabled = answer.code === undefined;
  const missing = 'refusal' in answer ? 'There is no code without an answer.'
    : 'The patterns or the replacement are too long for code.';
  say('code-note', answer.code === undefined ? missing : NOTES[language()]);
}

// Copies a text, and returns whether the browser let it.
export async function copy(text) {
  try {
    await navigator.clipboard.writeText(text);
    return true;
  } catch {
    return false;
  }
}

field('languages').addEventListener('change', () => {
  if (language() in shown) drawCode({ code: shown });
});
field('copy').addEventListener('click', async () => {
  const isCopied = await copy(field('code').textContent);
  say('code-note', isCopied ? 'The code was copied.' : 'The browser does not let this page copy.');
});
