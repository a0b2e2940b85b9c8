// Links that hold a question. It stands in the fragment of an address, behind the #, which browsers
// send to no server.

import { FLAGS, LIMITS, MOST_PATTERNS } from './fields.js';
import { number } from './words.js';

const MOST_LINK = 1000000; // characters of a link, which every browser takes
const ONE = ['flags', 'text', 'replacement', 'nest_limit', 'size_limit'];
// What a part is that a link lacks.
const DEFAULTS = { flags: '', text: '', replacement: '', nest_limit: '50', size_limit: '10485760' };

// Programs that show links take some characters for their end, so these are encoded too.
function encode(value) {
  try {
    return encodeURIComponent(value).replace(/[!'()*]/g,
      (mark) => `%${mark.charCodeAt(0).toString(16).toUpperCase()}`);
  } catch {
    throw new Error('half of a character (a lone surrogate) stands in a field');
  }
}

// The fragment of a question, which ends with a digit. It is an Error that says why where there is
// none.
export function fragmentOf(question) {
  if (question.nest_limit === null || question.size_limit === null) {
    throw new Error('a limit is no number');
  }
  const patterns = question.patterns.map((pattern) => ['pattern', pattern]);
  const parts = [...patterns, ...ONE.map((name) => [name, question[name]])];
  const fragment = `#${parts.map(([name, value]) => `${name}=${encode(value)}`).join('&')}`;
  if (fragment.length > MOST_LINK) {
    throw new Error(`it would have over ${number(MOST_LINK)} characters`);
  }
  return fragment;
}

// The question of a fragment. It is an Error that says why where there is none.
export function questionOf(fragment) {
  const patterns = [];
  const parts = new Map();
  for (const part of fragment.slice(1).split('&')) {
    const [, name, raw] = /^([^=]*)=(.*)$/s.exec(part) ?? [];
    if (name !== 'pattern' && !ONE.includes(name)) {
      throw new Error('a part of it has no known name');
    }
    const value = decode(raw);
    if (name === 'pattern') patterns.push(value);
    else if (parts.has(name)) throw new Error(`it has two parts for ${name}`);
    else parts.set(name, value);
  }
  if (patterns.length < 1) throw new Error('it has no pattern');
  if (patterns.length > MOST_PATTERNS) throw new Error(`it has over ${MOST_PATTERNS} patterns`);
  return checked({ ...DEFAULTS, ...Object.fromEntries(parts), patterns });
}

function decode(raw) {
  try {
    return decodeURIComponent(raw);
  } catch {
    throw new Error('a % in it begins no character');
  }
}

function checked(question) {
  if ([...question.flags].some((flag) => !FLAGS.includes(flag))) {
    throw new Error('it has an unknown flag');
  }
  for (const [name, most] of Object.entries(LIMITS)) {
    if (!/^[0-9]+$/.test(question[name]) || Number(question[name]) > most) {
      throw new Error(`its ${name} is no whole number up to ${most}`);
    }
  }
  return question;
}
