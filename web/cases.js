'use strict';
/** The cases of replay/, and what the parser in WebAssembly reads as the program lists it. */

const fs = require('fs');
const path = require('path');

const REPLAY = path.join(__dirname, '../replay');
const NAMED = { n: 10, t: 9, r: 13, '\\': 92, s: 32 };

/** The bytes of a column, as replay/run.py says. */
function bytesOf(column) {
  const parts = column.split(/(\\x..|\\.)/u).map((part) => {
    if (!part.startsWith('\\')) return Buffer.from(part);
    if (part.length === 4) return Buffer.from(part.slice(2), 'hex');
    return Buffer.from(part === '\\e' ? [] : [NAMED[part[1]]]);
  });
  return Buffer.concat(parts);
}

/** The cases in which a text is read, or is no string literal. */
function cases() {
  const found = [];
  const folder = path.join(REPLAY, 'cases');
  for (const file of fs.readdirSync(folder).filter((name) => name.endsWith('.tsv')).sort()) {
    for (const line of fs.readFileSync(path.join(folder, file), 'utf8').split('\n')) {
      if (!line || line.startsWith('# ')) continue;
      const [name, words, given, refusal, wanted] = line.split('\t');
      if (refusal && refusal !== 'NotLiteral') continue;
      const [mode, ...others] = words.split(' ').map((word) => bytesOf(word).toString());
      const literal = others[0] === '--literal';
      const at = others.indexOf('--args');
      const args = at < 0 ? '' : others[at + 1];
      const [text, answer] = [bytesOf(given).toString(), bytesOf(wanted).toString()];
      found.push({ name, mode, literal, args, text, wanted: refusal ? null : answer });
    }
  }
  return found;
}

/** A text in quotes, as a listing writes it. */
function quoted(text) {
  const names = { '\0': '\\0', '\t': '\\t', '\r': '\\r', '\n': '\\n' };
  const written = (c) => {
    if ('\'"\\'.includes(c)) return '\\' + c;
    return names[c] || `\\u{${c.codePointAt(0).toString(16)}}`;
  };
  return `"${text.replace(/['"\\\x00-\x1f\x7f]/g, written)}"`;
}

/** The names that a listing has for the parts of a placeholder, and for widths and precisions. */
const NAMES = {
  'next argument': 'implicit', 'argument number': 'index', 'argument name': 'name',
  fill: 'fill', alignment: 'align', sign: 'sign', 'alternate form': 'alt', 'zero padding': 'zero',
  'hex digits': 'hex', type: 'ty',
};
const COUNTS = {
  '': 'is', ' from': 'name', ' from argument': 'param', ' from next argument': 'star',
};

/** How a listing writes a part of a placeholder, of which `next` is the one after it. */
function partLine([name, value, ...span], [, , ...named]) {
  const [range, place] = [span, named].map((it) => it.join('..'));
  const at = range && `@${range}`;
  const [, count, from] = /^(width|precision)(.*)$/.exec(name) || [];
  if (count) {
    if (!from && !value) return ` ${count}=implied${at}`;
    return ` ${count}=${COUNTS[from]}:${value}${from === ' from' ? `@${place}` : ''}${at}`;
  }
  const word = NAMES[name];
  if (['implicit', 'index', 'name'].includes(word)) return `arg ${word} ${value} ${range}`;
  if (['alt', 'zero'].includes(word)) return ` ${word}`;
  return ` ${word}=${['fill', 'ty'].includes(word) ? quoted(value) : value}${at}`;
}

/** How a listing writes a piece: the parts after its place. One that is not there has neither a
 * value nor a range. */
function pieceLine([, ...told]) {
  const parts = told.filter(([, value, start]) => value || start !== undefined);
  const [[name, value]] = parts;
  if (name === 'closes nothing') return [];
  if (name === 'text') return [`lit ${quoted(value)}`];
  const named = (part) => (part && part[0] === 'its name' ? part : []);
  const lines = parts.map((part, n) => (named(part).length ? ''
    : partLine(part, named(parts[n + 1]))));
  return [lines.join('')];
}

const faultLine = ([[, text, ...span]]) => `fault ${span.join('..')} ${text}`;

/** The listing of an answer, as the program formatread writes it: with the report of arguments if
 * these are given. */
function listing(answer, args) {
  if (!answer) return null;
  const lines = [...answer.pieces.first.flatMap(pieceLine), ...answer.faults.first.map(faultLine)];
  for (const what of args ? ['missing', 'unused'] : []) {
    for (const [, n] of answer[`${what} argument`].first) lines.push(`${what} index ${n}`);
    for (const [, name] of answer[`${what} name`].first) lines.push(`${what} name ${quoted(name)}`);
  }
  return lines.map((line) => line + '\n').join('');
}

/** Answers --help with the comment at the head of a script, and ends it. */
function helped(file) {
  if (!process.argv.includes('--help')) return;
  console.log(/\/\*\* ([^]*?) \*\//.exec(fs.readFileSync(file, 'utf8'))[1].replace(/^ \* ?/gm, ''));
  process.exit(0);
}

module.exports = { REPLAY, cases, helped, listing };
