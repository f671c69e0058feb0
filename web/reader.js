'use strict';
/** Calls of the parser, which is a module in WebAssembly. */

const MODES = ['format', 'asm', 'diagnostic', 'diagnostic-named'];

/** A literal, where its text starts (null if it is none), and how many bytes around it are not
 * shown. A text is put into a raw literal, of which only the text is shown. */
function sourceOf(text, form) {
  const isLiteral = form === 'literal';
  const literal = isLiteral ? text.replace(/\n$/, '') : `r"${text}"`;
  const frame = /^(r(#*)|)"[^]*"\2$/.exec(literal);
  const start = frame && frame[1].length + 1;
  return { literal, start, before: isLiteral ? 0 : 2, after: isLiteral ? 0 : 1 };
}

class Reader {
  constructor(code) {
    this.code = code;
  }

  /** The reading of a source, or null if it is no literal. */
  read({ literal, start, before }, mode, args, all = true) {
    if (start === null) return null;
    const { calls = new WebAssembly.Instance(this.code).exports } = this;
    // the remains of a call that stops are not used again
    this.calls = undefined;
    const room = (length) => {
      const at = calls.buffer(length);
      return new Uint8Array(calls.memory.buffer, at, length);
    };
    const input = new TextEncoder().encode(`${args}\n${literal}`);
    room(input.length).set(input);
    const length = calls.read(before, start, Math.max(0, MODES.indexOf(mode)), all);
    const answer = new TextDecoder().decode(room(length));
    this.calls = calls;
    return answer ? JSON.parse(answer) : null;
  }
}

if (typeof exports === 'object') Object.assign(exports, { Reader, sourceOf });
