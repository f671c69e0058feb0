/** The page: the typed text, and its reading. Texts go into the page as text only. A reading has
 * parts: a name, a value, and where it starts and ends if that is known. */

/** The most bytes of a text, the most of these that are shown, and the most letters of a part. */
const [LIMIT, SHOWN, WIDE] = [1048576, 20000, 200];
/** A longer text is read after a pause, and is not kept in the address. */
const LONG = 8192;
/** The values that are not kept in the address. */
const USUAL = { text: '', form: 'text', mode: 'format', args: '' };
const NO_LITERAL = 'This is no string literal: it needs its quotes, as in "hi {name}" or r#"{}"#.';
const REPORT = ['missing argument', 'missing name', 'unused argument', 'unused name'];
/** The kind of token in which a part without a range of its own is found. */
const TOKEN_OF = {
  alignment: 'Alignment', sign: 'Sign', 'alternate form': 'NumberSign', 'zero padding': 'Zero',
  'hex digits': 'Type', type: 'Type',
};

const by = (id) => document.getElementById(id);
const decoder = new TextDecoder('utf-8', { ignoreBOM: true });
let reader = null;
/** The tasks that wait for a pause in typing. */
const pauses = {};
/** The bytes of the literal, and the ends of the part of it that is shown. */
let shown = { bytes: [], before: 0, end: 0 };

const slice = ([start, end]) => decoder.decode(shown.bytes.subarray(start, end));
const spanOf = ([, , ...span]) => span;
/** A part that is not there has neither a value nor a range. */
const isThere = ([, value, start]) => value || start !== undefined;

/** A text or, if it is long, its start; as it is or in quotes. */
function cut(text, write = String) {
  return text.length > WIDE ? `${write(text.slice(0, WIDE))} …` : write(text);
}

const quoted = (text) => cut(text, JSON.stringify);

function make(tag, name, ...children) {
  const element = document.createElement(tag);
  element.className = name;
  element.append(...children);
  return element;
}

/** A row that says what a part is. It belongs to the characters in its own range or another. */
function row(tag, [name, value, ...own], span = own) {
  const shows = ['text', 'fill'].includes(name) ? quoted : cut;
  const words = [make('span', 'label', name), ' ', make('code', 'value', shows(value))];
  const range = own.map((at) => at - shown.before).join('..');
  if (range) words.push(' ', make('span', 'span', range));
  const made = make(tag, span.length ? 'part' : '', ...words);
  if (span.length) Object.assign(made, { span, tabIndex: -1, ariaLabel: made.textContent.trim() });
  return made;
}

/** Items for the first of a list, and how many more there are. */
function itemsOf({ first, count }, item) {
  const more = count - first.length;
  return [...first.map(item), ...(more > 0 ? [make('li', 'more', `and ${more} more`)] : [])];
}

/** Puts items into a list, and shows its section if there are any. The first can have the focus. */
function put(id, items, isShown = items.length > 0) {
  const list = by(id);
  list.replaceChildren(...items);
  list.closest('section').hidden = !isShown;
  list.querySelectorAll('[tabindex]').forEach((it, at) => { it.tabIndex = at === 0 ? 0 : -1; });
}

/** A piece, with a row for each of its parts. */
function cardOf([piece, ...parts], tokens) {
  const place = spanOf(piece);
  const rows = parts.filter(isThere).map(([name, value, ...span]) => {
    const own = tokens.filter(([kind, , start, end]) =>
      kind === TOKEN_OF[name] && place[0] <= start && end <= place[1]);
    if (!span.length && own.length) span.push(own[0][2], own[own.length - 1][3]);
    return row('li', [name, value, ...span], span.length ? span : place);
  });
  return make('li', 'card', row('h3', ['', slice(place), ...place]), make('ul', '', ...rows));
}

/** A button that puts another text in place of the typed one. */
function fixButton(words, fixed) {
  const button = make('button', 'fix', words);
  button.onclick = () => {
    by('text').value = fixed();
    show();
    by('text').focus();
  };
  return button;
}

/** The button that makes the edit which a fault suggests. */
function editButton([, text, start, end]) {
  const [before, after] = [quoted(slice([start, end])), quoted(text)];
  let words = `Replace ${before} by ${after}`;
  if (!text) words = `Remove ${before}`;
  if (start === end) words = `Insert ${after}`;
  return fixButton(words, () => slice([shown.before, start]) + text + slice([end, shown.end]));
}

/** A fault, with its drawing, its notes and its fix. */
function faultOf([[, text, ...span], ...parts]) {
  const item = make('li', 'fault', row('h3', ['', text, ...span]));
  item.append(...parts.filter(isThere).map((part) =>
    (part[0] === 'edit' ? editButton(part) : make('div', part[0], part[1].trimEnd()))));
  return Object.assign(item, { span });
}

/** A part of the text in one token, which belongs to the smallest of the parts around it. */
function tokenOf(kind, span, parts, marked) {
  const has = ([start, end]) => start <= span[0] && span[1] <= end;
  const owner = parts.find((part) => has(part.span));
  const label = owner && owner.querySelector('.label').textContent;
  const words = label || kind.replace(/\B[A-Z]/g, ' $&').toLowerCase();
  const element = make('span', `token ${kind}`, slice(span));
  element.classList.toggle('faulty', marked.some(has));
  Object.assign(element, { span, owner, tabIndex: -1, role: 'option', ariaSelected: 'false' });
  element.ariaLabel = `${quoted(slice(span))}, ${words}`;
  return element;
}

/** Shows the text token by token, with its faults. */
function showView(tokens, faults) {
  const width = ({ span }) => span[1] - span[0];
  const parts = [...by('cards').querySelectorAll('.part')].sort((a, b) => width(a) - width(b));
  const marked = faults.map(([says]) => spanOf(says));
  const { bytes, before } = shown;
  let end = Math.min(tokens[tokens.length - 1][3], shown.end, before + SHOWN);
  while (bytes[end] >> 6 === 2) end -= 1;
  const spans = [[before, end], ...tokens.map(spanOf), ...marked, ...parts.map(({ span }) => span)];
  const cuts = [...new Set(spans.flat())].filter((at) => before <= at && at <= end);
  cuts.sort((a, b) => a - b);
  let token = 0;
  const items = cuts.flatMap((start, n) => {
    while (token + 1 < tokens.length && tokens[token][3] <= start) token += 1;
    const isPoint = marked.some((span) => span[0] === start && span[1] <= start);
    const point = isPoint ? [Object.assign(make('span', 'point'), { ariaHidden: 'true' })] : [];
    if (n + 1 === cuts.length) return point;
    return [...point, tokenOf(tokens[token][0], [start, cuts[n + 1]], parts, marked)];
  });
  const more = shown.end - end;
  if (more > 0) items.push(make('span', 'more', ` and ${more} more bytes`));
  put('view', items, true);
  for (const entry of by('legend').children) {
    entry.hidden = !by('view').querySelector(entry.dataset.kinds);
  }
}

/** Keeps the form in the address, after a pause: a browser allows few changes of it. */
function keep(state) {
  const kept = Object.entries(state).filter(([key, value]) => value !== USUAL[key]);
  const address = state.text.length > LONG ? '' : new URLSearchParams(kept).toString();
  clearTimeout(pauses.keep);
  pauses.keep = setTimeout(() => {
    if (address !== location.hash.slice(1)) history.replaceState(null, '', `#${address}`);
  }, 300);
}

const typed = () => Object.fromEntries(new FormData(by('form')));

/** Types the values that an address keeps. */
function load(address) {
  by('form').reset();
  for (const [key, value] of new URLSearchParams(address.slice(1))) {
    if (key in USUAL) by('form').elements[key].value = value;
  }
  show();
}

/** The reading of the typed text, or nothing. Shows why it cannot be read. */
function answerTo({ text, form, mode, args }) {
  const source = sourceOf(text, form);
  const bytes = new TextEncoder().encode(source.literal);
  shown = { bytes, before: source.before, end: bytes.length - source.after };
  let [answer, problem] = [null, ''];
  try {
    if (shown.end - shown.before > LIMIT) problem = `This text is longer than ${LIMIT} bytes.`;
    else answer = reader.read(source, mode, args);
    if (!answer && !problem) problem = NO_LITERAL;
  } catch (error) {
    problem = `The parser stopped, which it never should: ${error}`;
  }
  by('text').setCustomValidity(problem);
  const wrong = by('args').validity.valid ? '' : 'Arguments are a number and names, as in 2,w,z.';
  by('problem').textContent = problem || wrong;
  return answer;
}

/** Reads the typed text and shows the findings. */
function show() {
  const state = typed();
  keep(state);
  const answer = answerTo(state);
  const none = { count: 0, first: [] };
  const { counts, pieces, faults, fixed, tokens: found } = answer
    || { counts: [0, 0], pieces: none, faults: none, fixed: none, tokens: none };
  by('plain').hidden = !answer || found.count > 0;
  const tokens = found.count ? found.first : [['Text', '', shown.before, shown.end]];
  put('cards', itemsOf({ ...pieces, count: counts[0] }, (piece) => cardOf(piece, tokens)));
  showView(tokens, faults.first);
  put('faults', itemsOf({ ...faults, count: counts[1] }, faultOf));
  for (const [, literal] of by('faults').querySelectorAll('.fix')[1] ? fixed.first : []) {
    const text = () => literal.slice(shown.before, literal.length + shown.end - shown.bytes.length);
    by('faults').append(make('li', '', fixButton('Make all these edits', text)));
  }
  const isReported = answer && state.args && by('args').validity.valid;
  const rows = (name) => itemsOf(answer[name], ([, value]) => row('li', [name, value]));
  put('report', isReported ? REPORT.flatMap(rows) : [], isReported);
  by('summary').textContent = answer ? `pieces: ${counts[0]}, faults: ${counts[1]}` : '';
}

async function start() {
  const packed = Uint8Array.from(atob(by('module').textContent), (c) => c.charCodeAt(0));
  const code = new Blob([packed]).stream().pipeThrough(new DecompressionStream('gzip'));
  reader = new Reader(await WebAssembly.compile(await new Response(code).arrayBuffer()));
  by('form').addEventListener('input', () => {
    clearTimeout(pauses.show);
    if (by('text').value.length <= LONG) show();
    else pauses.show = setTimeout(show, 200);
  });
  by('form').addEventListener('submit', (event) => event.preventDefault());
  const lightAt = ({ target }) => light(target.closest('.token, .part, .fault'));
  for (const event of ['pointerover', 'focusin']) document.addEventListener(event, lightAt);
  document.addEventListener('focusout', () => light(null));
  document.addEventListener('keydown', step);
  addEventListener('hashchange', () => load(location.hash));
  load(location.hash.length > 1 ? location.hash : document.querySelector('.examples a').hash);
}

start();
