/** The elements that light up together, and the arrow keys. An element of a part of the text has
 * its byte range (`span`), and a token the row of the part that it belongs to (`owner`). */

/** Lights up the part of an element and its characters, or nothing. */
function light(element) {
  const part = element && (element.owner || element);
  const [start, end] = part ? part.span : [0, 0];
  for (const it of document.querySelectorAll('.token, .part, .fault')) {
    const isToken = it.matches('.token');
    const isLit = it === part || (isToken && start <= it.span[0] && it.span[1] <= end);
    if (isToken) it.ariaSelected = String(isLit);
    it.classList.toggle('lit', isLit);
  }
}

/** One item of a list is reached with Tab, and the others from there with the arrow keys. */
function step(event) {
  const list = event.target.closest('#view, #faults, #cards');
  const items = list ? [...list.querySelectorAll('[tabindex]')] : [];
  const at = items.indexOf(event.target);
  const steps = { ArrowRight: at + 1, ArrowDown: at + 1, ArrowLeft: at - 1, ArrowUp: at - 1 };
  const next = items[{ ...steps, Home: 0, End: items.length - 1 }[event.key]];
  if (at < 0 || !next) return;
  event.preventDefault();
  items[at].tabIndex = -1;
  next.tabIndex = 0;
  next.focus();
}
