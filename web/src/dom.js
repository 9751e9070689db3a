// Small helps for the page's elements.

export const byId = (id) => document.getElementById(id);

function withAttributes(element, attributes) {
  for (const [name, value] of Object.entries(attributes)) {
    if (value === false || value === null || value === undefined) continue;
    if (name.startsWith('on')) element.addEventListener(name.slice(2), value);
    else element.setAttribute(name, value === true ? '' : value);
  }
  return element;
}

const filledWith = (element, children) => {
  element.append(...children.flat(2).filter((child) => child !== null && child !== undefined && child !== false));
  return element;
};

export const el = (tag, attributes = {}, ...children) => filledWith(withAttributes(document.createElement(tag), attributes), children);

export const svg = (tag, attributes = {}, ...children) =>
  filledWith(withAttributes(document.createElementNS('http://www.w3.org/2000/svg', tag), attributes), children);

export const fill = (element, ...children) => {
  element.replaceChildren();
  return filledWith(element, children);
};

// A message at the field that it is about; none takes it away.
export function sayWrong(field, place, ...words) {
  const wrong = words.length > 0;
  field.setAttribute('aria-invalid', String(wrong));
  place.hidden = !wrong;
  fill(place, words);
}

// The text with the letter that is wrong marked, cut to what stands around it.
export function markedText(text, at, around = 24) {
  const from = Math.max(0, at - around);
  const before = (from > 0 ? '…' : '') + text.slice(from, at);
  const after = text.slice(at + 1, at + 1 + around) + (at + 1 + around < text.length ? '…' : '');
  return el('span', { class: 'place' }, before, el('mark', {}, (text[at] ?? '').trim() || '␣'), after);
}

export const chosen = (name) => document.querySelector(`input[name="${name}"]:checked`).value;

export function saveFile(name, bytes) {
  const link = el('a', { href: URL.createObjectURL(new Blob([bytes])), download: name });
  link.click();
  setTimeout(() => URL.revokeObjectURL(link.href), 1000);
}

// The clipboard may be closed to a page from a file; then the old way, by a selection.
export async function copyText(text) {
  try {
    await navigator.clipboard.writeText(text);
    return true;
  } catch {
    const area = el('textarea', { class: 'unseen' });
    area.value = text;
    document.body.append(area);
    area.select();
    const copied = document.execCommand('copy');
    area.remove();
    return copied;
  }
}

export const bytesOfFile = async (file) => new Uint8Array(await file.arrayBuffer());
