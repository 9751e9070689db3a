// What the browser keeps over a reload. It may have no room, or keep nothing at all; then the page says so and goes on.
import { VERSION } from './library.js';

// Another version has other images, so what it kept isn't touched.
const CALLS = `bjargolsk-${VERSION}-calls`;
const TYPED = `bjargolsk-${VERSION}-typed`;

function stored(key, text) {
  try {
    localStorage.setItem(key, text);
    return true;
  } catch {
    return false;
  }
}

function found(key) {
  try {
    return localStorage.getItem(key);
  } catch {
    return null;
  }
}

export const keepCalls = (text) => stored(CALLS, text);
export const keptCalls = () => found(CALLS);
export const keepTyped = (typed) => stored(TYPED, JSON.stringify(typed));

export function keptTyped() {
  try {
    return JSON.parse(found(TYPED)) ?? {};
  } catch {
    return {};
  }
}
