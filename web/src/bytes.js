// Bytes as text and numbers. Numbers are big-endian, as everywhere in the two interfaces.

export const hex = (value, digits = 2) => value.toString(16).toUpperCase().padStart(digits, '0');

export const hexOf = (bytes, between = ' ') => Array.from(bytes, (byte) => hex(byte)).join(between);

// Of text that this page wrote itself; what a person types goes through readBytes.
export const fromHex = (text) => Uint8Array.from(text.match(/../g) ?? [], (pair) => parseInt(pair, 16));

export const number16 = (bytes, at) => bytes[at] * 256 + bytes[at + 1];
export const number32 = (bytes, at) => number16(bytes, at) * 65536 + number16(bytes, at + 2);
export const number64 = (bytes, at) => BigInt(number32(bytes, at)) * 4294967296n + BigInt(number32(bytes, at + 4));

// A number as so many bytes; BigInt, since eight of them are more than a number of JS holds.
export function asBytes(value, length) {
  let left = BigInt(value);
  const bytes = new Uint8Array(length);
  for (let at = length - 1; at >= 0; at--) {
    bytes[at] = Number(left & 255n);
    left >>= 8n;
  }
  return bytes;
}

export const joined = (...parts) => Uint8Array.from(parts.flatMap((part) => Array.from(part)));

export const same = (a, b) => a.length === b.length && a.every((byte, at) => byte === b[at]);

// 1500 as 1,500; BigInt too.
export const counted = (value) => value.toString().replace(/\B(?=(\d{3})+$)/g, ',');

const isBlank = (letter) => letter === ' ' || letter === '\t' || letter === '\n' || letter === '\r';
const isDigit = (letter) => letter !== undefined && /^[0-9A-Fa-f]$/.test(letter);

// Bytes of two hex digits, blanks before, between and after them. The first thing that is wrong is told by its place, from 0.
// Bytes that are typed may stand in several lines; `blanks` says what may stand between them.
export function readBytes(text, from = 0, most = Infinity, blanks = ' \t\n\r') {
  const bytes = [];
  let at = from;
  for (;;) {
    while (at < text.length && blanks.includes(text[at])) at++;
    if (at >= text.length) return { bytes: Uint8Array.from(bytes) };
    if (bytes.length === most) return { wrong: 'too many', at };
    if (!isDigit(text[at])) return { wrong: 'digit', at, byte: bytes.length };
    if (!isDigit(text[at + 1])) return { wrong: 'digit', at: at + 1, byte: bytes.length };
    bytes.push(parseInt(text.slice(at, at + 2), 16));
    at += 2;
  }
}

// The same in words for a person who types.
export function wrongInWords(text, read) {
  if (read.wrong === 'too many') return 'More bytes than are taken.';
  const letter = text[read.at];
  const found = letter === undefined || isBlank(letter) ? 'its second hex digit is missing' : `“${letter}” is no hex digit`;
  return `Byte ${read.byte + 1}: ${found}.`;
}
