// What the tests take from elsewhere.
import fs from 'node:fs';
import path from 'node:path';

// The WebAssembly out of a built page, so that what is tested is what is handed out.
export function wasmOf(file) {
  const found = /id="library"[^>]*>([A-Za-z0-9+/=\s]+)</.exec(fs.readFileSync(file, 'utf8'));
  if (!found) throw new Error(`${file} holds no library`);
  return Buffer.from(found[1], 'base64');
}

// What `help` prints, from the page that says so.
export function helpOf(top) {
  const page = fs.readFileSync(path.join(top, 'docs/PROTOCOL.md'), 'utf8').split('\n');
  return page.slice(page.indexOf('## help') + 2).filter((line) => line.startsWith('    ')).map((line) => line.slice(4));
}
