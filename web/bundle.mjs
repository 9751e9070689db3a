// Puts page.html, page.css, the modules and the WebAssembly into one file. usage: bundle.mjs SRC LIBRARY.wasm MADE-BY OUT.html
// Why not imports: a page opened from a file may not fetch another file. The modules become one script, each before those that import it, so a name
// may be declared by one module only.
import fs from 'node:fs';
import path from 'node:path';

const [src, wasm, madeBy, out] = process.argv.slice(2);
const IMPORT = /^import\s+(?:\{[^}]*\}\s+from\s+)?'\.\/([a-z-]+\.js)';\n/gm;
const DECLARED = /^(?:export )?(?:async )?(?:function|const|let|class)\s+(?:([A-Za-z0-9_$]+)|\{([^}]*)\})/gm;

const textOf = (name) => fs.readFileSync(path.join(src, name), 'utf8');

// The modules that `name` stands on, then itself.
function ordered(name, seen = []) {
  if (seen.includes(name)) return seen;
  for (const [, imported] of textOf(name).matchAll(IMPORT)) ordered(imported, seen);
  if (!seen.includes(name)) seen.push(name);
  return seen;
}

function namesOf(name) {
  const found = [...textOf(name).matchAll(DECLARED)];
  return found.flatMap(([, one, several]) => (one ? [one] : several.split(',').map((word) => word.trim())));
}

// Names that a module keeps for itself may be those of another: each module is a block of its own, and only what it exports is seen outside.
function exportedOf(name) {
  return [...textOf(name).matchAll(/^export (?:async )?(?:function|const|let|class)\s+([A-Za-z0-9_$]+)/gm)].map(([, one]) => one);
}

function moduleText(name) {
  const body = textOf(name).replace(IMPORT, '').replace(/^export /gm, '');
  if (/^\s*(import|export)\b/m.test(body)) throw new Error(`${name}: an import or export that the bundle doesn't know`);
  const shown = exportedOf(name);
  const head = shown.length ? `const { ${shown.join(', ')} } = ` : '';
  return `// ---- ${name}\n${head}(() => {\n${body}${shown.length ? `return { ${shown.join(', ')} };\n` : ''}})();\n`;
}

function holdApart(names) {
  const exported = names.flatMap(exportedOf);
  const twice = exported.find((one, at) => exported.indexOf(one) !== at);
  if (twice) throw new Error(`two modules export ${twice}`);
  for (const name of names) {
    const inside = namesOf(name);
    const repeated = inside.find((one, at) => inside.indexOf(one) !== at);
    if (repeated) throw new Error(`${name} declares ${repeated} twice`);
  }
}

function bundled() {
  const names = ordered('page.js');
  holdApart(names);
  const script = names.map(moduleText).join('\n');
  if (script.includes('</script')) throw new Error('a module ends the script');
  const places = {
    style: textOf('page.css'),
    library: fs.readFileSync(wasm).toString('base64').replace(/.{120}/g, '$&\n'),
    script: `'use strict';\n${script}`,
  };
  const page = textOf('page.html').replace('{{made by}}', () => madeBy.replace(/[^\w .,-]/g, ''));
  return page.replace(/^[ \t]*\{\{(\w+)\}\}\n/gm, (_, place) => `${places[place].trimEnd()}\n`);
}

fs.writeFileSync(out, bundled());
