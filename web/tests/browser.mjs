// A headless Chromium by chromedriver's own protocol: nothing to install beside the two.
import { spawn } from 'node:child_process';
import fs from 'node:fs';
import os from 'node:os';
import path from 'node:path';

const ELEMENT = 'element-6066-11e4-a52e-4f735466cecf';
const KEYS = { tab: '\uE004', enter: '\uE007', space: ' ', escape: '\uE00C', down: '\uE015', shift: '\uE008' };

// chromedriver tells the port that it took.
const portOf = (driver) => new Promise((settle, refuse) => {
  let said = '';
  driver.stdout.on('data', (text) => {
    said += text;
    const found = /successfully on port (\d+)/.exec(said);
    if (found) settle(found[1]);
  });
  driver.on('error', refuse);
  driver.on('exit', () => refuse(new Error(`chromedriver ended: ${said}`)));
});

const options = (folder) => ({
  args: ['--headless=new', '--no-sandbox', '--disable-gpu', '--disable-dev-shm-usage', '--hide-scrollbars', `--user-data-dir=${folder}`],
});

export async function openBrowser() {
  const folder = fs.mkdtempSync(path.join(os.tmpdir(), 'web-test-'));
  const driver = spawn('chromedriver', ['--port=0'], { stdio: ['ignore', 'pipe', 'ignore'] });
  const port = await portOf(driver);
  const send = async (method, where, body) => {
    const answer = await fetch(`http://127.0.0.1:${port}${where}`, { method, body: body && JSON.stringify(body) });
    const { value } = await answer.json();
    if (value?.error) throw new Error(`${where}: ${value.message.split('\n')[0]}`);
    return value;
  };
  const { sessionId } = await send('POST', '/session', { capabilities: { alwaysMatch: { browserName: 'chrome', 'goog:chromeOptions': options(folder) } } });
  const at = (method, where, body) => send(method, `/session/${sessionId}${where}`, body);
  const close = async () => {
    await at('DELETE', '').catch(() => {});
    driver.kill();
    fs.rmSync(folder, { recursive: true, force: true, maxRetries: 5 });
  };
  return { at, close };
}

export const run = (browser, script, ...args) => browser.at('POST', '/execute/sync', { script, args });
export const devtools = (browser, cmd, params) => browser.at('POST', '/goog/cdp/execute', { cmd, params });

const found = async (browser, selector) => (await browser.at('POST', '/element', { using: 'css selector', value: selector }))[ELEMENT];

export const click = async (browser, selector) => browser.at('POST', `/element/${await found(browser, selector)}/click`, {});
export const textOf = (browser, selector) => run(browser, 'return document.querySelector(arguments[0])?.innerText ?? null', selector);

export async function type(browser, selector, text) {
  const element = await found(browser, selector);
  await browser.at('POST', `/element/${element}/clear`, {});
  await browser.at('POST', `/element/${element}/value`, { text });
}

export const choose = async (browser, selector, file) => browser.at('POST', `/element/${await found(browser, selector)}/value`, { text: file });

// Keys go to whatever has the focus, as a person's do.
export async function press(browser, ...keys) {
  const actions = keys.flatMap((key) => {
    const value = KEYS[key] ?? key;
    return [{ type: 'keyDown', value }, { type: 'keyUp', value }];
  });
  await browser.at('POST', '/actions', { actions: [{ type: 'key', id: 'keys', actions }] });
}

export const focused = (browser) => run(browser, 'const one = document.activeElement; return one.id || one.name + "=" + one.value');

export async function picture(browser, file) {
  const { data } = await devtools(browser, 'Page.captureScreenshot', { format: 'png', captureBeyondViewport: false });
  fs.writeFileSync(file, Buffer.from(data, 'base64'));
}

export async function look(browser, { width, height, scheme }) {
  await devtools(browser, 'Emulation.setDeviceMetricsOverride', { width, height, deviceScaleFactor: 1, mobile: width < 600 });
  await devtools(browser, 'Emulation.setEmulatedMedia', { features: [{ name: 'prefers-color-scheme', value: scheme }] });
}
