'use strict';
/** A page in headless Chromium, by the DevTools protocol over a pipe. */

const { spawn } = require('child_process');
const fs = require('fs');
const os = require('os');
const path = require('path');

const NAMES = ['chromium', 'chromium-browser', 'google-chrome', 'chrome'];

/** Where a program is on the path, or nothing. */
function found(name) {
  const folders = process.env.PATH.split(path.delimiter);
  return folders.map((folder) => path.join(folder, name)).find((file) => fs.existsSync(file));
}

class Browser {
  constructor() {
    const program = NAMES.map(found).find((file) => file);
    if (!program) throw new Error(`there is none of ${NAMES.join(', ')} on the path`);
    this.folder = fs.mkdtempSync(path.join(os.tmpdir(), 'web-check-'));
    const words = ['--headless', '--no-sandbox', '--disable-gpu', '--remote-debugging-pipe'];
    words.push('--hide-scrollbars', '--force-color-profile=srgb', `--user-data-dir=${this.folder}`);
    const stdio = ['ignore', 'ignore', 'ignore', 'pipe', 'pipe'];
    this.process = spawn(program, words, { stdio });
    this.asked = new Map();
    this.events = [];
    this.last = 0;
    let rest = Buffer.alloc(0);
    this.process.stdio[4].on('data', (data) => {
      rest = Buffer.concat([rest, data]);
      for (let at = rest.indexOf(0); at >= 0; at = rest.indexOf(0)) {
        this.hear(JSON.parse(rest.subarray(0, at)));
        rest = rest.subarray(at + 1);
      }
    });
  }

  hear(message) {
    const asked = this.asked.get(message.id);
    this.asked.delete(message.id);
    if (!asked) this.events.push(message);
    else if (message.error) asked.fail(new Error(JSON.stringify(message.error)));
    else asked.done(message.result);
  }

  /** Makes a call of the protocol. */
  call(method, params = {}) {
    this.last += 1;
    const message = { id: this.last, method, params, sessionId: this.session };
    this.process.stdio[3].write(JSON.stringify(message) + '\0');
    return new Promise((done, fail) => this.asked.set(message.id, { done, fail }));
  }

  /** Opens a page. The messages to its console are in `events`. */
  async open(address) {
    const { targetId } = await this.call('Target.createTarget', { url: 'about:blank' });
    const attached = await this.call('Target.attachToTarget', { targetId, flatten: true });
    this.session = attached.sessionId;
    for (const domain of ['Page', 'Runtime', 'Log']) await this.call(`${domain}.enable`);
    await this.call('Page.navigate', { url: address });
  }

  /** The value of an expression in the page. */
  async value(expression) {
    const how = { expression, returnByValue: true, awaitPromise: true };
    const { result, exceptionDetails: failed } = await this.call('Runtime.evaluate', how);
    if (failed) throw new Error(failed.exception ? failed.exception.description : failed.text);
    return result.value;
  }

  /** Waits until an expression is true. */
  async until(expression) {
    for (let tries = 0; tries < 600; tries += 1) {
      if (await this.value(expression)) return;
      await new Promise((done) => setTimeout(done, 50));
    }
    throw new Error(`never true: ${expression}`);
  }

  /** Writes a picture of the page. */
  async picture(file, width, height, scheme) {
    const metrics = { width, height, deviceScaleFactor: 1, mobile: false };
    const features = [{ name: 'prefers-color-scheme', value: scheme }];
    await this.call('Emulation.setDeviceMetricsOverride', metrics);
    await this.call('Emulation.setEmulatedMedia', { features });
    await new Promise((done) => setTimeout(done, 200));
    const { data } = await this.call('Page.captureScreenshot', { format: 'png' });
    fs.writeFileSync(file, Buffer.from(data, 'base64'));
  }

  close() {
    return new Promise((done) => {
      this.process.on('exit', () => {
        fs.rmSync(this.folder, { recursive: true, force: true, maxRetries: 9, retryDelay: 100 });
        done();
      });
      this.process.kill();
    });
  }
}

module.exports = { Browser };
