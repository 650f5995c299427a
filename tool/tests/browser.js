// SPDX-License-Identifier: Apache-2.0 OR MIT
// Runs a page's script over things that take what a browser would do, and prints what it found and told.
"use strict";
const text = require("fs").readFileSync(process.argv[2], "utf8");
const scripts = [...text.matchAll(/<script[^>]*>([\s\S]*?)<\/script>/g)].map((it) => it[1]);
const LETTER = 7;
let drawn = 0, off = 0, align = "left";
/* How many texts don't begin on the page: a letter is taken to be so wide. */
const wrote = (text, at) => {
  drawn++;
  const from = align === "right" ? at - LETTER * String(text).length : at;
  if (from < 0 && align !== "center") { off++; }
};
const drawing = { fillText: wrote, measureText: (text) => ({ width: LETTER * text.length }) };
const context = new Proxy({}, {
  get: (_, name) => drawing[name] || (() => undefined),
  set: (_, name, value) => { if (name === "textAlign") { align = value; } return true; },
});
const heard = {};
const made = (id) => ({
  style: {}, value: id === "search" ? "manager" : "18", clientWidth: 800, clientHeight: 600, scrollTop: 0, scrollLeft: 0,
  textContent: id === "data" ? scripts[0] : "", append() {}, getContext: () => context,
  addEventListener(name, call) { heard[id + " " + name] = call; }, getBoundingClientRect: () => ({ top: 0 }),
});
const elements = {};
global.document = { getElementById: (id) => (elements[id] ??= made(id)), createElement: made, documentElement: {} };
global.window = { addEventListener() {} };
global.getComputedStyle = () => ({ getPropertyValue: () => "#000" });
global.requestAnimationFrame = (call) => call();
(0, eval)(scripts[1]);
heard["on click"]();
heard["view wheel"]({ ctrlKey: true, deltaY: 1, offsetY: 10, preventDefault() {} });
heard["view scroll"]();
console.log(elements.found.textContent + "; " + elements.told.textContent.split("\n")[0] + "; " + (drawn > 10) + "; " + off + " off the page");
