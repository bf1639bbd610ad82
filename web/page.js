"use strict";
// The page: what is typed becomes arguments and files of the program, and what the program writes is shown.

const byId = id => document.getElementById(id);
const [form, status_, crawlers, urls, known, needless] = ["form", "status", "crawlers", "urls", "known", "needless"].map(byId);
const encoder = new TextEncoder(), decoder = new TextDecoder();
const linesOf = area => area.value.split("\n").map(line => line.trim()).filter(line => line);

/** A text area for which a file can be chosen or dropped. Its bytes count, which need not be text, until the text is edited. */
class FileField {
  constructor(id, folder, name) {
    [this.area, this.chooser, this.folder, this.name, this.file] = [byId(id), byId(`${id}-file`), folder, name, null];
    this.area.addEventListener("input", () => this.forget());
    this.chooser.addEventListener("change", () => this.take(this.chooser.files[0]));
  }

  async take(file) {
    if (!file) return;
    const bytes = new Uint8Array(await file.arrayBuffer());
    this.area.value = decoder.decode(bytes);
    this.file = { name: file.name, bytes };
    changed();
  }

  /** The file is that text again. */
  forget() { [this.file, this.chooser.value] = [null, ""]; }

  get isEmpty() { return !this.file && !this.area.value; }

  get isText() { return !this.file || encoder.encode(this.area.value).join() === this.file.bytes.join(); }

  /** The name for the program, of which `-` would be standard input, and the bytes. */
  get given() {
    const { name, bytes } = this.file ?? { name: this.name, bytes: encoder.encode(this.area.value) };
    return [this.folder + (name === "-" ? this.name : name), bytes];
  }
}

const robots = new FileField("robots", "", "robots.txt");
const old = new FileField("old", "old/", "robots.txt"), expect = new FileField("expect", "expect/", "expect.txt");

// What can be done: with which option, which other file, and what each exit status means.
const TASKS = {
  audit: {
    words: () => ["--html", `--date=${today()}`, ...needless.checked ? ["--needless"] : []],
    says: [() => urls.value.trim() ? "Each of the crawlers may fetch every URL." : "The report is ready.",
      () => "A URL is denied to a crawler.", () => "The file is rejected for a crawler."],
  },
  compare: {
    other: old, words: name => [`--compare=${name}`],
    says: [() => "Nothing differs.", () => "Something differs.", () => "A file is rejected for a crawler."],
  },
  expect: {
    other: expect, words: name => [`--expect=${name}`],
    says: [() => "All expectations hold.", () => "An expectation fails."],
  },
};

function today() {
  const now = new Date();
  return [now.getFullYear(), now.getMonth() + 1, now.getDate()].map(it => String(it).padStart(2, "0")).join("-");
}

/** The arguments and the files of a run. */
function given(task) {
  const files = [robots.given, ...task.other ? [task.other.given] : []], [[name], [other] = []] = files;
  const asks = task !== TASKS.expect;
  const agents = asks ? linesOf(crawlers).map(it => `--agent=${it}`) : [];
  const words = ["robots_audit", ...task.words(other), ...agents, "--", name, ...asks ? linesOf(urls) : []];
  return { words: words.map(it => encoder.encode(it)), files: files.map(([it, bytes]) => [encoder.encode(it), bytes]) };
}

// ---- one run at a time, in a worker of its own: the next change ends it

let program, worker, timer, isAsked = true;
const host = URL.createObjectURL(new Blob([byId("host").textContent], { type: "text/javascript" }));

async function compiled() {
  const packed = Uint8Array.from(atob(byId("program").textContent), it => it.charCodeAt(0));
  const stream = new Blob([packed]).stream().pipeThrough(new DecompressionStream("gzip"));
  return WebAssembly.compile(await new Response(stream).arrayBuffer());
}

function stop() {
  clearTimeout(timer);
  worker?.terminate();
  worker = null;
}

/** What a run of the program ends with and writes. */
async function run(words, files) {
  stop();
  const own = worker = new Worker(host);
  const module = await (program ??= compiled());
  return new Promise((resolve, reject) => {
    own.onmessage = ({ data }) => data.failed ? reject(data.failed) : resolve(data);
    own.onerror = event => reject(event.message);
    own.postMessage([module, words, new Uint8Array(), files]);
  });
}

async function audit() {
  const task = TASKS[form.elements.task.value];
  const missing = [robots, task.other].find(it => it?.isEmpty);
  if (missing) return say(`Paste or choose a file: ${missing.area.labels[0].textContent}.`);
  const { words, files } = given(task);
  const ran = run(words, files);
  timer = setTimeout(() => { status_.textContent = "The program is still running. The next change ends it."; }, 2000);
  try { show(await ran, task); } catch (error) { say(`The program stopped: ${error}`, true); }
}

function changed() {
  stop();
  for (const it of document.querySelectorAll("[data-tasks]")) it.hidden = !it.dataset.tasks.includes(form.elements.task.value);
  fit();
  byId("output").ariaBusy = isAsked;
  if (isAsked) timer = setTimeout(audit, 150);
}

// ---- what is shown

/** Text areas but the first have the height of their text. */
function fit() {
  for (const area of document.querySelectorAll(".ask textarea")) {
    area.style.height = "auto";
    area.style.height = `${area.scrollHeight + 2}px`;
  }
}

function say(text, isError = false) {
  stop();
  [status_.textContent, status_.className] = [text, isError ? "failed" : ""];
  byId("output").ariaBusy = false;
}

function show({ status, out, err }, task) {
  const message = decoder.decode(err);
  if (!out.length) return say(message + (byId("actions").hidden ? "" : "Below is the report before this change."), true);
  const isPage = task === TASKS.audit, [page, text, save] = ["page", "text", "save"].map(byId);
  [page.hidden, text.hidden, byId("actions").hidden, byId("link-label").hidden] = [!isPage, isPage, false, true];
  if (isPage) page.srcdoc = decoder.decode(out); else text.textContent = decoder.decode(out) + message;
  URL.revokeObjectURL(save.href);
  save.href = URL.createObjectURL(new Blob([out], { type: isPage ? "text/html" : "text/plain" }));
  save.download = isPage ? "robots-report.html" : "robots-report.txt";
  say(task.says[status]());
}

// ---- a link with the file in its fragment, which no server gets: read once, shown as text, and not run before it is asked for

const LINKED = { robots: robots.area, old: old.area, expect: expect.area, crawlers, urls };

function share() {
  const values = Object.entries(LINKED).map(([name, { value }]) => [name, value]);
  const link = byId("link"), filled = values.filter(([, value]) => value);
  const fragment = new URLSearchParams([["task", form.elements.task.value], ...filled]);
  byId("link-label").hidden = false;
  link.value = `${location.href.split("#")[0]}#${fragment}`;
  link.focus();
  link.select();
  const isText = [robots, old, expect].every(it => it.isText);
  if (!isText) say("The link has the text that is shown, which isn't that of the file byte for byte.");
}

/** Whether there was such a link. */
function read() {
  const fragment = new URLSearchParams(location.hash.slice(1));
  if (!fragment.has("robots")) return false;
  history.replaceState(null, "", location.href.split("#")[0]);
  for (const [name, area] of Object.entries(LINKED)) area.value = fragment.get(name) ?? "";
  for (const it of [robots, old, expect]) it.forget();
  form.elements.task.value = fragment.get("task");
  for (const name of ["page", "text", "actions"]) byId(name).hidden = true;
  isAsked = false;
  changed();
  say("This file came with the link. \u201cShow the report\u201d audits it.");
  return true;
}

// ---- events

function view(name) { document.querySelector(`[name=view][value=${name}]`).checked = true; }

byId("views").addEventListener("change", fit);
form.addEventListener("input", changed);
form.addEventListener("submit", event => {
  event.preventDefault();
  isAsked = true;
  view("result");
  changed();
});
byId("add").addEventListener("click", () => {
  crawlers.value = [...new Set([...linesOf(crawlers), known.value])].join("\n");
  changed();
});
byId("clear").addEventListener("click", () => {
  robots.forget();
  robots.area.value = crawlers.value = urls.value = "";
  robots.area.focus();
  changed();
});
byId("share").addEventListener("click", share);
for (const name of ["dragover", "dragleave", "drop"]) {
  document.addEventListener(name, event => {
    if (!event.dataTransfer?.types.includes("Files")) return;
    event.preventDefault();
    const part = event.target.closest?.(".drop") ?? document.querySelector(".file");
    part.classList.toggle("over", name === "dragover");
    if (name === "drop") [robots, old, expect].find(it => part.contains(it.area)).take(event.dataTransfer.files[0]);
  });
}
addEventListener("hashchange", read);
addEventListener("resize", fit);
if (!read()) changed();
