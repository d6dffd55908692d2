"use strict";
// What stands on the page: the settings, what the program wrote, and the mark. Reading and the program are in worker.js.

const $ = (id) => document.getElementById(id);
const number = (value) => value.toLocaleString("en");
const show = (id, shown) => $(id).toggleAttribute("hidden", !shown);

// Columns are counted from 1. Where `method` and `status` stand, requests can be chosen by their answer.
const FORMS = {
    combined: { name: "nginx, Apache, Varnish", split: "blanks", keys: "7", size: "10", method: 6, status: 9 },
    vhost: { name: "Apache, the host in front", split: "blanks", keys: "1,8", size: "11", method: 7, status: 10 },
    squid: { name: "Squid", split: "blanks", keys: "7", size: "5", time: "1", method: 6, status: 4 },
    cloudfront: { name: "CloudFront", split: "tabs", keys: "16,8", size: "4", method: 6, status: 9, comments: true },
    commas: { name: "Columns, commas between (CSV)", split: "commas" },
    tabs: { name: "Columns, tabs between (TSV)", split: "tabs" },
    blanks: { name: "Columns, blanks between", split: "blanks" },
    json: { name: "JSON, an object a line", split: "json" },
    lines: { name: "Each line as it is", split: null },
};

let worker = null;
let file = null;
let looked = null;
let form = FORMS.lines;
let asked = null;
let report = null;
let marks = null;
// Whether a click holds the mark where it is.
let pinned = false;
// Runs are counted, so that what an earlier one still answers is let go.
let turn = 0;
let stopped = false;

// --- The worker ----------------------------------------------------------------------------------------------------------------

function startWorker() {
    const module = Uint8Array.from(atob($("module").textContent.replace(/\s/g, "")), (letter) => letter.charCodeAt(0));
    const script = new Blob([$("worker").textContent], { type: "text/javascript" });
    worker = new Worker(URL.createObjectURL(script));
    worker.onmessage = ({ data: { turn: answered = turn, ...answers } }) => {
        if (answered !== turn) return;
        for (const [name, value] of Object.entries(answers)) ANSWERS[name](value);
    };
    worker.onerror = (event) => ANSWERS.fault({ words: event.message || "the page's worker could not start" });
    worker.postMessage({ module, script }, [module.buffer]);
}

const ANSWERS = {
    looked: showHead,
    sampled(lines) { $("sample").textContent = lines.join("\n").trimEnd() || "(nothing: no line has these columns)"; },
    progress: showProgress,
    cut(cut) { asked.cut = cut; },
    nothing() { showFault("No request is left to count.", notes(asked.cut).join(" ")); },
    estimate(estimate) { asked.estimate = estimate; },
    report: showReport,
    marks: showMarks,
    fault({ kind, words }) {
        stopped = false;
        if (kind === "memory") showFault("clru_mrc: memory ran out", adviceFor("memory ran out"));
        else showFault(words, UNREAD[kind] || UNREAD.other);
    },
};

// Where the page stands: empty, ready, running, drawn (the mark is to come), done or fault.
function enter(state) {
    document.body.dataset.state = state;
    const running = state === "running";
    $("run").disabled = running;
    show("stop", running || state === "drawn");
    show("progress", running);
    if (state !== "fault") show("fault", false);
}

// --- The log and the form of its lines -------------------------------------------------------------------------------------------

// Several files as one log: what a server puts aside last was changed last.
function logOf(given) {
    const files = [...given].sort((one, two) => one.lastModified - two.lastModified);
    const name = files[0].name + (files.length > 1 ? ` and ${files.length - 1} more` : "");
    const lastModified = files.map((it) => [it.name, it.lastModified]);
    return { files, name, size: files.reduce((sum, { size }) => sum + size, 0), lastModified };
}

// The log of the README of clru_mrc, as nginx writes it: one request in five goes round 1,000 feeds, the others ask for pages.
function exampleLog() {
    const lines = [];
    for (let at = 0, drawn = 1; at < 60000; at++) {
        drawn = drawn * 16807 % 2147483647;
        const key = at % 5 ? Math.trunc(20000 * (drawn / 2147483647) ** 3) : at / 5 % 1000;
        const second = String(at % 60).padStart(2, "0");
        lines.push(`192.0.2.1 - - [01/Dec/2026:10:00:${second} +0000] "GET ${at % 5 ? "/page/" : "/feed/"}${key} HTTP/1.1" 200 ${900 + key % 7000} "-" "-"\n`);
    }
    return new File(lines, "example.log", { lastModified: 0 });
}

function takeFiles(given, isExample = false) {
    if (isBusy()) stop();
    file = { ...logOf(given), isExample };
    if (isExample) $("settings").reset();
    clear();
    show("settings", false);
    enter("empty");
    worker.postMessage({ look: file });
}

const isBusy = () => ["running", "drawn"].includes(document.body.dataset.state);

// Lets go what an earlier run has left.
function clear() {
    turn++;
    report = marks = null;
    show("result", false);
    $("state").textContent = "";
}

function showHead(head) {
    looked = head;
    if (stopped) {
        stopped = false;
        return;
    }
    const guessed = guess();
    $("form").value = guessed;
    const [{ name }, ...more] = file.files;
    const named = more.length ? `${1 + more.length} files, read as one log, the oldest first: ${file.files.map((it) => it.name).join(", ")};`
        : file.isExample ? "A made-up log of 60,000 requests: one in five goes round 1,000 feeds, the others ask for pages;" : `${name},`;
    $("seen").textContent = `${named} ${bytesOf(file.size)}${head.packed ? ", packed by gzip" : ""}. ${looksLike(guessed)}`;
    show("settings", true);
    takeForm(guessed);
    enter("ready");
    if (file.isExample) $("settings").requestSubmit();
}

// What the first lines look like, in words.
function looksLike(guessed) {
    const first = looked.lines[0]?.text;
    if (first === undefined) return "It is empty.";
    const begins = " It begins:";
    if (guessed !== "lines") return `It looks like this: ${FORMS[guessed].name}.${begins}`;
    if (/^\s*[[{]/.test(first)) return `It looks like JSON, but not with an object on each line, as jq -c writes it.${begins}`;
    if (/^\s*</.test(first)) return `It looks like HTML or XML, and not like a log.${begins}`;
    if (looked.lines.some(({ text }) => /[\0\ufffd]/.test(text))) return `It does not look like text.${begins}`;
    return `Each line is taken as it is.${begins}`;
}

const isNumber = (word) => /^"?\d+"?$/.test(word);

// Which form the first lines have.
function guess() {
    const lines = looked.lines.filter((line) => line.text !== "" && !line.text.startsWith("#"));
    const most = (split, holds) => lines.length > 0 && lines.filter(({ columns }) => holds(columns[split])).length * 2 > lines.length;
    if (most("blanks", (it) => /^\[/.test(it[3]) && /^"/.test(it[5]))) return "combined";
    if (most("blanks", (it) => /^\[/.test(it[4]) && /^"/.test(it[6]))) return "vhost";
    if (most("blanks", (it) => /^\d+\.\d+$/.test(it[0]) && /^\w+\/\d{3}$/.test(it[3]))) return "squid";
    if (most("tabs", (it) => it.length > 15 && /^\d{4}-\d\d-\d\d$/.test(it[0]))) return "cloudfront";
    if (most("json", (it) => it.length > 0)) return "json";
    const even = (split) => {
        const counts = new Set(lines.map(({ columns }) => columns[split].length));
        return counts.size === 1 && !counts.has(0) && !counts.has(1);
    };
    if (even("tabs")) return "tabs";
    if (even("commas")) return "commas";
    if (even("blanks") && !lines.every(isSized)) return "blanks";
    return "lines";
}

const isSized = ({ columns: { blanks } }) => blanks.length === 2 && isNumber(blanks[0]);

// Sets the fields as a form has them, or where it says nothing, as headings and first lines suggest.
function takeForm(name) {
    form = FORMS[name];
    const columns = form.split ? looked.lines.map((line) => line.columns[form.split]) : [];
    const isColumns = form.split !== null && !form.keys;
    const [first = [], second = []] = name === "json" ? [looked.fields, ...columns] : columns;
    const isNamed = name === "json" || (isColumns && !first.some(isNumber) && second.some(isNumber));
    $("heading").checked = isNamed && name !== "json";
    const suggested = isColumns ? suggestedColumns(isNamed ? first : [], isNamed ? second : first) : form;
    const named = (column) => (name === "json" && looked.fields[column - 1]) || column || "";
    $("keys").value = named(suggested.keys);
    $("size").value = named(suggested.size);
    $("time").value = named(suggested.time);
    $("keys-hint").textContent = `A click on a column's ${name === "json" ? "name" : "number"} takes it as the key. ` +
        `Several columns, as ${name === "json" ? "host,uri" : "1,8"}, are joined with a blank between.`;
    $("sizes").checked = name === "lines" && looked.lines.length > 0 && looked.lines.every(isSized);
    $("times").checked = false;
    $("answered").checked = form.method > 0;
    $("queries").checked = false;
    for (const id of ["keys-label", "keys-hint", "queries-label"]) show(id, form.split !== null);
    $("next-words").textContent = form.split ? "Is the key in the marked column? Then" : "Is each line a key? Then";
    show("answered-label", form.method > 0);
    show("heading-label", isColumns && name !== "json");
    showColumns();
    const key = $("head").querySelector("th.key");
    if (key) $("head-frame").scrollLeft = key.offsetLeft + key.offsetWidth / 2 - $("head-frame").clientWidth / 2;
}

// The key and the size by the words of a heading, or else by the values: a key is mostly no number, and its size stands behind it.
function suggestedColumns(names, values) {
    const column = (words, holds) => words.findIndex((word, i) => holds(word, i + 1)) + 1;
    let size = column(names, (name) => /size|bytes|length/i.test(name));
    const isKey = (words) => column(names, (name, i) => i !== size && words.test(name));
    const key = isKey(/ur[il]$|^path|[._]path$/i) || isKey(/key|ur[il]|path|page|obj|item|\bid\b|_id/i) ||
        column(values, (value, i) => i !== size && !/^"?[\d.]*"?$/.test(value)) || Math.min(2, values.length);
    size ||= column(values, (value, i) => i > key && isNumber(value));
    const time = column(names, (name) => /time|^ts$|date/i.test(name));
    return { keys: String(key), size: String(size || ""), time: String(time || "") };
}

// A column by its number, or a field of JSON by its name.
const columnOf = (word) => (form.split === "json" && looked.fields.indexOf(word.trim()) + 1) || Number(word.trim());
const chosenKeys = () => $("keys").value.split(",").map(columnOf);
const chosenSize = () => ($("sizes").checked ? columnOf($("size").value) : 0);
const chosenTime = () => ($("times").checked ? columnOf($("time").value) : 0);

// Which columns are wanted and where they stand; null where a field is no number of a column.
function cutOf() {
    if (!form.split) return { split: null };
    const [keys, size, time] = [chosenKeys(), chosenSize(), chosenTime()];
    const most = form.split === "json" ? looked.fields.length : 200;
    const isColumn = (column) => Number.isInteger(column) && column > 0 && column <= most;
    if (!keys.every(isColumn) || ($("sizes").checked && !isColumn(size)) || ($("times").checked && !isColumn(time))) return null;
    const answers = $("answered").checked && form.method ? (size ? ["200"] : ["200", "304"]) : [];
    return {
        split: form.split, keys, size, time, classed: wordsOf()[0] === "--split", answers, method: form.method || 0, status: form.status || 0,
        heading: $("heading").checked && !form.keys, comments: Boolean(form.comments), queries: $("queries").checked,
        fields: form.split === "json" ? looked.fields : [],
    };
}

// The first lines by columns, and what the program reads of them.
function showColumns() {
    const cut = cutOf();
    show("size-label", form.split !== null && $("sizes").checked);
    show("time-label", form.split !== null && $("times").checked);
    for (const id of ["idle-label", "idle-hint", "age-label", "age-hint"]) show(id, $("times").checked);
    const canLeast = !$("sizes").checked;
    $("least").disabled = !canLeast;
    $("least-words").classList.toggle("off", !canLeast);
    $("least-words").textContent = canLeast ? "The least possible misses as well" : "The least possible misses: not by bytes";
    $("floor-words").textContent = canLeast ? "A floor for every policy as well" : "Floors for every policy as well: of misses and of missed bytes";
    $("answered-words").textContent = canLeast ? "Only GET answered with 200 or 304" : "Only GET answered with 200";
    $("head").replaceChildren(...(form.split ? headByColumns(cut) : headByLines()));
    if (cut) worker.postMessage({ sample: cut });
    else $("sample").textContent = "(name columns by their numbers)";
    markStale();
}

// Whether the curve that is shown is one of other settings.
const settings = () => JSON.stringify([cutOf(), wordsOf()]);

function markStale() {
    show("long-hint", $("all").checked && $("least").checked && !$("sizes").checked);
    show("stale", report !== null && asked.settings !== settings());
}

function element(name, text, ...classes) {
    const made = document.createElement(name);
    made.textContent = text;
    made.classList.add(...classes.filter(Boolean));
    return made;
}

function headByLines() {
    const body = document.createElement("tbody");
    for (const { text } of looked.lines) body.insertRow().append(element("td", text));
    return [body];
}

function headByColumns(cut) {
    const lines = looked.lines.map((line) => line.columns[form.split]);
    const names = form.split === "json" ? looked.fields : [];
    const count = Math.max(names.length, ...lines.map((line) => line.length));
    const classOf = (column) => (cut?.keys.includes(column) ? "key" : cut?.size === column ? "size" : cut?.time === column ? "time" : "");
    const [top, body] = [document.createElement("thead"), document.createElement("tbody")];
    const row = top.insertRow();
    for (let column = 1; column <= count; column++) {
        const cell = element("th", "", classOf(column));
        const name = names[column - 1] ?? String(column);
        const button = element("button", classOf(column) ? `${name} ${classOf(column)}` : name);
        button.type = "button";
        button.ariaLabel = `Take ${names.length ? "field" : "column"} ${name} as the key`;
        button.onclick = () => {
            $("keys").value = name;
            showColumns();
            $("head").querySelectorAll("button")[column - 1].focus();
        };
        cell.append(button);
        row.append(cell);
    }
    lines.forEach((line, index) => {
        const made = body.insertRow();
        const skipped = (index === 0 && cut?.heading) || (cut?.comments && looked.lines[index].text.startsWith("#"));
        line.forEach((text, i) => made.append(element("td", text, classOf(i + 1), skipped && "skipped")));
    });
    return [top, body];
}

// --- The run -----------------------------------------------------------------------------------------------------------------------

function wordsOf() {
    const words = [];
    const budget = $("budget").value.replace(/[\s,]/g, "");
    if (budget) return ["--split", budget, ...($("sizes").checked ? ["--sizes"] : [])];
    const at = $("at").value.trim();
    if (at) words.push("--at", at);
    const after = $("after").value.trim();
    if (after && after !== "0") words.push("--after", after);
    if ($("all").checked) words.push("--all");
    if ($("sizes").checked) words.push("--sizes");
    if ($("least").checked && !$("sizes").checked) words.push("--least");
    if ($("floor").checked) words.push("--floor");
    const [idle, age] = ["idle", "age"].map((id) => $(id).value.trim());
    if ($("times").checked) words.push("--times", ...(idle ? ["--max-idle", idle] : []), ...(age ? ["--max-age", age] : []));
    return words;
}

function run(event) {
    event.preventDefault();
    const cut = cutOf();
    clear();
    if (!cut) {
        showFault("A column is a number from 1 on.", "Look at the fields of columns.");
        return;
    }
    const [first, budget] = wordsOf();
    if (first === "--split" && !isBudget(budget)) {
        showFault("A budget is a number of keys or bytes from 1 on.", "Look at the field of the budget, or leave it empty.");
        return;
    }
    asked = { cut: null, words: wordsOf(), command: commandOf(cut, wordsOf()), settings: settings(), clock: asked?.clock };
    showProgress({ read: 0, size: file.size });
    // (the worker ends what it does for the last mark first)
    if (isBusy()) $("state").textContent = "Waiting for the last run to end";
    enter("running");
    worker.postMessage({ run: { turn, file, cut, words: asked.words } });
}

// Whether the module takes a budget: it has 64 bits.
const isBudget = (word) => /^\d{1,20}$/.test(word) && BigInt(word) > 0n && BigInt(word) < 1n << 64n;

// Ends the worker. The next one looks at the file again, and the settings stay.
function stop() {
    worker.terminate();
    turn++;
    clearInterval(asked.clock);
    startWorker();
    stopped = true;
    worker.postMessage({ look: file });
    $("state").textContent = "Stopped.";
    enter(report ? "done" : "ready");
}

// While the log is read its parts are counted; then a call is under way that tells nothing before its end.
function showProgress(progress) {
    const bar = $("bar");
    clearInterval(asked.clock);
    if (progress) {
        [bar.max, bar.value] = [Math.max(1, progress.size), progress.read];
        $("state").textContent = `Reading: ${bytesOf(progress.read)} of ${bytesOf(progress.size)}`;
        return;
    }
    bar.removeAttribute("value");
    const begun = performance.now();
    const tell = () => {
        const seconds = (performance.now() - begun) / 1000;
        $("state").textContent = `Counting, for ${Math.round(seconds)} s${wholeTime()}`;
        if (asked.estimate) [bar.max, bar.value] = [asked.estimate.seconds, Math.min(seconds, asked.estimate.seconds)];
    };
    tell();
    asked.clock = setInterval(tell, 1000);
}

// How long the least takes at each capacity, once that is known.
function wholeTime() {
    if (!asked.estimate) return "";
    const { rows, seconds } = asked.estimate;
    const time = seconds < 90 ? `${Math.round(seconds)} s` : seconds < 5400 ? `${Math.round(seconds / 60)} minutes` : `${Math.round(seconds / 3600)} hours`;
    return `: the least possible at ${number(rows)} capacities takes about ${time} in all`;
}

// Powers of 1,000, as in the picture.
const UNITS = ["bytes", "kB", "MB", "GB", "TB", "PB"];

function bytesOf(count) {
    let unit = 0;
    while (count >= 1000 && unit < UNITS.length - 1) [count, unit] = [count / 1000, unit + 1];
    return `${unit && count < 100 ? count.toFixed(1) : number(Math.round(count))} ${UNITS[unit]}`;
}

// --- What the program wrote ----------------------------------------------------------------------------------------------------

const tableOf = (picture) => picture.slice(picture.indexOf("<desc>\n") + 7, picture.indexOf("</desc>\n"));

function showReport(answered) {
    clearInterval(asked.clock);
    if (answered.status !== 0) {
        showFault(answered.text.trimEnd(), adviceFor(answered.text, answered.memory));
        return;
    }
    const drawn = answered.drawn;
    report = { svg: drawn ? answered.text : "", csv: drawn ? tableOf(answered.text) : answered.text };
    $("picture").replaceChildren(...(drawn ? [document.importNode(new DOMParser().parseFromString(report.svg, "image/svg+xml").documentElement, true)] : []));
    for (const id of ["plot", "save-svg"]) show(id, drawn);
    $("svg").textContent = report.svg;
    $("csv").textContent = report.csv;
    $("command").textContent = asked.command;
    $("copy").textContent = COPY;
    $("notes").textContent = notes(asked.cut).join("\n");
    if (!/\n./.test(report.csv)) $("notes").append("\nNo request is left to count after the first ones.");
    const [first, second] = answered.seconds;
    $("state").textContent = answered.parts
        ? `Done: read and counted in ${first} s by ${answered.parts} parts, drawn in ${second} s.`
        : `Done: read in ${first} s, counted in ${second} s.`;
    showRows();
    const isSplit = asked.words[0] === "--split";
    $("result-heading").textContent = isSplit ? "The split" : drawn ? "The curve" : "The table";
    show("curve-advice", !isSplit);
    show("split-advice", isSplit);
    show("choose-capacity", !isSplit);
    show("choose-part", isSplit);
    // (nobody else has the example)
    show("terminal", !file.isExample);
    for (const id of ["mark", "slide", "mark-hint"]) show(id, false);
    $("says").textContent = "";
    show("result", true);
    markStale();
    enter("drawn");
    $("result").scrollIntoView();
}

const MOST_ROWS = 1000;
const HEADINGS = {
    class: "Class", capacity: "Capacity", misses: "Misses", miss_ratio: "Miss ratio", least_misses: "Least possible", missed_bytes: "Missed bytes",
    floor_misses: "Floor", floor_missed_bytes: "Floor of bytes", byte_miss_ratio: "Byte miss ratio", saved_per_key: "Saved per key", saved_per_byte: "Saved per byte", knee: "Knee",
};

// A number as the table shows it: whole ones by thousands, what is saved by three digits, a knee by a mark.
function shown(name, word) {
    if (name === "class") return word;
    if (name === "knee") return word === "1" ? "\u2022" : "";
    if (name.startsWith("saved")) return Number(word) < 100 ? String(Number(Number(word).toPrecision(3))) : number(Math.round(word));
    return word.includes(".") ? word : word.replace(/\B(?=(\d{3})+$)/g, ",");
}

function showRows() {
    const [names, ...rows] = report.csv.trimEnd().split("\n").map((row) => row.split(","));
    const [top, body] = [document.createElement("thead"), document.createElement("tbody")];
    const head = top.insertRow();
    for (const name of names) head.append(element("th", HEADINGS[name]));
    for (const row of rows.slice(0, MOST_ROWS)) {
        const made = body.insertRow();
        row.forEach((word, i) => made.append(element("td", shown(names[i], word))));
        made.classList.toggle("knee", names.at(-1) === "knee" && row.at(-1) === "1");
    }
    $("rows").replaceChildren(top, body);
    $("rows").classList.toggle("classed", names[0] === "class");
    const cutShort = `The first ${number(MOST_ROWS)} of ${number(rows.length)} rows; the CSV has all.`;
    $("cut-short").textContent = rows.length > MOST_ROWS ? cutShort : "";
}

// What was left out, and what looks wrong with a log whose lines are taken as they are.
function notes(cut) {
    const said = [];
    const many = (count, one, more) => `${number(count)} of ${number(cut.lines)} lines ${count === 1 ? one : more}`;
    const { short = 0, sizeless = 0, answered = 0 } = cut.left || {};
    if (short) said.push(`${many(short, "lacks", "lack")} a column that is read, and ${short === 1 ? "is" : "are"} left out.`);
    if (answered) said.push(`${many(answered, "is", "are")} no GET with such an answer, and left out.`);
    if (sizeless) said.push(`${many(sizeless, "has", "have")} no size but -, and ${sizeless === 1 ? "is" : "are"} left out.`);
    const { lines = 0, empty = 0, returns = 0, zeros = 0 } = cut.odd || {};
    if (!cut.bytes) said.push("There are no requests.");
    if (zeros) said.push("The log has bytes of the value 0, as no text has.");
    if (empty && empty < lines) said.push(`${many(empty, "is", "are")} empty, each a request of one key.`);
    const keys = returns === 1 ? "its key" : "their keys";
    if (returns && returns < lines) said.push(`${many(returns, "ends", "end")} with a carriage return, which is a part of ${keys}.`);
    return said;
}

function showFault(words, advice) {
    clearInterval(asked?.clock);
    $("state").textContent = "";
    $("fault-words").textContent = words;
    $("fault-advice").textContent = advice;
    enter("fault");
    show("fault", true);
    $("fault").scrollIntoView({ block: "nearest" });
}

// What to do about a fault, by its words.
function adviceFor(text, memory = 0) {
    const least = /name numbers from (\d+) on/.exec(text);
    if (least && text.includes("greatest size")) return `Name capacities from ${least[1]} on, or leave the field empty.`;
    if (/is no capacity|empty number|wants capacities/.test(text)) return "Change the field of capacities, or leave it empty.";
    if (/go together|goes with neither/.test(text)) return "Leave one of them out.";
    const column = "Look at the column of the size";
    if (text.includes("has no size")) return `Lines are counted as the program reads them. ${column}, or count no bytes.`;
    if (text.includes("add up to more")) return `${column}.`;
    if (text.includes("no time and size")) return `Lines are counted as the program reads them. ${column} and at that of the time: both are numbers.`;
    if (text.includes("has no time")) return "Lines are counted as the program reads them. Look at the column of the time: it is a number.";
    if (/has no class|class too many/.test(text)) return "Lines are split as the program reads them: name the column of the class first, as 1,8.";
    if (text.includes("more than the budget")) return "Name a greater budget, or none.";
    if (text.includes("is no time")) return "Change the field of the time after which entries expire.";
    if (!text.includes("memory ran out")) return "";
    const got = memory ? `The page got ${bytesOf(memory)} of memory and no more. ` : "";
    return `${got}In a terminal the program can have all of the machine's: ${asked?.command || "clru_mrc < FILE"}`;
}

// What to do where the log could not be read.
const UNREAD = {
    packed: "The file begins as gzip does, and cannot be unpacked here: unpack it first, as in zcat FILE > log.",
    other: "If the file has changed since it was chosen, choose it anew; else load the page anew.",
};

// --- The same in a terminal ----------------------------------------------------------------------------------------------------

const COPY = "Copy the command";

// (a page that is a file may have no clipboard but that of the selection)
async function copy() {
    const { textContent: text } = $("command");
    try {
        await navigator.clipboard.writeText(text);
    } catch {
        getSelection().selectAllChildren($("command"));
        document.execCommand("copy");
    }
    $("copy").textContent = "Copied";
}

const quoted = (word) => (/^[\w./,:+-]+$/.test(word) && !word.startsWith("-") ? word : `'${word.replace(/'/g, "'\\''")}'`);

function commandOf(cut, words) {
    const names = file.files.map(({ name }) => quoted(name));
    const paths = names.map((name) => (name.startsWith("-") || name.startsWith("'-") || name.includes("=") ? `./${name}` : name)).join(" ");
    const isOne = names.length === 1;
    // (awk reads unpacked files itself; `awk 1` ends each with a newline)
    const unpacks = looked.packed && (isOne ? `zcat < ${names[0]} | ` : `zcat -f ${paths} | `);
    const [before, behind] = unpacks ? [unpacks, ""] : isOne ? ["", ` < ${names[0]}`] : [`awk 1 ${paths} | `, ""];
    const asks = ["clru_mrc", ...words.map((word) => (word.startsWith("--") ? word : quoted(word)))].join(" ");
    if (!cut.split) return `${before}${asks}${behind}`;
    if (cut.split === "json") return `${before}jq -Rr '${jqOf(cut)}'${behind} | ${asks}`;
    const hasQuotes = cut.split === "commas" && looked.lines.some(({ text }) => text.includes('"'));
    const unknown = hasQuotes ? "\n# (awk takes a comma in quotes for the end of a column)" : "";
    const awk = `awk ${{ blanks: "", tabs: "-F'\\t' ", commas: "-F, " }[cut.split]}'${awkOf(cut)}'`;
    return `${unpacks || ""}${awk}${unpacks ? "" : ` ${paths}`} | ${asks}${unknown}`;
}

// What a request has, in its order, as worker.js has it.
function orderOf({ keys, size, time, classed }) {
    const named = keys.map((column) => ({ column, isKey: true }));
    return [{ column: time }, ...named.splice(0, classed ? 1 : 0), { column: size }, ...named].filter(({ column }) => column);
}

// A field of JSON by its names, one in the other, as text in which a newline is a blank.
function jqOf(cut) {
    const { size, fields, queries } = cut;
    const path = (column) => `.${fields[column - 1].split(".").map((name) => JSON.stringify(name).replace(/'/g, "'\\''")).join(".")}`;
    const text = 'tostring | gsub("\\n"; " ")';
    const order = orderOf(cut);
    const parts = order.map(({ column, isKey }) => `(${path(column)} | ${text}${queries && isKey ? ' | sub("\\\\?.*"; "")' : ""})`);
    const tests = order.map(({ column }) => column).map((column) => `${path(column)} != null`);
    if (size) tests.push(`${path(size)} != "-"`);
    return `fromjson? | objects | select(${tests.join(" and ")}) | [${parts.join(", ")}] | join(" ")`;
}

function awkOf(cut) {
    const { split, keys, size, method, status, answers, heading, comments, queries } = cut;
    const columns = orderOf(cut).map(({ column }) => column);
    const most = Math.max(...columns, ...(answers.length ? [method, status] : []));
    const tests = [heading && "NR > 1", comments && "!/^#/", `NF >= ${most}`];
    if (answers.length) {
        tests.push(`$${method} ~ /^"?GET$/`);
        tests.push(answers.length > 1 ? `$${status} ~ /^(.*\\/)?(${answers.join("|")})$/` : `$${status} ~ /^(.*\\/)?${answers[0]}$/`);
    }
    if (size) tests.push(`$${size} != "-"`);
    const cuts = queries ? keys.map((key) => `sub(/\\?.*/, "", $${key}); `).join("") : "";
    const returns = looked.lines.some((line) => line.returns) && split ? '{ sub(/\\r$/, "") } ' : "";
    return `${returns}${tests.filter(Boolean).join(" && ")} { ${cuts}print ${columns.map((column) => `$${column}`).join(", ")} }`;
}

// --- The mark --------------------------------------------------------------------------------------------------------------------

// Where the program draws, in tenths of a pixel, and its logarithm.
const [LEFT, WIDTH, BOTTOM, HEIGHT] = [760, 6900, 4060, 3500];

function logarithm(value) {
    const octaves = Math.floor(Math.log2(value));
    const part = value / 2 ** octaves - 1;
    return octaves + part + 0.344 * part * (1 - part);
}

function showMarks(found) {
    enter("done");
    marks = found;
    for (const id of ["mark", "slide", "mark-hint"]) show(id, found !== null);
    if (!found) return;
    pin(false);
    const hits = found.requests - found.rows.at(-1)[1];
    if (found.requests >= 1000 && hits * 100 < found.requests) {
        $("notes").append(`\nOnly ${number(hits)} of ${number(found.requests)} requests hit, at any capacity: is the key a whole line, or does it have a time in it?`);
    }
    const last = found.last > found.first ? found.last : found.first * 2;
    const [begin, length] = [logarithm(found.first), logarithm(last) - logarithm(found.first)];
    marks.across = found.rows.map(([capacity]) => LEFT + WIDTH * (logarithm(Math.min(capacity, last)) - begin) / length);
    const knees = new Set(report.csv.trimEnd().split("\n").filter((row) => row.endsWith(",1")).map((row) => Number(row.split(",")[0])));
    marks.knees = found.rows.keys().filter((at) => knees.has(found.rows[at][0])).toArray();
    moveTo(beginning(found));
}

// Where the mark begins: at the knee that saves the most for its room; without one, where nine tenths of what can hit do.
function beginning(found) {
    const bySize = found.bytes !== undefined;
    const savedAt = ([capacity, misses, , missedBytes]) => (bySize ? found.bytes - missedBytes : found.requests - misses) / capacity;
    if (found.knees.length) return found.knees.reduce((best, at) => savedAt(found.rows[at]) > savedAt(found.rows[best]) ? at : best);
    const most = found.requests - found.rows.at(-1)[1];
    return Math.max(0, found.rows.findIndex(([, misses]) => found.requests - misses >= 0.9 * most));
}

function moveTo(index) {
    marks.index = Math.min(Math.max(index, 0), marks.rows.length - 1);
    // (by keys what follows the ratio is no size)
    const [capacity, misses, , fourth] = marks.rows[marks.index];
    const missedBytes = marks.bytes === undefined ? undefined : fourth;
    const x = marks.across[marks.index];
    const down = (part, whole) => BOTTOM - HEIGHT * part / Math.max(1, whole);
    $("mark-line").setAttribute("d", `M${x} ${BOTTOM - HEIGHT}V${BOTTOM}`);
    place("mark-dot", x, down(misses, marks.requests));
    $("mark-bytes").style.display = missedBytes === undefined ? "none" : "";
    if (missedBytes !== undefined) place("mark-bytes", x, down(missedBytes, marks.bytes));
    $("slider").value = x;
    say(capacity, misses, missedBytes);
}

function place(id, x, y) {
    $(id).setAttribute("cx", x);
    $(id).setAttribute("cy", y);
}

const percent = (part, whole) => `${(whole ? 100 * part / whole : 0).toFixed(2)} %`;

function say(capacity, misses, missedBytes) {
    const bold = (text) => element("b", text);
    const { requests, bytes } = marks;
    const hits = requests - misses;
    const byBytes = missedBytes !== undefined;
    const unit = byBytes ? "bytes" : capacity === 1 ? "key" : "keys";
    const rounded = byBytes && capacity >= 1000 ? ` (${bytesOf(capacity)})` : "";
    const knee = marks.knees.includes(marks.index) ? ", a knee" : "";
    const parts = [bold(`${number(capacity)} ${unit}${rounded}`), `${knee}: hit ratio `, bold(percent(hits, requests)), ", "];
    parts.push(bold(number(hits)), ` ${hits === 1 ? "miss" : "misses"} saved of ${number(requests)}`);
    if (byBytes) {
        const saved = bytes - missedBytes;
        parts.push("; byte hit ratio ", bold(percent(saved, bytes)), ", ", bold(number(saved)), ` bytes saved of ${number(bytes)}`);
    }
    $("says").replaceChildren(...parts);
    $("slider").setAttribute("aria-valuetext", $("says").textContent);
}

// The mark nearest to a place of the picture; a knee a few pixels away goes first, because just before it is the worst capacity.
function nearest(x) {
    const knee = marks.knees.find((at) => Math.abs(marks.across[at] - x) < 60);
    if (knee !== undefined) return knee;
    let [low, high] = [0, marks.across.length - 1];
    while (low < high) {
        const middle = (low + high) >> 1;
        if (marks.across[middle] < x) low = middle + 1;
        else high = middle;
    }
    return low > 0 && x - marks.across[low - 1] < marks.across[low] - x ? low - 1 : low;
}

const pointedAt = (event) => {
    const { left, width } = $("plot").getBoundingClientRect();
    return nearest((event.clientX - left) / width * 8000);
};

function follow(event) {
    if (marks && !pinned) moveTo(pointedAt(event));
}

// A click holds the mark there, and one at the held mark lets it go.
function pin(held) {
    pinned = held;
    $("mark").classList.toggle("pinned", held);
    $("pin-hint").textContent = held ? "It is pinned: click on it once more to let it go." : "A click pins it.";
}

function click(event) {
    if (!marks) return;
    const index = pointedAt(event);
    const isThere = pinned && Math.abs(marks.across[index] - marks.across[marks.index]) < 120;
    moveTo(index);
    pin(!isThere);
}

const STEPS = { ArrowLeft: -1, ArrowDown: -1, ArrowRight: 1, ArrowUp: 1, PageDown: -20, PageUp: 20, Home: -Infinity, End: Infinity };

function step(event) {
    if (!marks || !(event.key in STEPS)) return;
    event.preventDefault();
    moveTo(marks.index + STEPS[event.key]);
}

// --- Saving, and how the page begins -----------------------------------------------------------------------------------------------

function save(text, kind, ending) {
    const link = document.createElement("a");
    link.href = URL.createObjectURL(new Blob([text], { type: kind }));
    link.download = file.name.replace(/\.gz$/, "") + ending;
    link.click();
    setTimeout(() => URL.revokeObjectURL(link.href), 60000);
}

// Whether there can be a memory of 64 bits: a module that has one and nothing else.
const isFit = () => typeof WebAssembly === "object" && WebAssembly.validate(new Uint8Array([0, 97, 115, 109, 1, 0, 0, 0, 5, 3, 1, 4, 1]));

function begin() {
    if (!isFit()) {
        show("unfit", true);
        document.body.dataset.state = "unfit";
        return;
    }
    show("tool", true);
    for (const [name, { name: words }] of Object.entries(FORMS)) $("form").append(new Option(words, name));
    startWorker();
    // (or a file that is chosen once more would be no change)
    $("file").onclick = () => { $("file").value = ""; };
    $("file").onchange = () => $("file").files.length && takeFiles($("file").files);
    $("example").onclick = () => takeFiles([exampleLog()], true);
    document.ondragover = (event) => {
        event.preventDefault();
        $("drop").classList.add("over");
    };
    document.ondragleave = () => $("drop").classList.remove("over");
    document.ondrop = (event) => {
        event.preventDefault();
        $("drop").classList.remove("over");
        if (event.dataTransfer.files.length) {
            $("file").files = event.dataTransfer.files;
            takeFiles(event.dataTransfer.files);
        }
    };
    $("form").onchange = () => takeForm($("form").value);
    for (const id of ["keys", "size", "time", "sizes", "times", "heading", "answered", "queries"]) $(id).oninput = showColumns;
    for (const id of ["at", "after", "idle", "age", "all", "least", "floor"]) $(id).oninput = markStale;
    $("budget").oninput = showColumns;
    $("copy").onclick = copy;
    for (const link of document.querySelectorAll("a[href^='#choose']")) link.onclick = () => { $("choose").open = true; };
    $("settings").onsubmit = run;
    $("stop").onclick = stop;
    $("plot").onpointermove = follow;
    $("plot").onpointerdown = (event) => {
        click(event);
        $("slider").focus({ preventScroll: true });
        event.preventDefault();
    };
    $("slider").oninput = () => marks && moveTo(nearest(Number($("slider").value)));
    $("slider").onkeydown = step;
    $("save-svg").onclick = () => save(report.svg, "image/svg+xml", ".svg");
    $("save-csv").onclick = () => save(report.csv, "text/csv", ".csv");
    enter("empty");
}

begin();
