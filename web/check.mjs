// The module beside the native program: node web/check.mjs MODULE PROGRAM
//
// Both get the same words and the same log; status and text have to be the same, byte for byte. The last lines ask whether the
// comparison sees a difference, whether a small block, a small text and a second call answer as they should, whether the page's
// worker cuts the columns of lines, and counts odd ones, and whether logs that are counted by parts have the same reports. Words that
// begin with --split are for the module's function of that name.
import { spawnSync } from "node:child_process";
import { readFileSync } from "node:fs";
import { runInNewContext } from "node:vm";

const [modulePath, program] = process.argv.slice(2);
const compiled = new WebAssembly.Module(readFileSync(modulePath));

// Numbers from a fixed seed, so that each run has the same logs.
function drawn(seed) {
    let state = BigInt(seed);
    return (below) => {
        state = (state * 6364136223846793005n + 1442695040888963407n) & 0xffffffffffffffffn;
        return Number((state >> 33n) % BigInt(below));
    };
}

// Lines of which few come often; with sizes each key has its own.
function log(lines, keys, sized) {
    const draw = drawn(lines + keys);
    let text = "";
    for (let line = 0; line < lines; line++) {
        const key = Math.floor(keys / (1 + draw(keys)) + draw(7));
        text += sized ? `${1 + (key % 911)} /p/${key}\n` : `/p/${key}\n`;
    }
    return Buffer.from(text);
}

class Instance {
    constructor() {
        this.exports = new WebAssembly.Instance(compiled, {}).exports;
        this.memory = this.exports.memory;
        const base = this.exports.__heap_base.value;
        this.base = Math.ceil(Number(base) / 16) * 16;
    }

    // The memory reaches up to this address.
    reach(end) {
        const pages = Math.ceil((end - this.memory.buffer.byteLength) / 65536);
        if (pages <= 0) return;
        try {
            this.memory.grow(BigInt(pages));
        } catch (error) {
            if (!(error instanceof TypeError)) throw error;
            this.memory.grow(pages);
        }
    }

    // The status of a function that gets a block of this size and then numbers and arrays, which stand in the memory meanwhile: an array is
    // its address and its length, and one in brackets its address alone.
    call(name, blockSize, ...given) {
        let end = this.base;
        const place = (size) => {
            const at = end;
            end += Math.ceil(Math.max(size, 16) / 16) * 16;
            return at;
        };
        const pair = new BigUint64Array([0n, BigInt(blockSize)]), arrays = [[place(16), pair]];
        const numbers = given.flatMap((it) => {
            if (typeof it === "number") return it;
            const array = Array.isArray(it) ? it[0] : it, at = place(array.byteLength);
            arrays.push([at, array]);
            return array === it ? [at, array.length] : at;
        });
        pair[0] = BigInt(end);
        this.reach(end + blockSize);
        const inMemory = ([at, { byteLength }]) => new Uint8Array(this.memory.buffer, at, byteLength);
        const inNode = ([, { buffer, byteOffset, byteLength }]) => new Uint8Array(buffer, byteOffset, byteLength);
        for (const it of arrays) inMemory(it).set(inNode(it));
        const status = this.exports[name](...[this.base, ...numbers].map(BigInt));
        for (const it of arrays) inNode(it).set(inMemory(it));
        return status;
    }

    // What a function writes that gets these words, and then these numbers and arrays.
    told(name, words, behind, blockSize, textSize) {
        const text = Buffer.alloc(textSize), written = new BigUint64Array(1);
        const status = this.call(name, blockSize, ...words, ...behind, text, [written]);
        return [status, text.subarray(0, Number(written[0])).toString("latin1")];
    }

    ask(words, input, blockSize, textSize) {
        const split = [Number(words[1]), Number(words.includes("--sizes")), words.includes("--json") ? 1 : words.includes("--svg") ? 2 : 0];
        const [name, given] = words[0] === "--split" ? ["split", split] : ["report", [linesOf(words)]];
        return this.told(name, given, [input, 5, 7], blockSize, textSize);
    }

    // What is known of a part, and the status. Arrays have room for so many elements.
    part(log, blockSize = 16 * MIB, [keys, first, last] = new Array(3).fill(log.length + 1)) {
        const [curve, firsts, lasts] = [new BigUint64Array(keys), Buffer.alloc(first), Buffer.alloc(last)];
        const numbers = new Array(4).fill().map(() => new BigUint64Array(1));
        const status = this.call("part", blockSize, log, 5, 7, curve, firsts, lasts, ...numbers.map((it) => [it]));
        const [requests, ...ends] = numbers.map(([it]) => Number(it));
        const written = [curve, firsts, lasts].map((array, at) => array.subarray(0, ends[at]));
        return { status, requests, bytes: log.length, curve: written[0], firsts: written[1], lasts: written[2] };
    }

    join(one, two, blockSize = 16 * MIB, [keys, last] = [one.curve.length + two.curve.length, one.lasts.length + two.lasts.length]) {
        const [curve, lasts, ...ends] = [new BigUint64Array(keys), Buffer.alloc(last), new BigUint64Array(1), new BigUint64Array(1)];
        const status = this.call("join", blockSize, one.curve, one.lasts, two.curve, two.firsts, two.lasts, 5, 7, curve, lasts, ...ends.map((it) => [it]));
        const written = [curve, lasts].map((array, at) => array.subarray(0, Number(ends[at][0])));
        return { status, requests: one.requests + two.requests, bytes: one.bytes + two.bytes, curve: written[0], lasts: written[1] };
    }

    askOfParts(words, { requests, bytes, curve }, blockSize = 16 * MIB, textSize = 4 * MIB) {
        return this.told("report_of_parts", [linesOf(words)], [requests, bytes, curve], blockSize, textSize);
    }
}

const linesOf = (words) => Buffer.from(words.map((word) => `${word}\n`).join(""));

function native(words, input) {
    const run = spawnSync(program, words, { input, maxBuffer: 1 << 28 });
    // (the program does not read all where words are refused)
    if (run.error && run.error.code !== "EPIPE") throw run.error;
    // (the program also shows the beginning of a line without a size, and the class without room; its help also has files)
    return [run.status, run.status === 0 ? run.stdout.toString("latin1").replace(/\nFiles\n[^]*$/, "") : run.stderr.toString("latin1").replace(/: (it begins|the class is) ".*/, "")];
}

let failed = 0, passed = 0;
function same(name, got, wanted) {
    if (got[0] === wanted[0] && got[1] === wanted[1]) {
        passed++;
    } else {
        failed++;
        console.log(`page: ${name}: status ${got[0]} and not ${wanted[0]}, or another text:`);
        console.log(got[1].slice(0, 300), "\n--- and not\n", wanted[1].slice(0, 300));
    }
}

const MIB = 1 << 20;
const classed = Buffer.from(log(20000, 3000, false).toString().replace(/^\/p\/(\d*)(\d)$/gm, "c$2 /$1"));
const classedSizes = Buffer.from(log(5000, 700, true).toString().replace(/^(\d+) \/p\/(\d*)(\d)$/gm, "c$3 $1 /$2"));
const timedSizes = Buffer.from(log(5000, 700, true).toString().split("\n").map((line, at) => line && `${at}.5 ${line}`).join("\n"));
const plain = log(20000, 3000, false), sized = log(5000, 700, true), short = Buffer.from("a\nb\na\nc\nb\na\nd\na\nb\ne");
const cases = [
    ["a table", [], plain], ["a picture", ["--svg"], plain], ["the least", ["--least"], plain], ["all", ["--all"], plain],
    ["at", ["--at", "3,100", "--at=64"], plain], ["a summary", ["--summary"], plain], ["a short log", ["--least", "--svg"], short],
    ["sizes", ["--sizes"], sized], ["all sizes", ["--sizes", "--all", "--svg"], sized], ["sizes at", ["--sizes", "--at=2KiB"], sized],
    ["a floor", ["--floor", "--least", "--svg"], plain], ["requests after the first ones", ["--after", "100", "--svg"], plain], ["floors by size", ["--floor", "--sizes", "--svg"], sized],
    ["an empty log", [], Buffer.alloc(0)], ["bytes of any kind", [], Buffer.from([0, 255, 10, 195, 10, 0, 255, 10, 13])],
    ["the version", ["-V"], short], ["the help", ["--help"], short],
    ["no such word", ["--no"], short], ["no capacity", ["--at", "0"], short], ["words that do not go together", ["--all", "--at=1"], short],
    ["no size", ["--sizes"], Buffer.from("5 a\nb\n")], ["too large", ["--sizes"], Buffer.from("18446744073709551615 a\n1 b\n")],
    ["below the greatest size", ["--sizes", "--at=2"], Buffer.from("5 a\n")],
    ["times", ["--times", "--max-idle", "2.5"], sized], ["ages", ["--times", "--max-age", "900", "--at", "5,200"], sized],
    ["ages by size", ["--times", "--sizes", "--max-age", "9", "--max-idle", "5", "--at", "9000,90000"], timedSizes],
    ["ages at round numbers", ["--times", "--max-age", "900"], sized], ["an age at all capacities", ["--times", "--max-age", "9", "--all"], sized],
    ["no time", ["--times"], Buffer.from("5 a\nb\n")],
    ["no size behind a time", ["--times", "--sizes"], Buffer.from("1 5 a\n2 b\n")],
    ["a split", ["--split", "500"], classed], ["a split in JSON", ["--split", "500", "--json"], classed],
    ["a picture of a split", ["--split", "1200", "--svg"], classed], ["a split of nothing", ["--split", "9"], Buffer.alloc(0)],
    ["a split by size", ["--split", "900", "--sizes"], classedSizes], ["no room in a split", ["--split", "90", "--sizes"], classedSizes], ["no size behind a class", ["--split", "9", "--sizes"], classed],
    ["no class", ["--split", "9"], Buffer.from("a b\nc\n")],
    ["too many classes", ["--split", "9", "--svg"], Buffer.from(Array.from({ length: 257 }, (_, it) => `${it} a\n`).join(""))],
];
const instance = new Instance();
for (const [name, words, input] of cases) {
    same(name, instance.ask(words, input, 16 * MIB, 4 * MIB), native(words, input));
}
same("a block that is too small", instance.ask([], plain, 4096, MIB), [3, "clru_mrc: memory ran out\n"]);
same("a text that is too short", instance.ask([], plain, 16 * MIB, 20), [5, "clru_mrc: standard o"]);
same("a block of no bytes", instance.ask(["--svg"], plain, 0, MIB), [3, "clru_mrc: memory ran out\n"]);
same("no budget", instance.ask(["--split", "0"], classed, MIB, MIB), [2, "clru_mrc: a budget is at least 1\n"]);
const other = Buffer.concat([short, Buffer.from("\nf\n")]);
const [, one] = instance.ask([], short, MIB, MIB), [, two] = instance.ask([], other, MIB, MIB);
same("another log", [Number(one !== two), ""], [1, ""]);
// What the page's worker cuts: lines of 17 bytes, which fill the megabyte that it holds back but for 16.
const [Cutter, Passer] = runInNewContext(`${readFileSync(new URL("worker.js", import.meta.url), "utf8")}\n[Cutter, Passer]`);
const cutLines = [];
const cutter = new Cutter({ split: "blanks", keys: [3, 1], size: 2, time: 0, answers: [], method: 0, status: 0 }, (bytes) => cutLines.push(Buffer.from(bytes)));
const columns = Array.from({ length: 70000 }, (_, line) => [1000 + line % 9000, 2000 + line % 7000, 100000 + line]);
cutter.take(Buffer.from(columns.map((words) => words.join(" ") + "\n").join("")));
cutter.end();
same("cut lines", [0, Buffer.concat(cutLines).toString("latin1")], [0, columns.map(([a, b, c]) => `${b} ${c} ${a}\n`).join("")]);
// What it counts of lines that it passes on, in pieces of any length, beside a regular expression for each count.
const draw = drawn(11), odd = Buffer.from(Array.from({ length: 20000 }, () => [0, 10, 10, 13, 31, 32, 65, 127, 128, 160, 255][draw(11)]));
const passer = new Passer(() => {});
for (let at = 0; at < odd.length;) {
    const end = at + draw(9);
    passer.take(new Uint8Array(odd.buffer, odd.byteOffset + at, Math.min(end, odd.length) - at));
    at = end;
}
const counted = (form) => (odd.toString("latin1").match(form) ?? []).length;
const wanted = { lines: counted(/\n/g), empty: counted(/(?<=^|\n)\n/g), returns: counted(/\r\n/g), zeros: counted(/\0/g) };
same("odd lines", [0, JSON.stringify(passer.odd)], [0, JSON.stringify(wanted)]);
// Logs that are cut at newlines, now and then twice at the same one, and counted by parts, which are joined from left to right.
const cutAt = drawn(13), tellable = [[], ["--svg"], ["--all"], ["--at", "3,100"], ["--at", "0"]];
for (const [name, input] of [["plain", plain], ["short", short], ["empty", Buffer.alloc(0)], ["odd", odd], ["no end", plain.subarray(0, -1)]]) {
    const wanted = tellable.map((words) => native(words, input));
    for (let count = 1; count <= 5; count++) {
        const cuts = new Array(count - 1).fill().map(() => input.lastIndexOf("\n", cutAt(input.length + 1)) + 1).sort((a, b) => a - b);
        const parts = [...cuts, input.length].map((to, at) => instance.part(input.subarray(cuts[at - 1] ?? 0, to)));
        const all = parts.reduce((one, two) => instance.join(one, two));
        tellable.forEach((words, at) => same(`${name} by ${count} parts: ${words}`, instance.askOfParts(words, all), wanted[at]));
    }
}
// What a curve does not tell, and blocks and arrays that are too small.
const part = instance.part(plain), twice = instance.join(part, part);
for (const words of ["--least", "--floor", "--after 5", "--sizes", "--times", "--sample 2"]) {
    same(`by parts: ${words}`, instance.askOfParts(words.split(" "), part), [7, ""]);
}
same("a block of no bytes for a report of parts", instance.askOfParts([], part, 0), [3, "clru_mrc: memory ran out\n"]);
same("a text too short for a report of parts", instance.askOfParts([], part, 16 * MIB, 20), [5, "clru_mrc: standard o"]);
const fitting = (arrays) => arrays.map(({ length }) => length);
const shortened = (rooms) => [rooms, ...rooms.map((room, at) => rooms.with(at, room - 1))];
const statuses = [
    instance.part(plain, 4096), ...shortened(fitting([part.curve, part.firsts, part.lasts])).map((rooms) => instance.part(plain, 16 * MIB, rooms)),
    instance.join(part, part, 4096), ...shortened(fitting([twice.curve, twice.lasts])).map((rooms) => instance.join(part, part, 16 * MIB, rooms)),
].map(({ status }) => status);
same("small blocks and arrays for parts", [0, statuses.join()], [0, "3,0,5,5,5,3,0,5,5"]);
console.log(`${passed} passed, ${failed} failed`);
process.exit(failed ? 1 : 0);
