"use strict";
// Reads a log, cuts its lines, and runs the program over what it cut, beside the page, which so stays alive.
//
// Messages to it: {module, script}, first of all; {look: file}, {sample: cut} and {run: {turn, file, cut, words}}, where a file is a log as
// page.js has it, {files, name, size, lastModified}. It answers with
// {looked}, {sampled}, {progress}, {cut}, {nothing}, {estimate}, {report}, {marks} and {fault}, each of which the page knows by its name;
// those of a run have its turn beside them. A large log is counted by parts, each in a worker that this one starts of the script, which is
// this one: it gets {part: {module, blob, cut, parts}}, and answers with {read}, {counted} and {fault}.
// A cut is {split, keys, size, time, classed, heading, comments, method, status, answers, queries, fields}: columns are counted from 1, 0
// stands for none; of JSON they are those of the fields. Where the first key is the class of a split, it is `classed`, and `words`, which
// are the program's, begin with --split.

const CHUNK = 8 << 20;
const HEAD = 256 << 10;
const NEWLINE = 10, RETURN = 13, TAB = 9, BLANK = 32, QUOTE = 34, COMMA = 44, DASH = 45, SLASH = 47, QUESTION = 63, SHARP = 35;

// --- Reading -----------------------------------------------------------------------------------------------------------------

async function isPacked(file) {
    const [first, second] = new Uint8Array(await file.slice(0, 2).arrayBuffer());
    return first === 0x1f && second === 0x8b;
}

// What DecompressionStream says of a file that it can't unpack.
class Packed extends Error {}

// The bytes of a file or of a part of one, piece by piece, as they are. `tell` is told how many are read.
async function* plainPiecesOf(blob, tell) {
    // (the next piece is read while this one is cut)
    let next = blob.slice(0, CHUNK).arrayBuffer();
    for (let at = 0; at < blob.size; at += CHUNK) {
        const piece = new Uint8Array(await next);
        next = blob.slice(at + CHUNK, at + 2 * CHUNK).arrayBuffer();
        next.catch(() => {});
        yield piece;
        tell(Math.min(at + CHUNK, blob.size));
    }
}

// The same of a file that may be packed by gzip, and is unpacked then. `tell` is told how many bytes of the file are read.
async function* unpackedPiecesOf(file, tell) {
    if (!await isPacked(file)) {
        yield* plainPiecesOf(file, tell);
        return;
    }
    let read = 0;
    const counted = new TransformStream({
        transform(piece, stream) {
            read += piece.length;
            tell(read);
            stream.enqueue(piece);
        },
    });
    const reader = file.stream().pipeThrough(counted).pipeThrough(new DecompressionStream("gzip")).getReader();
    try {
        for (;;) {
            const { done, value } = await reader.read().catch((error) => { throw new Packed(error.message); });
            if (done) return;
            yield value;
        }
    } finally {
        reader.cancel().catch(() => {});
    }
}

// The same of all files of a log, one after the other. A newline parts them where a file does not end with one.
async function* piecesOf({ files }, tell) {
    let [before, last] = [0, NEWLINE];
    for (const file of files) {
        if (last !== NEWLINE) yield Uint8Array.of(last = NEWLINE);
        const begins = before;
        for await (const piece of unpackedPiecesOf(file, (read) => tell(begins + read))) {
            if (piece.length) last = piece[piece.length - 1];
            yield piece;
        }
        before += file.size;
    }
}

// The first lines of a log, as bytes that end with a line's end or with the log.
async function headOf(file) {
    let head = new Uint8Array(0);
    for await (const piece of piecesOf(file, () => {})) {
        head = joined(head, piece);
        if (head.length >= HEAD) break;
    }
    const end = head.length >= HEAD ? head.lastIndexOf(NEWLINE, HEAD - 1) + 1 || HEAD : head.length;
    return head.slice(0, end);
}

// Where a line begins, at this place of a file or as soon behind it as one does.
async function lineFrom(file, place) {
    if (place === 0) return 0;
    for (let at = place - 1; at < file.size; at += HEAD) {
        const newline = new Uint8Array(await file.slice(at, at + HEAD).arrayBuffer()).indexOf(NEWLINE);
        if (newline >= 0) return at + newline + 1;
    }
    return file.size;
}

function joined(first, second) {
    const both = new Uint8Array(first.length + second.length);
    both.set(first);
    both.set(second, first.length);
    return both;
}

// --- Columns -----------------------------------------------------------------------------------------------------------------

// Each notes where the columns of a line begin and end, in `begins` and `ends`, `most` of them at most, and answers how many it noted.
const SPLITTERS = {
    // Runs of blanks and tabs part columns, as they do in awk.
    blanks(bytes, from, to, begins, ends, most) {
        let count = 0;
        let at = from;
        while (count < most) {
            while (at < to && (bytes[at] === BLANK || bytes[at] === TAB)) at++;
            if (at >= to) break;
            begins[count] = at;
            while (at < to && bytes[at] !== BLANK && bytes[at] !== TAB) at++;
            ends[count++] = at;
        }
        return count;
    },
    tabs(bytes, from, to, begins, ends, most) {
        return parted(bytes, from, to, begins, ends, most, TAB, false);
    },
    // A column may stand in quotes, and then have commas. The quotes stay a part of it.
    commas(bytes, from, to, begins, ends, most) {
        return parted(bytes, from, to, begins, ends, most, COMMA, true);
    },
};

function parted(bytes, from, to, begins, ends, most, mark, quoted) {
    let count = 0;
    let at = from;
    while (count < most && from < to) {
        begins[count] = at;
        if (quoted && at < to && bytes[at] === QUOTE) {
            at++;
            while (at < to && !(bytes[at] === QUOTE && bytes[at + 1] !== QUOTE)) at += bytes[at] === QUOTE ? 2 : 1;
        }
        while (at < to && bytes[at] !== mark) at++;
        ends[count++] = Math.min(at, to);
        if (at >= to) break;
        at++;
    }
    return count;
}

function endsWith(bytes, from, to, word) {
    if (to - from < word.length) return false;
    for (let i = 0; i < word.length; i++) {
        if (bytes[to - word.length + i] !== word.charCodeAt(i)) return false;
    }
    return true;
}

// What a request has, in its order: time and size stand before the key, but the size behind the class of a split.
function orderOf({ keys, size, time, classed }) {
    const named = keys.map((column) => ({ column, kind: "key" }));
    const sized = [...named.splice(0, classed ? 1 : 0), { column: size, kind: "size" }, ...named];
    return [{ column: time, kind: "time" }, ...sized].filter(({ column }) => column > 0);
}

// Cuts keys, and times and sizes where there are some, out of lines, and hands on bytes in which each line is a request.
class Cutter {
    constructor(cut, emit) {
        this.cut = cut;
        this.emit = emit;
        this.split = SPLITTERS[cut.split];
        this.order = orderOf(cut);
        this.most = Math.max(...this.order.map(({ column }) => column), ...(cut.answers.length ? [cut.method, cut.status] : []));
        this.begins = new Uint32Array(this.most);
        this.ends = new Uint32Array(this.most);
        this.rest = new Uint8Array(0);
        this.out = new Uint8Array(1 << 20);
        this.used = 0;
        this.lines = 0;
        this.left = { short: 0, sizeless: 0, answered: 0 };
    }

    // The lines that end in these bytes. What is left of them waits for the next ones.
    take(piece) {
        const bytes = this.rest.length ? joined(this.rest, piece) : piece;
        let from = 0;
        for (;;) {
            const to = bytes.indexOf(NEWLINE, from);
            if (to < 0) break;
            this.line(bytes, from, to);
            from = to + 1;
        }
        this.rest = bytes.slice(from);
    }

    end() {
        if (this.rest.length) this.line(this.rest, 0, this.rest.length);
        this.rest = new Uint8Array(0);
        this.flush();
    }

    flush() {
        if (this.used) this.emit(this.out.subarray(0, this.used));
        this.used = 0;
    }

    line(bytes, from, to) {
        const { cut, begins, ends, order } = this;
        this.lines++;
        if (cut.heading && this.lines === 1) return;
        if (cut.comments && bytes[from] === SHARP) return;
        if (to > from && bytes[to - 1] === RETURN) to--;
        if (this.split(bytes, from, to, begins, ends, this.most) < this.most) {
            this.left.short++;
            return;
        }
        if (cut.answers.length && !this.isAnswered(bytes)) {
            this.left.answered++;
            return;
        }
        this.room((to - from + 1) * order.length + 1);
        const before = this.used;
        for (let i = 0; i < order.length; i++) {
            const { column, kind } = order[i];
            const [begin, end] = [begins[column - 1], ends[column - 1]];
            // (a blank between columns, or different ones could make one key)
            if (i > 0) this.out[this.used++] = BLANK;
            if (kind === "key") this.writeKey(bytes, begin, end);
            else if (!this.writeNumber(bytes, begin, end) && kind === "size") {
                this.used = before;
                this.left.sizeless++;
                return;
            }
        }
        this.out[this.used++] = NEWLINE;
    }

    // A GET whose status is one of those that are wanted: `"GET` and `200`, or `GET` and `TCP_HIT/200`.
    isAnswered(bytes) {
        const { method, status, answers } = this.cut;
        let from = this.begins[method - 1];
        const to = this.ends[method - 1];
        if (bytes[from] === QUOTE) from++;
        if (to - from !== 3 || !endsWith(bytes, from, to, "GET")) return false;
        const [begin, end] = [this.begins[status - 1], this.ends[status - 1]];
        if (end - begin !== 3 && bytes[end - 4] !== SLASH) return false;
        return answers.some((answer) => endsWith(bytes, begin, end, answer));
    }

    room(wanted) {
        if (this.out.length - this.used >= wanted) return;
        this.flush();
        if (this.out.length < wanted) this.out = new Uint8Array(wanted);
    }

    writeKey(bytes, from, to) {
        const { out } = this;
        const { queries } = this.cut;
        let used = this.used;
        for (let at = from; at < to; at++) {
            const byte = bytes[at];
            if (queries && byte === QUESTION) break;
            out[used++] = byte;
        }
        this.used = used;
    }

    // Writes a column without its quotes, and answers whether it has a number: a log has `-` where it knows none. What else is no number
    // is for the program to refuse.
    writeNumber(bytes, from, to) {
        if (bytes[from] === QUOTE && bytes[to - 1] === QUOTE && to - from > 1) {
            from++;
            to--;
        }
        for (let at = from; at < to; at++) this.out[this.used++] = bytes[at];
        return to - from !== 1 || bytes[from] !== DASH;
    }
}

// Fields of an object, and of those in it by both names with a point between; what is no object has none.
function fieldsOf(text) {
    const found = new Map();
    const note = (object, before) => {
        for (const [name, value] of Object.entries(object)) {
            if (name.includes(".")) continue;
            if (value !== null && typeof value === "object") Array.isArray(value) || note(value, `${before}${name}.`);
            else if (value !== null) found.set(before + name, String(value).replaceAll("\n", " "));
        }
    };
    try {
        const object = JSON.parse(text);
        if (object !== null && typeof object === "object" && !Array.isArray(object)) note(object, "");
    } catch {
        // (a line that is cut short)
    }
    return found;
}

// The same of lines of JSON.
class JsonCutter extends Cutter {
    line(bytes, from, to) {
        const { cut } = this;
        this.lines++;
        const fields = fieldsOf(new TextDecoder().decode(bytes.subarray(from, to)));
        const words = orderOf(cut).map(({ column, kind }) => ({ kind, word: fields.get(cut.fields[column - 1]) }));
        if (words.some(({ kind, word }) => kind !== "size" && word === undefined)) {
            this.left.short++;
            return;
        }
        if (words.some(({ kind, word }) => kind === "size" && (word === undefined || word === "-"))) {
            this.left.sizeless++;
            return;
        }
        const shown = words.map(({ kind, word }) => (cut.queries && kind === "key" ? word.replace(/\?.*/, "") : word));
        const line = new TextEncoder().encode(`${shown.join(" ")}\n`);
        this.room(line.length);
        this.out.set(line, this.used);
        this.used += line.length;
    }
}

// Hands lines on as they are, and counts what may be wrong with them. Four bytes are looked at together, because few are below a blank.
class Passer {
    constructor(emit) {
        this.emit = emit;
        this.odd = { lines: 0, empty: 0, returns: 0, zeros: 0 };
        this.last = NEWLINE;
    }

    take(piece) {
        const bytes = piece.byteOffset % 4 ? piece.slice() : piece;
        const fours = new Uint32Array(bytes.buffer, bytes.byteOffset, bytes.length >> 2);
        for (let at = 0; at < fours.length; at++) {
            const four = fours[at];
            // (a byte below a blank borrows, and so sets the highest bit)
            if (((four - 0x20202020) & ~four & 0x80808080) === 0) continue;
            for (let byte = 4 * at; byte < 4 * at + 4; byte++) if (bytes[byte] < BLANK) this.note(bytes, byte);
        }
        for (let at = 4 * fours.length; at < bytes.length; at++) this.note(bytes, at);
        if (bytes.length) this.last = bytes[bytes.length - 1];
        this.emit(piece);
    }

    note(bytes, at) {
        const { odd } = this;
        const before = at > 0 ? bytes[at - 1] : this.last;
        if (bytes[at] === 0) odd.zeros++;
        if (bytes[at] !== NEWLINE) return;
        odd.lines++;
        if (before === NEWLINE) odd.empty++;
        if (before === RETURN) odd.returns++;
    }

    end() {}
}

// --- The program -------------------------------------------------------------------------------------------------------------

class NoMemory extends Error {}

// The form of a split that is a picture.
const PICTURE = 2n;

const PAGE = 65536;
const STRIDE = 16 << 20;
const aligned = (at) => Math.ceil(at / 16) * 16;

// The module with a log in its memory, or the curve of a log that was counted by parts: first that, behind it words and text, and then
// the block that the program gets.
class Program {
    constructor(instance) {
        this.exports = instance.exports;
        this.memory = instance.exports.memory;
        this.words = aligned(Number(instance.exports.__heap_base.value));
        this.log = this.words + 48;
        this.end = this.log;
        this.text = 1 << 20;
        this.block = 0;
        // Of a log that was counted by parts: how many, the memory that they had, and what is told of it, its requests and bytes.
        this.counted = null;
    }

    // Memory up to an address. It is asked for in long strides, since each growth may move it.
    reach(address) {
        const missing = address - this.memory.buffer.byteLength;
        if (missing <= 0) return true;
        for (const more of [Math.max(missing, STRIDE, (address - this.log) / 4), missing]) {
            try {
                this.memory.grow(BigInt(Math.ceil(more / PAGE)));
                return true;
            } catch {
                // (then only what is needed)
            }
        }
        return false;
    }

    append(bytes) {
        if (!this.reach(this.end + bytes.length)) throw new NoMemory();
        new Uint8Array(this.memory.buffer, this.end, bytes.length).set(bytes);
        this.end += bytes.length;
    }

    // Appends an array, and answers where it stands and its length.
    put(array) {
        this.end = aligned(this.end);
        const at = this.end;
        this.append(new Uint8Array(array.buffer));
        return [at, array.length];
    }

    lend(blockAt) {
        new BigUint64Array(this.memory.buffer, this.words, 3).set([blockAt, this.block, 0].map(BigInt));
    }

    // What `part` or `join` counts of arrays in the memory: a curve and texts, each of them with room for so many elements, and behind them
    // the requests of a part.
    count(name, arrays, rooms) {
        const sizes = rooms.map((room, at) => aligned(at ? room : 8 * room));
        const places = sizes.map((_, at) => sizes.slice(0, at).reduce((sum, size) => sum + size, aligned(this.end)));
        const blockAt = places.at(-1) + sizes.at(-1);
        const back = places.flatMap((place, at) => [place, rooms[at]]);
        // (`part` writes its requests before the lengths)
        for (let at = name === "part" ? 0 : 1; at <= rooms.length; at++) back.push(this.words + 16 + 8 * at);
        this.block = Math.max(this.block, 4 * STRIDE + 2 * (this.end - this.log));
        for (;; this.block *= 2) {
            if (!this.reach(blockAt + this.block)) throw new NoMemory();
            this.lend(blockAt);
            const [given, behind] = [[this.words, ...arrays], back].map((numbers) => numbers.map(BigInt));
            const status = this.exports[name](...given, ...crypto.getRandomValues(new BigUint64Array(2)), ...behind);
            if (status === 0) break;
            if (status !== 3) throw new Error(`${name}: status ${status}`);
        }
        const [requests, ...lengths] = Array.from(new BigUint64Array(this.memory.buffer, this.words + 16, 1 + rooms.length), Number);
        const written = places.map((place, at) => new (at ? Uint8Array : BigUint64Array)(this.memory.buffer, place, lengths[at]).slice());
        return [...written, requests];
    }

    // The curve and the latest lines of the beginning of a log and of the part behind it together.
    join(one, two) {
        this.end = this.log;
        const arrays = [one.curve, one.lasts, two.curve, two.firsts, two.lasts].flatMap((array) => this.put(array));
        const [curve, lasts] = this.count("join", arrays, [one.curve.length + two.curve.length, one.lasts.length + two.lasts.length]);
        return { curve, lasts };
    }

    // What the program writes for these words, and its status. A block or a text that was too small is doubled while there is memory.
    ask(words) {
        const given = new TextEncoder().encode(words.map((word) => word + "\n").join(""));
        // (memory that is not written to costs nothing, and a block that is too small a whole pass)
        this.block = Math.max(this.block, 4 * STRIDE + 2 * (this.end - this.log));
        for (;;) {
            const asked = this.call(given, words[0] === "--split" ? words[1] : "", words.includes("--sizes") ? 1n : 0n);
            if (asked.status === 3 && this.fits(given.length, this.text, this.block * 2)) this.block *= 2;
            else if (asked.status === 5 && this.fits(given.length, this.text * 2, this.block)) this.text *= 2;
            else return asked;
        }
    }

    fits(given, text, block) {
        return this.reach(aligned(this.end) + aligned(given) + aligned(text) + block + 32);
    }

    // The text of a split of the budget, where there is one, or else what the words ask for.
    call(given, budget, sizes) {
        const argumentsAt = aligned(this.end) + 16;
        const textAt = aligned(argumentsAt + given.length);
        const blockAt = aligned(textAt + this.text);
        while (!this.fits(given.length, this.text, this.block)) {
            if (this.block < PAGE) throw new NoMemory();
            this.block = Math.floor(this.block / 32) * 16;
        }
        this.lend(blockAt);
        new Uint8Array(this.memory.buffer, argumentsAt, given.length).set(given);
        const seed = crypto.getRandomValues(new BigUint64Array(2));
        const [loan, log] = [[this.words], [this.log, this.end - this.log]].map((numbers) => numbers.map(BigInt));
        const back = [textAt, this.text, this.words + 16].map(BigInt);
        const status = this.counted
            ? this.exports.report_of_parts(...loan, BigInt(argumentsAt), BigInt(given.length), ...this.counted.told, log[0], log[1] / 8n, ...back)
            : budget
            ? this.exports.split(...loan, BigInt(budget), sizes, PICTURE, ...log, ...seed, ...back)
            : this.exports.report(...loan, BigInt(argumentsAt), BigInt(given.length), ...log, ...seed, ...back);
        const written = Number(new BigUint64Array(this.memory.buffer, this.words + 16, 1)[0]);
        return { status, text: new TextDecoder().decode(new Uint8Array(this.memory.buffer, textAt, written)) };
    }
}

// --- The mark ----------------------------------------------------------------------------------------------------------------

const MARKS = 700;

// Capacities for the mark: all where they are few, and else some that lie evenly on the picture's axis.
function markedBetween(first, last) {
    const marked = new Set([first, last]);
    for (let i = 1; i < MARKS; i++) marked.add(Math.round(first * Math.pow(last / first, i / MARKS)));
    if (last - first < MARKS) for (let capacity = first; capacity < last; capacity++) marked.add(capacity);
    return [...marked].filter((capacity) => capacity >= first && capacity <= last).sort((a, b) => a - b);
}

const rowsOf = (table) => table.trimEnd().split("\n").slice(1).map((row) => row.split(",").map(Number));

const tableOf = (picture) => picture.slice(picture.indexOf("<desc>\n") + 7, picture.indexOf("</desc>\n"));

// What the misses are parts of, and the ends of the picture's axis without what was named. By keys the picture tells, and by bytes
// the summary, which is a pass more.
function wholeOf(program, picture, sizes) {
    if (!sizes.length) {
        const words = />([\d,]+) requests?(?: after the first [\d,]+)?, ([\d,]+) distinct keys?/.exec(picture);
        const [, requests, distinct] = words.map((word) => Number(word.replaceAll(",", "")));
        return { requests, first: 1, last: distinct };
    }
    const [requests, , , bytes, last, greatest] = rowsOf(program.ask(["--summary", ...sizes]).text)[0];
    return { requests, bytes, first: Math.max(1, greatest), last };
}

// The numbers that the mark says, which are a table of the program's own. Null where there is nothing to mark.
function marksFor(program, picture, words) {
    const rows = rowsOf(tableOf(picture));
    if (!rows.length) return null;
    const sizes = words.filter((word) => word === "--sizes");
    const pair = (name) => (words.includes(name) ? words.slice(words.indexOf(name)).slice(0, 2) : []);
    const after = pair("--after");
    const times = [...words.filter((word) => word === "--times"), ...pair("--max-idle")];
    // (a summary is of all requests, so it does not tell the bytes after the first ones)
    if (sizes.length && after.length) return null;
    const whole = wholeOf(program, picture, sizes);
    whole.last = Math.max(whole.last, rows.at(-1)[0]);
    if (whole.last > Number.MAX_SAFE_INTEGER || whole.bytes > Number.MAX_SAFE_INTEGER) return null;
    const marks = program.ask(["--at", markedBetween(whole.first, whole.last).join(","), ...sizes, ...after, ...times]);
    if (marks.status !== 0) return null;
    // (the mark stops at each row of the table as well, or it would skip the knees)
    const all = new Map([...rowsOf(marks.text), ...rows].map((row) => [row[0], row]));
    return { ...whole, rows: [...all.values()].sort(([one], [two]) => one - two) };
}

// --- Messages ----------------------------------------------------------------------------------------------------------------

let module = null;
// (a page that is a file has no origin, and its own address of the script is none that a worker may start)
let script = "";
let head = null;
let program = null;
let held = "";
let counts = null;

const MOST_COLUMNS = 200;

// (the arrays are of the kind that a Cutter has, or the splitters would be slow ever after)
function columnsOf(line, split) {
    const [begins, ends] = [new Uint32Array(MOST_COLUMNS), new Uint32Array(MOST_COLUMNS)];
    const count = SPLITTERS[split](line, 0, line.length, begins, ends, MOST_COLUMNS);
    return Array.from(begins.subarray(0, count), (begin, i) => worded(line.slice(begin, ends[i])));
}

const worded = (bytes) => new TextDecoder().decode(bytes.length > 2000 ? bytes.slice(0, 2000) : bytes);

// The first ten lines, each as a text and by columns.
async function look(file) {
    head = await headOf(file);
    const lines = [];
    let from = 0;
    while (from < head.length && lines.length < 10) {
        const next = head.indexOf(NEWLINE, from);
        let to = next < 0 ? head.length : next;
        const returns = to > from && head[to - 1] === RETURN;
        if (returns) to--;
        const line = head.subarray(from, to);
        const columns = Object.fromEntries(Object.keys(SPLITTERS).map((split) => [split, columnsOf(line, split)]));
        lines.push({ text: worded(line), returns, columns, fields: fieldsOf(worded(line)) });
        from = (next < 0 ? head.length : next) + 1;
    }
    const fields = [...new Set(lines.flatMap((line) => [...line.fields.keys()]))];
    for (const line of lines) line.columns.json = line.fields.size ? fields.map((name) => line.fields.get(name) ?? "") : [];
    return { lines, fields, packed: (await Promise.all(file.files.map(isPacked))).includes(true) };
}

// What is read of the first lines, cut as it is to be.
function sampleOf(cut) {
    let text = "";
    const reader = readerOf(cut, (bytes) => {
        if (text.length < 20000) text += worded(bytes);
    });
    reader.take(head.length > 20000 ? head.subarray(0, 20000) : head);
    reader.end();
    return text.split("\n").slice(0, 5);
}

function readerOf(cut, emit) {
    if (!cut.split) return new Passer(emit);
    return cut.split === "json" ? new JsonCutter(cut, emit) : new Cutter(cut, emit);
}

// Takes lines into the memory of a fresh module, and counts what there is to tell of them.
async function readInto(fresh, pieces, cut) {
    const reader = readerOf(cut, (bytes) => fresh.append(bytes));
    for await (const piece of pieces) reader.take(piece);
    reader.end();
    return { lines: reader.lines ?? reader.odd.lines, left: reader.left, odd: reader.odd, bytes: fresh.end - fresh.log };
}

// Takes the log into the memory of a fresh module, or its curve, unless it is the one that is there already.
async function readLog({ file, cut, words }, say) {
    const wanted = JSON.stringify([file.name, file.size, file.lastModified, cut]);
    if (program?.counted && !isOfCurve(words)) program = null;
    if (program && held === wanted) return;
    program = null;
    let told = 0;
    const tell = (read) => {
        if (read < file.size && Date.now() - told < 100) return;
        told = Date.now();
        say({ progress: read < file.size ? { read, size: file.size } : null });
    };
    let found = isOfCurve(words) ? await countByParts(file, cut, tell).catch(() => null) : null;
    if (!found) {
        const fresh = new Program(await WebAssembly.instantiate(module, {}));
        found = [fresh, await readInto(fresh, piecesOf(file, tell), cut)];
    }
    [program, counts] = found;
    held = wanted;
}

// --- Parts -------------------------------------------------------------------------------------------------------------------

// The least bytes of a part, and the most parts: each takes a worker to start and a join.
const PART = 8 << 20;
const MOST_PARTS = 8;

// Whether the curve of a log tells what these words ask for.
const isOfCurve = (words) => words.every((word, at) => ["--at", "--all", "--progress"].includes(word) || words[at - 1] === "--at");

// A part of a log, which is read and counted here. Its arrays have room for what is worth its joins: if in each of n parts more than one
// line of n is the first for its key, one pass over the log may take no longer, and `part` refuses.
async function countPart({ module: compiled, blob, cut, parts }) {
    const fresh = new Program(await WebAssembly.instantiate(compiled, {}));
    const found = await readInto(fresh, plainPiecesOf(blob, (read) => postMessage({ read })), cut);
    const [keys, bytes] = [found.lines, found.bytes].map((most) => Math.ceil(most / parts) + 1);
    const [curve, firsts, lasts, requests] = fresh.count("part", [fresh.log, found.bytes], [keys, bytes, bytes]);
    const counted = { curve, firsts, lasts, requests, counts: found, memory: fresh.memory.buffer.byteLength };
    postMessage({ counted }, [curve.buffer, firsts.buffer, lasts.buffer]);
}

function countIn(worker, part, tell) {
    return new Promise((found, failed) => {
        worker.onmessage = ({ data: { read, counted, fault } }) => (fault ? failed(fault) : counted ? found(counted) : tell(read));
        worker.onerror = failed;
        worker.postMessage({ part });
    });
}

// Numbers, or those that two objects have by the same names, added up.
function sumOf(one, two) {
    if (typeof one === "number") return one + two;
    return one && Object.fromEntries(Object.keys(one).map((name) => [name, sumOf(one[name], two[name])]));
}

// The curve of a large log in a fresh module, and what there is to tell of its lines; null of a log that is not for parts.
async function countByParts({ files: [file, ...more] }, cut, tell) {
    if (more.length) return null;
    const parts = Math.min(MOST_PARTS, navigator.hardwareConcurrency, Math.floor(file.size / PART));
    if (parts < 2 || await isPacked(file)) return null;
    const [workers, read] = [[], new Array(parts).fill(0)];
    let counted;
    try {
        for (let at = 0; at < parts; at++) workers.push(new Worker(script));
        const bounds = await Promise.all(Array.from({ length: parts + 1 }, (_, at) => lineFrom(file, Math.floor(at * file.size / parts))));
        counted = await Promise.all(workers.map((worker, at) => {
            const part = { module, blob: file.slice(bounds[at], bounds[at + 1]), cut: { ...cut, heading: cut.heading && at === 0 }, parts };
            return countIn(worker, part, (bytes) => {
                read[at] = bytes;
                tell(read.reduce(sumOf));
            });
        }));
    } finally {
        for (const worker of workers) worker.terminate();
    }
    const fresh = new Program(await WebAssembly.instantiate(module, {}));
    const { curve } = counted.reduce((one, two) => fresh.join(one, two));
    fresh.end = fresh.log;
    fresh.put(curve);
    const [found, requests, memory] = ["counts", "requests", "memory"].map((name) => counted.map((part) => part[name]).reduce(sumOf));
    fresh.counted = { parts, memory, told: [requests, found.bytes].map(BigInt) };
    return [fresh, found];
}

// How long the least takes at each capacity: the time of the others, and for each of these that of one with it, less that of one without.
function estimateFor(program, words) {
    const timed = (asked) => {
        const begun = performance.now();
        const { text } = program.ask(asked);
        return { rows: rowsOf(text), seconds: (performance.now() - begun) / 1000 };
    };
    const { rows, seconds } = timed(words.filter((word) => word !== "--least"));
    const [middle] = rows[rows.length >> 1] ?? [1];
    const row = timed(["--at", String(middle), "--least"]).seconds - timed(["--at", String(middle)]).seconds;
    return { rows: rows.length, seconds: seconds + rows.length * Math.max(0, row) };
}

async function run({ file, cut, words }, say) {
    const begun = performance.now();
    await readLog({ file, cut, words }, say);
    const read = performance.now();
    say({ cut: counts, progress: null });
    if (!counts.bytes) {
        say({ nothing: true });
        return;
    }
    if (words.includes("--all") && words.includes("--least")) say({ estimate: estimateFor(program, words) });
    // (under an age limit there are tables alone)
    const drawn = !words.includes("--max-age");
    const report = program.ask([...words, ...(drawn ? ["--svg"] : [])]);
    const seconds = [read - begun, performance.now() - read].map((time) => (time / 1000).toFixed(1));
    const memory = program.memory.buffer.byteLength + (program.counted?.memory ?? 0);
    say({ report: { ...report, drawn, seconds, memory, parts: program.counted?.parts } });
    if (report.status !== 0) return;
    // (a split has no capacities to mark, and neither has a table alone)
    say({ marks: words[0] === "--split" || !drawn ? null : marksFor(program, report.text, words) });
}

async function answer(data, say) {
    if (data.module) [module, script] = [await WebAssembly.compile(data.module), URL.createObjectURL(data.script)];
    else if (data.look) say({ looked: await look(data.look) });
    else if (data.sample) say({ sampled: sampleOf(data.sample) });
    else if (data.run) await run(data.run, say);
    else if (data.part) await countPart(data.part);
}

// One message after the other.
let before = Promise.resolve();
onmessage = ({ data }) => {
    const say = (answers) => postMessage(data.run ? { turn: data.run.turn, ...answers } : answers);
    before = before.then(() => answer(data, say)).catch((error) => {
        program = null;
        const kind = error instanceof Packed ? "packed" : error instanceof NoMemory || error instanceof RangeError ? "memory" : "";
        say({ fault: { kind, words: String(error.message || error) } });
    });
};
