"use strict";
// The data of the page. The events stand in blocks, which are unpacked as they are seen; what all events are looked through for
// stands in arrays, a number an event.
const data = JSON.parse(document.getElementById("data").textContent);
const about = data.about, last = about.first + about.count - 1;
const MOST_BLOCKS = 48;
const [COMMAND, FUNCTION, OTHER, COMPLETION] = [0, 1, 2, 3];
const [IGNORED, TAKES_OUT, MADE_UP, DIFFERS, TIMED, MOVED, REFUSES] = [4, 8, 16, 32, 64, 128, 256];
const NONE = 0xffff;
const blocks = new Map(), pending = new Map();
let index = null;

async function unpacked(text) {
    const signs = atob(text), bytes = new Uint8Array(signs.length);
    for (let place = 0; place < signs.length; place++) bytes[place] = signs.charCodeAt(place);
    const stream = new Blob([bytes]).stream().pipeThrough(new DecompressionStream("deflate"));
    return new Response(stream).arrayBuffer();
}

// Numbers that stand as what is between them.
function summed(steps, sums, unit = 1) {
    let sum = 0;
    for (let place = 0; place < steps.length; place++) {
        sum += steps[place];
        sums[place] = sum * unit;
    }
    return sums;
}

async function readIndex() {
    const read = {};
    const sizes = { flags: Uint16Array, cid: Uint16Array, unit: Uint16Array, name: Uint16Array, live: Uint16Array,
        answered: Uint32Array, tag: Uint32Array, number: Uint32Array, frame: Uint32Array, time: Int32Array };
    for (const [name, Kind] of Object.entries(sizes)) read[name] = new Kind(await unpacked(data.index[name]));
    for (const name of ["tag", "number", "frame"]) read[name] = wrapped(read[name]);
    const micros = Float64Array.from(read.time);
    for (const [place, step] of about.jumps) micros[place] = step;
    read.time = summed(micros, micros, 1e-6);
    return read;
}

// Sums modulo 2^32.
function wrapped(steps) {
    let sum = 0;
    for (let place = 0; place < steps.length; place++) steps[place] = sum = (sum + steps[place]) >>> 0;
    return steps;
}

const decoder = new TextDecoder();
const blockOf = event => Math.floor((event - about.first) / about.block);

async function parsed(text) {
    return text ? JSON.parse(decoder.decode(await unpacked(text))) : null;
}

const hex = number => number.toString(16);
const timeWords = seconds => seconds >= 1 ? `${seconds.toFixed(6)} s` : `${(seconds * 1000).toFixed(3)} ms`;

// The columns of a block, by its fields and by the index.
function columnsOf(number, fields) {
    return fields.name.map((name, at) => {
        const place = number * about.block + at, flags = index.flags[place];
        return {
            cid: index.cid[place] === NONE ? null : about.cidOf[index.cid[place]], kind: ["command", "function", "other", "other"][flags & 3],
            ignored: (flags & IGNORED) !== 0, moved: (flags & MOVED) !== 0, madeUp: (flags & MADE_UP) !== 0,
            time: flags & TIMED ? timeWords(index.time[place]) : null, frame: index.frame[place] || null,
            name, number: fields.number[at], note: fields.note[at], answers: fields.answers[at], theirs: fields.theirs[at],
            expected: fields.expected[at], greatest: fields.greatest[at], pause: fields.pause[at], differences: fields.differences[at],
        };
    });
}

function barsOf(number, [numbers, kinds, starts, lengths]) {
    const base = about.first + number * about.block;
    return numbers.map((value, at) => ({ number: value, kind: about.kinds[kinds[at]], start: base + starts[at],
        end: base + starts[at] + lengths[at] }));
}

function tasksOf(number, [units, lanes, tickets, attributes, tags, starts, enabled, ends, outcomes, completed]) {
    const base = about.first + number * about.block;
    return units.map((unit, at) => {
        const start = base + starts[at], tag = tags[at] === 0xffffffff ? "no tag" : `tag ${hex(tags[at])}`;
        return { unit, lane: lanes[at], ticket: tickets[at], label: `#${tickets[at]} ${about.attributes[attributes[at]]}, ${tag}`, start,
            enabled: enabled[at] < 0 ? null : start + enabled[at], end: ends[at] < 0 ? null : start + ends[at],
            outcome: about.outcomes[outcomes[at]], completed: completed[at] };
    });
}

async function load(number) {
    await ready;
    const [fields, [bars, tasks], words, lines] =
        await Promise.all(["columns", "marks", "words", "lines"].map(part => parsed(data[part][number])));
    blocks.set(number, { columns: columnsOf(number, fields), bars: barsOf(number, bars), tasks: tasksOf(number, tasks), words, lines });
    pending.delete(number);
    for (const old of blocks.keys()) if (blocks.size > MOST_BLOCKS && old !== number) blocks.delete(old);
    drawSoon();
}

// A block, if it is unpacked; else it is asked for, and drawn later.
function block(number) {
    const found = blocks.get(number);
    if (found) {
        blocks.delete(number);
        blocks.set(number, found);
    } else if (!pending.has(number)) {
        pending.set(number, load(number));
    }
    return found;
}

// The column of an event, or null where its block isn't there yet.
function column(event) {
    const found = block(blockOf(event));
    return found ? found.columns[(event - about.first) % about.block] : null;
}

// The bars and tasks that stand in these events, each once.
function marksOf(events) {
    const bars = new Map(), tasks = new Map(), [from, to] = [events[0], events[events.length - 1]];
    for (const number of new Set(events.map(blockOf))) {
        const found = block(number);
        if (!found) continue;
        for (const bar of found.bars) {
            if (bar.start <= to && bar.end >= from) bars.set(`${bar.number} ${bar.start} ${bar.kind}`, bar);
        }
        for (const task of found.tasks) {
            if (task.start <= to && (task.end === null || task.end >= from)) tasks.set(task.ticket, task);
        }
    }
    return { bars: [...bars.values()], tasks: [...tasks.values()] };
}

// All that was asked for is unpacked and drawn.
async function settled() {
    await ready;
    do {
        await Promise.all(pending.values());
        await new Promise(requestAnimationFrame);
    } while (pending.size || frame);
}
