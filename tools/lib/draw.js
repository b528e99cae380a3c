// Draws the columns that are seen, with the same marks as the picture of svg.py; from afar, what each event is.
const REQUEST = 44, ANSWER = 19, MOST_ANSWERS = 4, WINDOW = 240, TASK = 20, MOST_ROW = 17, LEFT = 120, LONGEST_ANSWER = 13;
const COLUMN = 74, NEAR = 40, STRIP = 22, CHART = 90;
const COLORS = ["#7fb0ea", "#c0392b", "#aab3bd", "#4c9a5d"];
const rows = new Map();
let width = COLUMN;

const escaped = text => String(text).replace(/[&<>"]/g, sign => `&#${sign.charCodeAt(0)};`);
const x = event => LEFT + positionOf(event) * width - scrolled();
const text = (left, y, words, kind) => `<text x="${left}" y="${y}" class="${kind}">${escaped(words)}</text>`;
const box = (left, y, wide, height, kind, round = 2) =>
    `<rect x="${left}" y="${y}" width="${wide}" height="${height}" rx="${round}" class="${kind}"/>`;
const line = (left, y, toLeft, toY, kind) =>
    `<line x1="${left}" y1="${y}" x2="${toLeft}" y2="${toY}" class="${kind}"/>`;
const shownNumber = number => ((number % 4294967296 + 4294967296) % 4294967296).toString(16);
const mostOf = (most, cid) => Math.min(MOST_ANSWERS, new Map(most).get(cid) ?? 0);

// A box without its corners.
function notched(left, y, wide, height, kind) {
    const right = left + wide, low = y + height, cut = 6;
    const points = [[left + cut, y], [right - cut, y], [right, y + cut], [right, low - cut], [right - cut, low],
        [left + cut, low], [left, low - cut], [left, y + cut]];
    return `<polygon points="${points.join(" ")}" class="${kind}"/>`;
}

function requestCell(event, cid, y) {
    const one = column(event);
    if (!one || one.cid !== cid) return "";
    const { kind, ignored, name, number, note } = one;
    const left = x(event), middle = left + width / 2, look = ignored ? "ignored" : kind;
    const shape = kind === "function" ? notched(left + 2, y, width - 4, REQUEST - 2, look)
        : box(left + 2, y, width - 4, REQUEST - 2, look, kind === "other" ? 10 : 2);
    return width < COLUMN ? shape : shape + text(middle, y + 14, name, "name middle") + text(middle, y + 25, number, "small middle")
        + text(middle, y + 37, note, "note middle");
}

function answerCells(event, cid, y, which) {
    const answers = (column(event)?.[which] ?? []).filter(answer => answer[0] === cid);
    const room = answers.length > MOST_ANSWERS ? MOST_ANSWERS - 1 : MOST_ANSWERS;
    const left = x(event), middle = left + width / 2;
    const cells = answers.slice(0, room).map(([, words, good, tag, , differs], place) => {
        const whole = `${words} ${tag}`, shape = differs ? "differs" : good ? "good" : "bad";
        const shorter = whole.length <= LONGEST_ANSWER ? whole : words;
        return box(left + 3, y + place * ANSWER, width - 6, ANSWER - 3, shape, 8)
            + (width < COLUMN ? "" : text(middle, y + place * ANSWER + 12, shorter, `small middle${differs ? " light" : ""}`));
    });
    if (answers.length > room) cells.push(text(middle, y + room * ANSWER + 12, `+ ${answers.length - room} more`, "small middle quiet"));
    return cells.join("");
}

function drawConnections(events, y, marks, labels) {
    for (const cid of about.cids) {
        const ours = mostOf(about.ours, cid), theirs = mostOf(about.theirs, cid);
        const answersAt = y + REQUEST + 8, theirsAt = answersAt + ours * ANSWER + (theirs ? 5 : 0);
        rows.set(cid, { request: y + 5 + REQUEST, answers: answersAt, theirs: theirsAt });
        labels.push(text(10, y + 20, cid === null ? "units" : `connection ${cid}`, "head"));
        labels.push(text(LEFT - 8, y + 36, cid === null ? "completions" : "requests", "small end quiet"));
        if (ours) labels.push(text(LEFT - 8, answersAt + 13, about.theirs.length ? "by the rules" : "replies", "small end quiet"));
        if (theirs) labels.push(text(LEFT - 8, theirsAt + 13, "the target said", "small end quiet"));
        for (const event of events) {
            marks.push(requestCell(event, cid, y + 5), answerCells(event, cid, answersAt, "answers"),
                answerCells(event, cid, theirsAt, "theirs"));
        }
        y = theirsAt + theirs * ANSWER + 4;
        labels.push(line(0, y, drawing.clientWidth, y, "rule"));
    }
    return y;
}

// The lowest and the highest number of what is seen, with a row above them that shows that there is more.
function numberRange(columns, bars) {
    const seen = columns.map(one => one.expected).filter(value => value !== null).concat(bars.map(bar => bar.number));
    if (!seen.length) return null;
    const lowest = Math.min(...seen), highest = Math.max(...seen);
    const told = columns.map(one => one.greatest).filter(value => value !== null);
    return [lowest, Math.max(highest, Math.min(told.length ? Math.max(...told) : highest, highest + 1))];
}

// A stepped line below ExpCmdSN or above MaxCmdSN.
function steps(events, field, kind, top, row, highest, above) {
    let path = "", joined = false;
    for (const event of events) {
        const value = column(event)?.[field] ?? null;
        const drawn = value !== null && value <= highest;
        const y = top + (highest - value + 1 - above) * row;
        if (drawn) path += `${joined ? "L" : "M"}${x(event)} ${y}H${x(event) + width}`;
        joined = drawn;
    }
    return path ? `<path d="${path}" class="${kind}"/>` : "";
}

function drawWindow(events, y, marks, labels, seen) {
    const [from, to] = [events[0], events[events.length - 1]];
    const columns = events.map(column).filter(Boolean);
    const bars = seen.bars;
    const range = numberRange(columns, bars);
    const rowsOf = range ? range[1] - range[0] + 1 : 3;
    const height = Math.min(WINDOW, MOST_ROW * Math.max(3, rowsOf)), low = y + height + 34;
    labels.push(text(10, y + 16, "CmdSNs", "head"), line(0, low, drawing.clientWidth, low, "rule"));
    if (!range) return low;
    const [lowest, highest] = range, top = y + 24, row = Math.min(MOST_ROW, height / rowsOf);
    const above = Math.max(...columns.map(one => one.greatest ?? highest));
    if (above > highest) marks.push(text(LEFT + 4, y + 16, `MaxCmdSN goes up to ${shownNumber(above)}, above the picture`, "small quiet"));
    for (let number = lowest; number <= highest; number += Math.ceil(12 / row)) {
        const middle = top + (highest - number) * row + row / 2;
        labels.push(text(LEFT - 8, middle + 4, shownNumber(number), "small end quiet"));
    }
    for (const event of events) marks.push(openNumbers(event, top, row, highest));
    for (const { number, kind, start, end } of bars) {
        const begin = x(Math.max(start, from)), stop = x(Math.min(end, to) + 1);
        const gap = row > 5 ? 1 : 0;
        if (stop > begin) marks.push(box(begin + 1, top + (highest - number) * row + gap, Math.max(1, stop - begin - 2), row - 2 * gap, kind));
    }
    marks.push(steps(events, "expected", "expected", top, row, highest, 0), steps(events, "greatest", "greatest", top, row, highest, 1));
    return low;
}

// The ground of the numbers from ExpCmdSN to MaxCmdSN.
function openNumbers(event, top, row, highest) {
    const one = column(event);
    if (!one || one.expected === null || one.greatest === null || one.greatest < one.expected) return "";
    const upper = Math.min(one.greatest, highest);
    return box(x(event), top + (highest - upper) * row, width, Math.max(0, upper - one.expected + 1) * row, "open", 0);
}

function taskMarks(task, y, from, to) {
    const { label, start, enabled, end, outcome, completed } = task;
    const leaves = end !== null && end <= to, begin = Math.max(start, from), stop = leaves ? end : to + 1;
    const able = enabled === null ? stop : Math.min(Math.max(enabled, begin), stop);
    let marks = "";
    for (const [first, past, kind] of [[begin, able, "dormant"], [able, stop, "enabled"]]) {
        if (x(first) < x(past)) marks += box(x(first) + 2, y + 2, Math.max(1, x(past) - x(first) - 2), TASK - 4, kind);
    }
    const left = Math.max(x(begin), LEFT), room = x(stop) - left;
    if (room > COLUMN / 2) marks += text(left + 7, y + 14, room >= 2 * COLUMN ? label : label.split(" ")[0], "small");
    if (leaves && positionOf(end + 1) > positionOf(end)) {
        const draw = completed ? box : notched;
        marks += draw(x(end) + 1, y + 2, Math.max(2, width - 3), TASK - 4, completed ? "completed" : "aborted")
            + (width < COLUMN ? "" : text(x(end) + width / 2, y + 14, (completed ? "" : "✕ ") + outcome, "small middle light"));
    }
    return marks;
}

function drawTasks(events, y, marks, labels, seen) {
    const [from, to] = [events[0], events[events.length - 1]];
    for (const [unit] of about.lanes) {
        const own = seen.tasks.filter(task => task.unit === unit);
        const used = [...new Set(own.map(task => task.lane))].sort((one, other) => one - other);
        labels.push(text(10, y + 17, `unit ${unit}`, "head"), text(LEFT - 8, y + 17, "task set", "small end quiet"));
        for (const task of own) marks.push(taskMarks(task, y + 4 + used.indexOf(task.lane) * TASK, from, to));
        y += Math.max(1, used.length) * TASK + 10;
        labels.push(line(0, y, drawing.clientWidth, y, "rule"));
    }
    return y;
}

function drawTop(events, marks, labels) {
    labels.push(text(10, 42, "event", "head"));
    for (const event of events) {
        const middle = x(event) + width / 2, one = column(event);
        marks.push(line(x(event), 48, x(event), 100000, "grid"));
        if (width >= NEAR) marks.push(text(middle, 42, event, "small middle"));
        if (!one || width < COLUMN) continue;
        if (one.time !== null) marks.push(text(middle, 15, (one.moved ? "◂ " : "") + one.time, `small middle ${one.moved ? "moved-time" : "quiet"}`));
        if (one.frame !== null) marks.push(text(middle, 28, one.madeUp ? "made up" : `frame ${one.frame}`, "small middle quiet"));
        if (one.pause) marks.push(box(x(event) - 2, 50, 4, 5000, "pause", 0), text(x(event), 52, `${one.pause.toFixed(2)} s`, "small middle pause-words"));
    }
}

// Lines from the event that one points at to what it answers, and to its answer.
function drawJoins(at, marks) {
    const one = column(at);
    if (!one) return;
    const join = (request, cid, event, to) => {
        const row = rows.get(cid);
        if (row && request !== null) {
            marks.push(`<path class="joins" d="M${x(request) + width / 2} ${row.request}L${x(event) + width / 2} ${row[to] + 4}"/>`);
        }
    };
    for (const answer of one.answers) join(answer[4], answer[0], at, "answers");
    for (const answer of one.theirs) join(answer[4], answer[0], at, "theirs");
    const answer = index.answered[at - about.first];
    if (answer && answer !== at) join(at, one.cid, answer, about.theirs.length ? "theirs" : "answers");
}

// From afar: what each event is, by the arrays alone. Of several events in one place the most telling one is seen.
function tellingOf(place) {
    const flags = index.flags[place];
    if (flags & DIFFERS) return 7;
    if (flags & TAKES_OUT) return 6;
    return (flags & 3) === FUNCTION ? 5 : flags & IGNORED ? 4 : flags & REFUSES ? 3 : (flags & 3) === COMPLETION ? 1 : (flags & 3) === OTHER ? 2 : 0;
}
const TELLING = [COLORS[0], COLORS[3], COLORS[2], "#e0a030", "#d9dde2", "#e58a7f", "#c0392b", "#8e0f5f"];

// What is seen from one position to another, in strips of so many places each.
function strips(from, to, count, of) {
    const found = Array.from({ length: count }, () => -1);
    for (let position = from; position < to; position++) {
        const place = eventOf(position) - about.first, at = Math.floor((position - from) * count / (to - from));
        const value = of(place);
        if (value > found[at]) found[at] = value;
    }
    return found;
}

function drawAfar(from, to, marks, labels) {
    const wide = Math.min(drawing.clientWidth - LEFT, (to - from) * width), count = Math.max(1, Math.min(to - from, Math.floor(wide / 2)));
    const step = wide / count;
    let y = 30;
    for (const cid of about.cids) {
        const own = cid === null ? NONE : about.cidOf.indexOf(cid);
        labels.push(text(10, y + 15, cid === null ? "completions" : `connection ${cid}`, "head"));
        strips(from, to, count, place => index.cid[place] === own ? tellingOf(place) : -1).forEach((value, at) => {
            if (value >= 0) marks.push(`<rect x="${LEFT + at * step}" y="${y}" width="${step + 0.3}" height="${STRIP - 4}" fill="${TELLING[value]}"/>`);
        });
        y += STRIP;
    }
    const live = strips(from, to, count, place => index.live[place]), most = Math.max(1, ...live);
    labels.push(text(10, y + 15, "live commands", "head"), text(LEFT - 8, y + 30, `up to ${most}`, "small end quiet"));
    const points = live.map((value, at) => `L${LEFT + at * step} ${y + CHART - 4 - value * (CHART - 14) / most}`).join("");
    marks.push(`<path class="enabled" d="M${LEFT} ${y + CHART - 4}${points}L${LEFT + wide} ${y + CHART - 4}Z"/>`);
    labels.push(text(10, 18, `events ${eventOf(from)} to ${eventOf(to - 1)}`, "head"));
    return y + CHART;
}
