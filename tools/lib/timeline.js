// What is seen of the events, where one points, and where one goes.
const scroller = document.getElementById("scroller");
const drawing = document.getElementById("drawing");
const details = document.getElementById("details");
const NOWHERE = { clientX: -1, clientY: -1 };
const WIDTHS = [0.0005, 0.001, 0.002, 0.005, 0.01, 0.02, 0.05, 0.1, 0.2, 0.5, 1, 2, 4, 8, 16, 24, NEAR, 56, COLUMN];
// Browsers draw no element that is wider.
const WIDEST = 12_000_000;
const KEYS = "arrows: neighbours; Home, End: ends; + and −, wheel with Ctrl: zoom; 0: columns; w: whole; a, A: next, last abort; "
    + "d, D: next, last difference; /: find; n, N: next, last found; o: only";
let pinned = null, pointed = null, mouse = NOWHERE, leads = false, frame = 0;

const seen = () => Math.max(1, drawing.clientWidth - LEFT);
const total = () => positions() * width;
// How many pixels of the columns a pixel of the scroll bar stands for.
const ratio = () => total() <= WIDEST ? 1 : Math.max(1, total() - seen()) / (WIDEST - seen());
const scrolled = () => scroller.scrollLeft * ratio();

function showFrom(left) {
    scroller.scrollLeft = Math.max(0, left) / ratio();
    drawSoon();
}

function resize() {
    document.getElementById("width").style.width = `${LEFT + Math.min(total(), WIDEST) + 20}px`;
    painted = null;
    drawSoon();
}

// Draws columns of another width, and keeps in its place what stands there.
function zoom(to, at = LEFT + seen() / 2) {
    const position = (scrolled() + at - LEFT) / width;
    width = to;
    resize();
    showFrom(position * width - (at - LEFT));
}

function zoomBy(step, at) {
    const next = step > 0 ? WIDTHS.find(one => one > width * 1.001) : WIDTHS.findLast(one => one < width * 0.999);
    if (next && (step > 0 || total() > seen())) zoom(next, at);
}

function draw() {
    frame = 0;
    if (!index) return;
    const from = Math.max(0, Math.floor(scrolled() / width)), to = Math.min(positions(), from + Math.ceil(seen() / width) + 1);
    const marks = [], labels = [];
    let y = 60;
    if (from >= to) {
        labels.push(text(10, 30, "no event", "head"));
    } else if (width < NEAR) {
        y = drawAfar(from, to, marks, labels);
    } else {
        y = drawNear(Array.from({ length: to - from }, (_, at) => eventOf(from + at)), marks, labels);
    }
    drawing.setAttribute("height", y);
    document.getElementById("marks").innerHTML = pointedMark(y) + marks.join("") + box(0, 0, LEFT, y, "paper", 0) + labels.join("");
    drawOverview();
}

function drawNear(events, marks, labels) {
    const around = marksOf(events);
    drawTop(events, marks, labels);
    let y = drawConnections(events, 50, marks, labels);
    y = drawWindow(events, y, marks, labels, around);
    y = drawTasks(events, y, marks, labels, around);
    const at = pointed ?? pinned;
    if (at !== null) drawJoins(at, marks);
    return y;
}

function pointedMark(height) {
    const at = pointed ?? pinned;
    return at === null ? "" : box(x(at), 18, Math.max(2, width), height - 18, "pointed", 0);
}

function drawSoon() {
    if (!frame) frame = requestAnimationFrame(draw);
}

function element(kind, words, name) {
    const made = document.createElement(kind);
    made.textContent = words;
    if (name) made.className = name;
    return made;
}

// What the event is in words, and its lines, as soon as they are unpacked.
async function show(event) {
    if (!column(event)) await pending.get(blockOf(event));
    if (event !== (pointed ?? pinned)) return;
    const one = column(event), found = block(blockOf(event)), at = (event - about.first) % about.block;
    const [head, ...words] = found.words?.[at] ?? [`${one.name} ${one.number} ${one.note}`];
    const list = document.createElement("ul");
    list.append(...words.map(words => element("li", words)), ...one.differences.map(words => element("li", words, "different")));
    if (about.leftOut.length) list.append(element("li", `The page would be too large with the ${about.leftOut.join(" and ")} of all events.`, "where"));
    details.replaceChildren(element("h2", `Event ${event}: ${head}`), list, element("pre", (found.lines?.[at] ?? []).join("\n")));
    details.firstChild.append(element("span", whereWords(one), "where"));
}

// Where an event stands in the capture.
function whereWords(one) {
    if (one.frame === null) return "";
    return ` (frame ${one.frame}${one.madeUp ? ", made up" : ""}${one.moved ? ", moved behind replies that hadn't seen it" : ""})`;
}

function eventAt(position) {
    const left = position.clientX - drawing.getBoundingClientRect().left;
    const at = Math.floor((left - LEFT + scrolled()) / width);
    return left >= LEFT && at >= 0 && at < positions() ? eventOf(at) : null;
}

function point(event) {
    if (event === pointed) return;
    pointed = event;
    if ((event ?? pinned) !== null) show(event ?? pinned);
    drawSoon();
}

// The mouse leads when it moves, until one goes to another event. Browsers also tell of a mouse that stands still while
// the page scrolls below it.
function lead(position) {
    if (position.clientX === mouse.clientX && position.clientY === mouse.clientY) return;
    [mouse, leads] = [position, true];
    point(eventAt(position));
}

function leave() {
    [mouse, leads] = [NOWHERE, false];
    point(null);
}

// Goes to an event, and keeps its words. One that isn't shown gives its place to the next one that is.
function goTo(event) {
    const wanted = Math.min(last, Math.max(about.first, Math.trunc(event)));
    if (!positions()) return;
    const position = Math.min(positions() - 1, positionOf(wanted));
    [pinned, pointed, leads] = [eventOf(position), null, false];
    const left = position * width;
    if (left < scrolled() || left > scrolled() + seen() - width) showFrom(left - seen() / 2 + width / 2);
    document.getElementById("event").value = pinned;
    show(pinned);
    drawSoon();
}

// The event beside the one that is shown, or the first one that is wholly seen.
function neighbour(step) {
    const from = pinned ?? pointed;
    const position = from === null ? Math.ceil(scrolled() / width) : positionOf(from) + step;
    return eventOf(Math.min(positions() - 1, Math.max(0, position)));
}

const flagged = bit => place => (index.flags[place] & bit) !== 0;
const ACTIONS = {
    ArrowLeft: () => goTo(neighbour(-1)), ArrowRight: () => goTo(neighbour(1)),
    Home: () => goTo(about.first), End: () => goTo(last),
    "+": () => zoomBy(1), "=": () => zoomBy(1), "-": () => zoomBy(-1), 0: () => zoom(COLUMN), w: () => zoom(seen() / Math.max(1, positions())),
    a: () => goToNext(1, flagged(TAKES_OUT), "abort"), A: () => goToNext(-1, flagged(TAKES_OUT), "abort"),
    d: () => goToNext(1, flagged(DIFFERS), "difference"), D: () => goToNext(-1, flagged(DIFFERS), "difference"),
    n: () => findNext(1), N: () => findNext(-1),
    "/": () => document.getElementById("find").focus(), o: () => document.getElementById("only").focus(),
    "?": () => tell(KEYS),
};

drawing.addEventListener("mousemove", lead);
drawing.addEventListener("mouseleave", leave);
drawing.addEventListener("click", position => {
    const event = eventAt(position);
    if (event !== null) goTo(event);
});
document.getElementById("event").addEventListener("change", change => {
    goTo(Number(change.target.value) || about.first);
    change.target.blur();
});
document.getElementById("find").addEventListener("keydown", key => {
    if (key.key !== "Enter") return;
    findNext(key.shiftKey ? -1 : 1);
    key.target.blur();
});
document.getElementById("only").addEventListener("keydown", key => {
    if (key.key !== "Enter") return;
    filter(key.target.value);
    key.target.blur();
});
document.getElementById("help").addEventListener("click", () => tell(KEYS));
document.addEventListener("keydown", key => {
    if (!ACTIONS[key.key] || key.altKey || key.ctrlKey || key.metaKey || key.target.tagName === "INPUT") return;
    key.preventDefault();
    ACTIONS[key.key]();
});
scroller.addEventListener("wheel", wheel => {
    if (!wheel.ctrlKey) return;
    wheel.preventDefault();
    zoomBy(-wheel.deltaY, wheel.clientX - drawing.getBoundingClientRect().left);
}, { passive: false });
scroller.addEventListener("scroll", () => {
    if (leads) point(eventAt(mouse));
    drawSoon();
});
window.addEventListener("resize", resize);
window.addEventListener("hashchange", () => goTo(Number(location.hash.slice(1)) || about.first));

resize();
const ready = readIndex().then(read => { index = read; });
ready.then(() => {
    if (location.hash) goTo(Number(location.hash.slice(1)) || about.first);
    drawSoon();
});
