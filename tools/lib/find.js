// What is looked for among all events, and which of them are shown.
const TERM = /(tag|frame|ticket|sn|cmdsn|unit|connection|event)\s+([0-9a-f]+)|([^\s,][^,]*)/gi;
const WORDS = { abort: TAKES_OUT, aborts: TAKES_OUT, difference: DIFFERS, differences: DIFFERS, ignored: IGNORED, moved: MOVED,
    "made up": MADE_UP, refused: REFUSES };
const KINDS = { command: COMMAND, commands: COMMAND, function: FUNCTION, functions: FUNCTION, other: OTHER, completion: COMPLETION,
    completions: COMPLETION };
let shown = null;

// The test of an event's place in the arrays for one word of the reader's, or null where it has no meaning.
function testOf(name, value, words) {
    if (words) return testOfWords(words.trim().toLowerCase());
    const number = parseInt(value, name === "tag" || name.endsWith("sn") ? 16 : 10);
    const isCompletion = place => (index.flags[place] & 3) === COMPLETION;
    switch (name) {
    case "tag": return place => index.tag[place] === number && !isCompletion(place);
    case "frame": return place => index.frame[place] === number;
    case "ticket": return place => index.number[place] === number && isCompletion(place);
    case "unit": return place => index.unit[place] === number;
    case "connection": return place => about.cidOf[index.cid[place]] === number;
    case "event": return place => place + about.first === number;
    default: return place => index.number[place] === number && !isCompletion(place);
    }
}

function testOfWords(words) {
    if (words in WORDS) return place => (index.flags[place] & WORDS[words]) !== 0;
    if (words in KINDS) return place => (index.flags[place] & 3) === KINDS[words];
    const names = new Set(about.names.flatMap((name, at) => name.toLowerCase().includes(words) ? [at] : []));
    return place => names.has(index.name[place]);
}

// The test for all of the words.
function testFor(text) {
    const tests = [...text.matchAll(TERM)].map(([, name, value, words]) => testOf(name?.toLowerCase(), value, words));
    return tests.length ? place => tests.every(test => test(place)) : null;
}

// Shows those events alone that meet a test, or all.
function filter(text) {
    const test = testFor(text), kept = [];
    if (test) for (let place = 0; place < about.count; place++) if (test(place)) kept.push(place + about.first);
    shown = test ? Int32Array.from(kept) : null;
    tell(test ? `${kept.length} of ${about.count} events` : "");
    resize();
}

const positions = () => shown ? shown.length : about.count;
const eventOf = position => shown ? shown[position] : about.first + position;

// The position of an event, or that of the next one that is shown.
function positionOf(event) {
    if (!shown) return event - about.first;
    let low = 0, high = shown.length;
    while (low < high) {
        const middle = (low + high) >> 1;
        if (shown[middle] < event) low = middle + 1; else high = middle;
    }
    return low;
}

// The next event behind this one, or before it, that meets a test and is shown; or null.
function nextEvent(from, step, test) {
    for (let place = from - about.first + step; place >= 0 && place < about.count; place += step) {
        if (!test(place)) continue;
        const event = place + about.first;
        if (!shown || shown[positionOf(event)] === event) return event;
    }
    return null;
}

// Goes to the next event that meets a test. `words` say what it is.
function goToNext(step, test, words) {
    const event = nextEvent(neighbour(0) - (pinned === null && pointed === null && step > 0 ? 1 : 0), step, test);
    if (event === null) tell(`no ${words} ${step > 0 ? "behind" : "before"} this`);
    else {
        tell("");
        goTo(event);
    }
}

function findNext(step) {
    const text = document.getElementById("find").value;
    const test = testFor(text);
    if (test) goToNext(step, test, `“${text}”`);
}

const tell = words => { document.getElementById("told").textContent = words; };
