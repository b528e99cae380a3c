// All events in one strip, and where what is seen stands in it.
const overview = document.getElementById("overview");
let painted = null;

function paintOverview() {
    const wide = overview.clientWidth, count = Math.max(1, Math.min(positions(), wide));
    painted = document.createElement("canvas");
    [painted.width, painted.height, overview.width] = [wide, overview.height, wide];
    const pen = painted.getContext("2d"), step = wide / count;
    if (!positions()) return;
    const live = strips(0, positions(), count, place => index.live[place]), most = Math.max(1, ...live);
    pen.fillStyle = "#cfe3ea";
    live.forEach((value, at) => pen.fillRect(at * step, 40 - 24 * value / most, step + 0.5, 24 * value / most));
    strips(0, positions(), count, tellingOf).forEach((value, at) => {
        if (value < 3) return;
        pen.fillStyle = TELLING[value];
        pen.fillRect(at * step, value >= 5 ? 0 : 8, Math.max(1, step), value >= 5 ? 14 : 6);
    });
}

function drawOverview() {
    if (!painted || painted.width !== overview.clientWidth) paintOverview();
    const pen = overview.getContext("2d"), total = Math.max(1, positions() * width);
    pen.clearRect(0, 0, overview.width, overview.height);
    pen.drawImage(painted, 0, 0);
    const left = scrolled() / total * overview.width, wide = Math.max(3, (drawing.clientWidth - LEFT) / total * overview.width);
    pen.strokeStyle = "#1f2937";
    pen.strokeRect(left + 0.5, 0.5, Math.min(wide, overview.width - left) - 1, overview.height - 1);
}

// Shows what stands at a place of the strip.
function seek(position) {
    const share = (position.clientX - overview.getBoundingClientRect().left) / overview.clientWidth;
    showFrom(share * positions() * width - (drawing.clientWidth - LEFT) / 2);
}

overview.addEventListener("mousedown", seek);
overview.addEventListener("mousemove", position => { if (position.buttons & 1) seek(position); });
