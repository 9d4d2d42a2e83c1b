"""The page of svemu-lanes: its frame, its look, and the script that draws it."""

BODY = """\
<header>
<h1 id="where" aria-live="polite"></h1>
<p class="tools">
<button id="first" aria-label="first step">|&lt;</button><button id="back" aria-label="a step back">&lt;</button>
<input id="slider" type="range" min="0" value="0" aria-label="step">
<button id="on" aria-label="a step on">&gt;</button><button id="last" aria-label="last step">&gt;|</button>
<button id="side"></button><button id="unchanged"></button><button id="bytes"></button>
<label>numbers <select id="base"><option value="hex">hexadecimal</option><option value="unsigned">unsigned</option>
<option value="signed">signed</option></select></label>
</p>
<p class="legend"><span class="lanes"><b class="on">active</b></span> <span class="lanes"><b class="off">inactive</b></span>
<span class="lanes"><b class="plain">not used</b></span> <span class="lanes"><b class="on new">changed</b></span>
<span>flags: <b>N</b>zcv is N set, the others clear</span>
<span>keys: arrows, page up and down, home, end; l turns the lanes, u unfolds, m memory</span></p>
<p class="lengths" id="lengths" hidden></p>
</header>
<main></main>
<section id="paper"></section>
<p class="more" id="more" hidden></p>
"""

STYLE = """\
body { overflow-anchor: none; --lane: 12px; }
header { position: sticky; top: 0; z-index: 1; padding: 8px 16px; background: var(--raised); border-bottom: 1px solid var(--line); }
h1 { font-size: 15px; font-weight: bold; }
.tools, .legend { display: flex; flex-wrap: wrap; align-items: center; gap: 4px 8px; margin-top: 6px; }
.tools input { flex: 1 1 120px; max-width: 420px; accent-color: var(--mark); }
.legend { gap: 4px 18px; color: var(--pale); font-size: 12px; }
.legend b { color: var(--ink); }
.row { padding: 4px 16px 5px 12px; border-bottom: 1px solid var(--line); border-left: 4px solid transparent; }
.some:not(.seen) { content-visibility: hidden; contain-intrinsic-height: 3000px; }
.row.now { border-left-color: var(--mark); background: var(--raised); }
.row h2 { display: flex; flex-wrap: wrap; gap: 0 2ch; cursor: pointer; }
.row .n { min-width: 6ch; text-align: right; color: var(--pale); }
.row.now .n { color: var(--ink); font-weight: bold; }
.row .pc, .row .at, .row .to, .notes { color: var(--pale); }
.row .at { min-width: 12ch; }
.row .what { flex: 1; min-width: 20ch; display: flex; flex-wrap: wrap; gap: 0 2ch; }
.row .alias, .row .text:last-child { font-weight: bold; }
.row .alias + .text { color: var(--pale); font-weight: normal; }
.side { --bytes: var(--bytes0); }
.side + .side { --bytes: var(--bytes1); }
.notes, .general, .register, .scattered { margin: 2px 0 0 8ch; }
.register { margin-left: 4ch; }
.general { display: flex; flex-wrap: wrap; gap: 1px 3ch; align-items: baseline; }
.general .same { color: var(--pale); }
.general i { font-style: normal; color: var(--pale); }
.general .new { border-bottom: 3px solid var(--mark); font-weight: bold; }
.chip { padding: 0 6px; font-size: 12px; color: var(--pale); border-style: dashed; cursor: pointer; }
.chip.active { background: var(--fill); color: var(--ink); }
.register { display: flex; gap: 1ch; margin-top: 4px; }
.register .name { flex: none; width: 13ch; overflow-wrap: anywhere; }
.register .name small, .register .name button { display: block; font: inherit; font-size: 11px; line-height: 14px; color: var(--pale);
  border: 0; padding: 0; background: none; text-align: left; }
.register .name button { cursor: pointer; text-decoration: underline dotted; }
.register .lanes { display: grid; grid-template-columns: repeat(var(--bytes), var(--byte)); direction: rtl; align-content: start; overflow-x: auto; row-gap: 2px; font-size: var(--lane); }
.register .many { grid-template-columns: 36px repeat(var(--bytes), var(--byte)); row-gap: 1px; }
.left .register .lanes { direction: ltr; }
.lanes i { direction: ltr; font-style: normal; font-size: 10px; line-height: 19px; color: var(--pale); text-align: center; }
.lanes b { grid-column: span var(--wide, 1); direction: ltr; margin: 0 1px; padding: 0 2px; text-align: right; font-weight: normal; white-space: nowrap;
  border: 1px solid var(--line); border-bottom-width: 3px; border-radius: 2px; line-height: 16px; }
.register .lanes b::before { content: attr(data-k); display: block; font-size: 9px; line-height: 10px; color: var(--pale); font-weight: normal; }
.register .many b::before { display: none; }
.register .bytes b:not(:nth-child(4n + 1))::before { visibility: hidden; }
.register .bytes b { padding: 0; font-size: 11px; text-align: center; }
.lanes .on { background: var(--fill); border-color: var(--fill); }
.lanes .on::before { color: inherit !important; }
.lanes .off { border-style: dotted; color: var(--pale) !important; }
.lanes .new { border-bottom: 3px solid var(--mark); font-weight: bold; }
.register .lanes .whole { grid-column: 1 / -1; padding: 0 8px; text-align: left; justify-self: start; }
.register .lanes .whole::before { display: none; }
.register .single { direction: ltr; }
.scattered { display: flex; flex-wrap: wrap; gap: 0 2ch; font-size: 12px; }
.scattered i, .general .load i { font-style: normal; color: var(--pale); }
.two .row { display: grid; grid-template-columns: 1fr 1fr; gap: 0 16px; }
.two .side { min-width: 0; }
.two .row .n { min-width: 5ch; }
.two .none { align-self: stretch; padding-left: 2ch; color: var(--pale); border-left: 1px dotted var(--line); }
.two .narrow { display: none; }
.two .notes, .two .general, .two .register, .two .scattered { margin-left: 0; }
.two .register { flex-direction: column; gap: 0; }
.two .register .name { width: auto; }
.two .register .name small, .two .register .name button { display: inline; margin-right: 1ch; }
.two .register .lanes { align-self: flex-start; max-width: 100%; }
.lengths { display: grid; grid-template-columns: 1fr 1fr; gap: 0 16px; margin-top: 6px; font-weight: bold; }
.lengths[hidden], [hidden] { display: none; }
.more { padding: 10px 16px; color: var(--pale); }
#paper { display: none; }
@media (max-width: 1000px) {
  .two .row { grid-template-columns: 1fr; gap: 14px 0; }
  .two .narrow { display: inline; color: var(--pale); }
  .two .none { padding-left: 0; border-left: 0; }
  .two .lengths { display: none; }
  .notes, .general, .scattered { margin-left: 2ch; }
  .register { margin-left: 2ch; }
  .register .name { width: 11ch; }
}
@media (max-width: 700px) {
  .notes, .general, .register, .scattered { margin-left: 0; }
  .register { flex-direction: column; gap: 0; }
  .register .name { width: auto; }
  .register .name small { display: inline; }
  .register .lanes { align-self: flex-start; max-width: 100%; }
}
@page { margin: 9mm; }
@media print {
  :root { color-scheme: light; --paper: #ffffff; --ink: #000000; --pale: #555d66; --line: #c9d0d8; --mark: #a8430a; }
  body { font-size: 8.5px; line-height: 10.5px; }
  header { position: static; padding: 0 0 4px; background: none; }
  h1 { font-size: 11px; }
  .tools, .legend, main { display: none; }
  #paper { display: block; }
  .line { break-inside: avoid; padding: 1px 0; border-top: 1px solid var(--line); overflow-wrap: anywhere; }
  .line.both { display: grid; grid-template-columns: 1fr 1fr; gap: 0 10px; }
  .line .side { min-width: 0; }
  .line b { font-weight: bold; }
  .line i { font-style: normal; color: var(--pale); }
  .line p { font-size: 7.2px; line-height: 8.4px; padding-left: 3ch; }
  .line u { text-decoration: none; color: var(--pale); }
  .more { padding: 4px 0; }
}
"""

SCRIPT = r"""
const $ = id => document.getElementById(id);

// Data that are long are held as a text, which zlib has compressed.
async function unpacked(text) {
  const bytes = Uint8Array.from(atob(text), c => c.charCodeAt(0));
  return new Response(new Blob([bytes]).stream().pipeThrough(new DecompressionStream("deflate"))).json();
}

async function show() {
const held = JSON.parse($("data").textContent), data = typeof held == "string" ? await unpacked(held) : held;
const {title, sides} = data, two = sides.length == 2;
// A row of the page is a step at each length, or none.
const pairs = data.pairs || sides[0].rows.map((_, i) => [i]);
// The browser lays so many rows out together, once they come near the window.
const together = 50;
const wide = {b: 1, h: 2, s: 4, d: 8}, drawn = new Set(), turned = new Set();
let now = -1, base = "hex", open = data.open, bytes = true, lines = [];

// The value of a register behind the first i steps: the last change that isn't later.
function held_at(side, name, i) {
  const some = side.values[name];
  let low = 0, high = some.length;
  while (high - low > 1) {
    const middle = low + high >> 1;
    if (some[middle][0] <= i) low = middle; else high = middle;
  }
  return some[low][1];
}
const length = (side, i) => Number(held_at(side, "vl", i));
const value = (side, name, i) => name == "nzcv" ? held_at(side, name, i) :
  held_at(side, name, i).padStart(/^z/.test(name) ? length(side, i) / 4 : /^[pf]/.test(name) ? length(side, i) / 32 : 16, "0");
const digits = (text, from, count) => text.slice(text.length - from - count, text.length - from);
const bit = (text, at) => parseInt(digits(text, at >> 2, 1), 16) >> (at & 3) & 1;
const escaped = text => text.replace(/[&<>"]/g, c => `&#${c.charCodeAt(0)};`);
function number(text) {
  if (base == "hex") return text;
  return (base == "signed" ? BigInt.asIntN(4 * text.length, BigInt("0x" + text)) : BigInt("0x" + text)).toString();
}
const short = text => base == "hex" ? "0x" + (text.replace(/^0+/, "") || "0") : number(text);
const code = (side, i) => side.code[side.rows[i].c];
const named = (side, i, name) => (code(side, i).named || []).includes(name);
const draws = (side, i) => side.draws[side.rows[i].d];

// The lanes of a register behind a step: what each is, whether it is active, and whether it changed. A lane is active where the
// bit of its element is 1 in the predicate that governs the step; a predicate's own lane where it is 1.
function lanes(side, name, size, i) {
  const width = wide[size], predicate = name[0] != "z", {governing, element} = code(side, i);
  const old = value(side, name, i), text = value(side, name, i + 1), ruling = governing && value(side, governing, i);
  const lane = (of, at) => predicate ? String(bit(of, at)) : digits(of, 2 * at, 2 * width);
  return Array.from({length: length(side, i + 1) / 8 / width}, (_, k) => {
    const at = k * width, on = predicate ? bit(text, at) : ruling ? bit(ruling, at - at % wide[element]) : 1;
    const changed = old.length != text.length || lane(old, at) != lane(text, at);
    return {text: lane(text, at), was: old.length == text.length ? lane(old, at) : "", on, changed,
      look: !predicate && !named(side, i, name) ? "plain" : on ? "on" : "off"};
  });
}
const changed = (side, name, i) => value(side, name, i) != value(side, name, i + 1);
const whole = some => some.every(({on}) => on) ? "all" : some.every(({on}) => !on) ? "none" : "";
const counted = some => ({all: `all ${some.length} active`, none: `none of ${some.length} active`})[whole(some)] || `${some.filter(({on}) => on).length} of ${some.length}`;

function general(side, name, i) {
  const [old, text] = [value(side, name, i), value(side, name, i + 1)];
  return old == text ? `<span class="value same" data-name="${name}">${name} ${short(text)}</span>` :
    `<span><span class="value new" data-name="${name}">${name} ${short(text)}</span> <i>was ${short(old)}</i></span>`;
}

// Lanes or elements as cells, so many bytes wide; where there are more than two lines, the number of a line's first stands beside it.
function grid(cells, width, k, numbers) {
  const each = Math.max(1, lines[k] / width), many = cells.length > 2 * each;
  const parts = cells.map((cell, at) => (many && at % each == 0 ? `<i>${numbers(at)}</i>` : "") + cell);
  const kind = cells.length == 1 ? " single" : (width == 1 ? " bytes" : "") + (many ? " many" : "");
  return `<div class="lanes${kind}" style="--wide: ${width}">${parts.join("")}</div>`;
}

function register(side, k, name, size, i, folds) {
  const some = lanes(side, name, size, i), predicate = name[0] != "z", {governing} = code(side, i);
  const cells = predicate && whole(some) ?
    [`<b class="${some[0].look} whole${changed(side, name, i) ? " new" : ""}" data-count="${some.length}" data-bit="${some[0].text}">${counted(some)}</b>`] :
    some.map((lane, at) => `<b class="${lane.look}${lane.changed ? " new" : ""}" data-k="${at}" title="lane ${at}: ${lane.look}, ` +
      `was ${predicate ? lane.was : lane.was && number(lane.was)}">${predicate ? lane.text : number(lane.text)}</b>`);
  const says = predicate ? `<small>${[name == governing && "governs", !whole(some) && counted(some)].filter(part => part).join(", ")}</small>` : "";
  const fold = folds ? `<button class="fold" data-name="${name}">fold</button>` : "";
  return `<div class="register" data-name="${name}"><span class="name">${name}.${size} ${says}${fold}</span>${grid(cells, wide[size], k, at => at)}</div>`;
}

// A register that the step didn't change stands folded.
function chip(side, name, size, i) {
  const predicate = name[0] != "z", governs = name == code(side, i).governing;
  return `<button class="chip${governs ? " active" : ""}" data-name="${name}" title="the step didn't change it; a click unfolds it">${name}.${size}` +
    `${predicate ? ` ${counted(lanes(side, name, size, i))}` : ""}${governs ? ", governs" : ""}</button>`;
}

// An address by the object in which it is, or by its distance from the stack pointer.
function place(side, i, text) {
  if (text.length > 13) return "";
  const at = parseInt(text, 16), off = from => from ? `+0x${from.toString(16)}` : "";
  for (const [begin, size, name] of side.objects) {
    const from = at - parseInt(begin, 16);
    if (from >= 0 && from < size) return name + off(from);
  }
  const from = at - parseInt(value(side, "sp", i), 16);
  return from >= 0 && from < 4096 ? `sp${off(from)}` : "";
}

// What a step loaded and stored: neighbours are taken together.
function memory(side, i) {
  return (side.rows[i].m || []).map(text => {
    const [kind, address, size, values] = text.split(" "), count = values.length / 2 / size;
    return {does: kind == "l" ? "load" : "store", address, size: Number(size), count, where: place(side, i, address),
      elements: Array.from({length: count}, (_, k) => digits(values, 2 * size * k, 2 * size))};
  });
}
const further = (address, by) => (BigInt("0x" + address) + BigInt(by)).toString(16);
const single = ({does, address, where, elements, size}) =>
  `<span class="load" data-at="${address}" data-size="${size}">${does} <i>0x${address}${where ? ` ${escaped(where)}` : ""}:</i> ${number(elements[0])}</span>`;
function block({does, address, size, count, where, elements}, k) {
  const cells = elements.map((text, at) => `<b class="on" data-k="+${(at * size).toString(16)}" title="${size} bytes at 0x${further(address, at * size)}">${number(text)}</b>`);
  return `<div class="register memory" data-does="${does}" data-at="${address}" data-size="${size}"><span class="name">${does} <small>0x${address}</small>` +
    `${where ? `<small>${escaped(where)}</small>` : ""}<small>${count} of ${size} byte${size > 1 ? "s" : ""}</small></span>` +
    `${grid(cells, size, k, at => "+" + (at * size).toString(16))}</div>`;
}
function range({does, address, size, count, where}) {
  return `<span class="load">${does} <i>0x${address}${where ? ` ${escaped(where)}` : ""}</i> ${size * count} byte${size * count > 1 ? "s" : ""}</span>`;
}

function body(p, k) {
  const i = pairs[p][k], side = sides[k], runs = memory(side, i), shown = draws(side, i);
  const folded = ([name, size]) => size && !changed(side, name, i) && open == turned.has(`${p} ${k} ${name}`);
  const far = runs.length > 2, inline = runs.filter(run => !far && (!bytes || run.count == 1));
  const general_parts = [...shown.filter(([, size]) => !size).map(([name]) => general(side, name, i)),
    ...inline.map(run => run.count == 1 ? single(run) : range(run)), ...shown.filter(folded).map(([name, size]) => chip(side, name, size, i))];
  const scattered = far ? runs.flatMap(run => bytes ? run.elements.map((text, at) => ({...run, address: further(run.address, at * run.size),
    where: "", elements: [text]})).map(single) : [range(run)]) : [];
  return (general_parts.length ? `<p class="general">${general_parts.join(" ")}</p>` : "") +
    shown.filter(one => one[1] && !folded(one)).map(([name, size]) => register(side, k, name, size, i, !changed(side, name, i))).join("") +
    runs.filter(run => !far && bytes && run.count > 1).map(run => block(run, k)).join("") +
    (far ? `<p class="scattered">${scattered.join(" ")}</p>` : "");
}

// Has the rows laid out among which a row is.
function reveal(p) {
  const some = $(`row${p}`).parentElement;
  if (some.classList.contains("seen")) return;
  some.classList.add("seen");
  for (const row of some.children) seen.observe(row);
}

function draw(p) {
  drawn.add(p);
  pairs[p].forEach((i, k) => {
    if (i == null) return;
    const part = $(`row${p}`).children[k].lastElementChild;
    part.style.minHeight = "";
    part.innerHTML = body(p, k);
  });
}

function flags(side, i) {
  const text = value(side, "nzcv", i + 1);
  return [..."nzcv"].map((flag, k) => text[k] == "1" ? `<b>${flag.toUpperCase()}</b>` : flag).join("") + (text == value(side, "nzcv", i) ? "" : " new");
}

// What the page's place says of a row: the numbers of its steps.
const numbers = p => pairs[p].map((i, k) => i == null ? "" : sides[k].rows[i].n).join("-");
const text = p => pairs[p].map((i, k) => i == null ? "" : code(sides[k], i).text).find(text => text);
function standing(p) {
  const rows = sides[0].rows;
  if (!two) return `${title}, step ${rows[p].n} of ${rows[0].n} to ${rows.at(-1).n}`;
  return `${title}, row ${p + 1} of ${pairs.length}: ` + pairs[p].map((i, k) => `${i == null ? "no step" : `step ${sides[k].rows[i].n}`} at ${sides[k].vl}`).join(", ");
}

const bar = () => document.querySelector("header").offsetHeight;

// Scrolls so that the current row is seen: a whole one, or its beginning where the window is too low for it. What comes into the window
// is drawn first, and grows.
function keep() {
  for (let again = 0; again < 6; again++) {
    const box = $(`row${now}`).getBoundingClientRect(), top = bar() + 6;
    const bottom = innerHeight - Math.max(8, Math.min(200, innerHeight / 4, innerHeight - top - box.height));
    if (box.top < top || box.height > innerHeight - top - 8) scrollBy({top: box.top - top, behavior: "instant"});
    else if (box.bottom > bottom) scrollBy({top: box.bottom - bottom, behavior: "instant"});
    if (!near()) return;
  }
}

// Draws the rows around the current one as far as the window shows them, and says whether there were any.
function near() {
  let some = false;
  for (const by of [-1, 1]) {
    for (let p = now; p >= 0 && p < pairs.length; p += by) {
      reveal(p);
      const box = $(`row${p}`).getBoundingClientRect();
      if (by < 0 ? box.bottom < 0 : box.top > innerHeight) break;
      if (!drawn.has(p)) { draw(p); some = true; }
    }
  }
  return some;
}

function go(to) {
  to = Math.max(0, Math.min(pairs.length - 1, to));
  if (now >= 0) { $(`row${now}`).classList.remove("now"); $(`row${now}`).removeAttribute("aria-current"); }
  now = to;
  reveal(to);
  if (!drawn.has(to)) draw(to);
  $(`row${to}`).classList.add("now");
  $(`row${to}`).setAttribute("aria-current", "step");
  keep();
  $("slider").value = to;
  $("where").textContent = standing(to);
  document.title = two ? `${title}, row ${to + 1}: ${text(to)}` : `${title}, step ${sides[0].rows[to].n}: ${text(to)}`;
  history.replaceState(null, "", `#${numbers(to)}`);
}

// As many bytes a line as there is room for: a whole vector, or a power of two.
function fit() {
  const sizes = sides.flatMap(side => side.draws).flat().map(([, size]) => size).filter(size => size);
  const least = "bhsd".split("").find(size => sizes.includes(size)), space = document.documentElement.clientWidth;
  const byte = (base == "hex" ? {b: 16.5, h: 16.5, s: 16.5, d: 16} : {b: 28, h: 25, s: 22, d: 20})[least] || 20;
  const stacked = two || innerWidth <= 700, beside = (innerWidth > 1000 ? 18 : 14) * 7.9 + 36;
  const room = Math.max(200, (two && innerWidth > 1000 ? (space - 48) / 2 : space - 28) - (stacked ? 36 : beside));
  lines = sides.map(({vl}) => [vl / 8, 128, 64, 32, 16, 8].find(count => count <= vl / 8 && count * byte <= room) || 8);
  lines.forEach((count, k) => document.body.style.setProperty(`--bytes${k}`, count));
  document.body.style.setProperty("--byte", `${byte}px`);
}

// Draws anew what was drawn, in another form; the current row stays where it is.
function anew() {
  fit();
  drawn.forEach(draw);
  keep();
  const says = {side: document.body.classList.contains("left") ? "lane 0 is left" : "lane 0 is right",
    unchanged: open ? "unchanged: open" : "unchanged: folded", bytes: bytes ? "memory: bytes" : "memory: addresses"};
  for (const id in says) $(id).textContent = says[id];
}
const turn = () => { document.body.classList.toggle("left"); anew(); };
const unfold = () => { open = !open; turned.clear(); anew(); };
const remember = () => { bytes = !bytes; anew(); };

function step(side, i) {
  if (i == null) return `<div class="side none">no step at ${side.vl} bits</div>`;
  const row = side.rows[i], {pc, at, text, alias, to} = code(side, i);
  return `<div class="side"><h2>` + (two ? `<span class="narrow">${side.vl} bits</span>` : "") + `<span class="n">${row.n}</span>` +
    `<span class="pc"${two && at ? " hidden" : ""}>${pc}</span>` + (at ? `<span class="at">${escaped(at)}</span>` : "") +
    `<span class="what">` + (alias ? `<span class="alias">${escaped(alias)}</span>` : "") + `<span class="text">${escaped(text)}</span></span>` +
    (to ? `<span class="to">to ${escaped(to)}</span>` : "") + `<span class="flags">${flags(side, i)}</span></h2>` +
    (row.notes ? `<p class="notes">${row.notes.map(escaped).join("; ")}</p>` : "") +
    `<div class="registers" style="min-height: ${draws(side, i).length ? 20 : 0}px"></div></div>`;
}

// On paper a step has its instruction, what it changed, in small type, and what it loaded and stored; lanes that are alike are counted.
function printed_lanes(side, [name, size], i) {
  const some = lanes(side, name, size, i), predicate = name[0] != "z";
  if (predicate && whole(some)) return `<p>${name}.${size} ${counted(some)}</p>`;
  const groups = [];
  for (const {text, look, changed} of some) {
    const last = groups.at(-1), shown = predicate ? text : base == "hex" ? text.replace(/^0+(?=.)/, "") : number(text);
    if (last && last.shown == shown && last.look == look && last.changed == changed) last.count++;
    else groups.push({shown, look, changed, count: 1});
  }
  if (!document.body.classList.contains("left")) groups.reverse();
  const parts = groups.map(({shown, look, changed, count}) => {
    const text = count > 1 ? `${shown}\u00d7${count}` : shown;
    return changed ? `<b>${text}</b>` : look == "on" ? text : `<u>${text}</u>`;
  });
  return `<p>${name}.${size} ${parts.join(" ")}</p>`;
}
function printed(side, i) {
  if (i == null) return `<div class="side"><i>no step at ${side.vl} bits</i></div>`;
  const row = side.rows[i], {pc, at, text, alias, to} = code(side, i), runs = memory(side, i), shown = draws(side, i).filter(([name]) => changed(side, name, i));
  const stored = runs.filter(({does}) => does == "store").flatMap(({elements}) => elements.map(text => base == "hex" ? text.replace(/^0+(?=.)/, "") : number(text)));
  const ranges = runs.length > 2 ? [`${runs[0].does} ${runs.length} places from <i>0x${runs[0].address}</i>`] :
    runs.map(run => run.count == 1 ? single(run) : range(run));
  return `<div class="side"><i>${row.n}  ${at ? escaped(at) : pc}</i> &nbsp;<b>${escaped(alias || text)}</b>${alias ? ` <i>${escaped(text)}</i>` : ""}` +
    (to ? ` <i>to ${escaped(to)}</i>` : "") + (changed(side, "nzcv", i) ? ` &nbsp;${flags(side, i)}` : "") +
    shown.filter(([, size]) => !size).map(([name]) => ` &nbsp;${name} ${short(value(side, name, i + 1))}`).join("") +
    ranges.map(text => ` &nbsp;${text}`).join("") + (row.notes ? ` &nbsp;<i>${row.notes.map(escaped).join("; ")}</i>` : "") +
    shown.filter(([, size]) => size).map(one => printed_lanes(side, one, i)).join("") +
    (stored.length > runs.length || runs.length > 2 && stored.length ? `<p>stored ${stored.join(" ")}</p>` : "") + `</div>`;
}
addEventListener("beforeprint", () => {
  $("paper").innerHTML = pairs.map(pair => `<div class="line${two ? " both" : ""}">${pair.map((i, k) => printed(sides[k], i)).join("")}</div>`).join("");
});
addEventListener("afterprint", () => { $("paper").innerHTML = ""; keep(); });

if (two) {
  document.body.classList.add("two");
  $("lengths").hidden = false;
  $("lengths").innerHTML = sides.map(({vl}) => `<span>${vl} bits</span>`).join("");
}
$("more").hidden = !data.more.length;
$("more").textContent = data.more.join("; ");
const sections = pairs.map((pair, p) => `<section class="row" id="row${p}">` + pair.map((i, k) => step(sides[k], i)).join("") + `</section>`);
document.querySelector("main").innerHTML = Array.from({length: Math.ceil(sections.length / together)}, (_, k) =>
  `<div class="some">${sections.slice(k * together, (k + 1) * together).join("")}</div>`).join("");

// Rows that are drawn grow: what is looked at stays where it is, the current row if it is in the window.
function looked() {
  const row = $(`row${now}`), box = row.getBoundingClientRect(), top = bar();
  return box.bottom > top && box.top < innerHeight ? row : document.elementFromPoint(60, top + 4)?.closest(".row") || row;
}
function steadily(does) {
  const row = looked(), before = row.getBoundingClientRect().top;
  does();
  scrollBy({top: row.getBoundingClientRect().top - before, behavior: "instant"});
}
const coming = entries => entries.filter(entry => entry.isIntersecting).map(entry => entry.target);
const seen = new IntersectionObserver(entries => {
  const fresh = coming(entries).map(row => Number(row.id.slice(3))).filter(p => !drawn.has(p));
  if (fresh.length) steadily(() => fresh.forEach(draw));
}, {rootMargin: "800px"});
const near_some = new IntersectionObserver(entries => {
  const fresh = coming(entries).filter(some => !some.classList.contains("seen"));
  if (fresh.length) steadily(() => fresh.forEach(some => reveal(Number(some.firstElementChild.id.slice(3)))));
}, {rootMargin: "1600px"});
document.querySelector("main").addEventListener("click", event => {
  const row = event.target.closest(".row"), button = event.target.closest(".chip, .fold"), p = row && Number(row.id.slice(3));
  if (button) {
    const key = `${p} ${[...row.children].indexOf(button.closest(".side"))} ${button.dataset.name}`;
    if (!turned.delete(key)) turned.add(key);
    draw(p);
  } else if (event.target.closest("h2")) go(p);
});
const keys = {ArrowRight: () => now + 1, ArrowDown: () => now + 1, ArrowLeft: () => now - 1, ArrowUp: () => now - 1, PageDown: () => now + 10,
  PageUp: () => now - 10, Home: () => 0, End: () => pairs.length - 1}, letters = {l: turn, u: unfold, m: remember};
// The browser's search finds what is laid out.
const whole_page = () => steadily(() => document.querySelectorAll(".some").forEach(some => reveal(Number(some.firstElementChild.id.slice(3)))));
addEventListener("keydown", event => {
  if ((event.ctrlKey || event.metaKey) && event.key == "f") whole_page();
  if (event.ctrlKey || event.altKey || event.metaKey || event.target.tagName == "SELECT") return;
  if (letters[event.key]) letters[event.key]();
  else if (keys[event.key]) { go(keys[event.key]()); event.preventDefault(); }
});
$("slider").max = pairs.length - 1;
$("slider").oninput = () => go(Number($("slider").value));
for (const [id, key] of [["first", "Home"], ["back", "ArrowLeft"], ["on", "ArrowRight"], ["last", "End"]]) $(id).onclick = () => go(keys[key]());
$("side").onclick = turn;
$("unchanged").onclick = unfold;
$("bytes").onclick = remember;
$("base").onchange = () => { base = $("base").value; anew(); };
addEventListener("resize", anew);
fit();
now = Math.max(0, pairs.findIndex((_, p) => `#${numbers(p)}` == location.hash));
anew();
go(now);
document.querySelectorAll(".some").forEach(some => near_some.observe(some));
document.body.dataset.drawn = Math.round(performance.now());
}
show();
"""
