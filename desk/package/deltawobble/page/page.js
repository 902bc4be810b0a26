"use strict";
(() => {
  const data = JSON.parse(document.getElementById("data").textContent);
  const one = (selector, from) => (from || document).querySelector(selector);
  const all = (selector, from) => [...(from || document).querySelectorAll(selector)];

  // marks that turn the direction of writing, and others that nobody sees, are spelt out
  const UNSEEN = /[\u0000-\u0008\u000B\u000E-\u001F\u007F-\u009F\u061C\u200B\u200E\u200F\u2028-\u202E\u2066-\u2069\uFEFF\uD800-\uDFFF]/gu;
  const visible = (text) => text.replace(UNSEEN, (c) => "\\u" + c.charCodeAt(0).toString(16).toUpperCase().padStart(4, "0"));

  // everything that is said goes in as text
  function make(tag, look, text, into) {
    const made = document.createElement(tag);
    if (look) made.className = look;
    if (text !== undefined) made.textContent = visible(text);
    if (into) into.append(made);
    return made;
  }

  // ---- head: verdict and counts

  function showHead() {
    one("#verdict").textContent = visible(data.refusal ? data.refusal.words : "accepted. " + data.card);
    for (const [name, value, limit] of data.counts) {
      const said = limit === null ? (value === 1 ? name.replace(/s$/, "") : name) : `of ${limit.toLocaleString("en")} ${name}`;
      make("li", "", `${value.toLocaleString("en")} ${said}`, one("#counts"));
    }
  }

  // ---- text

  const words = [];
  function showLines(panel, said, joined) {
    const into = one(".scroll", panel) || make("div", "scroll", undefined, panel);
    said.lines.forEach((pieces, at) => {
      const line = make("div", "line", undefined, into);
      make("span", "head", said.heads[at], line);
      const body = make("span", "said", undefined, line);
      for (const [text, number] of pieces) {
        if (number === undefined) { body.append(visible(text)); continue; }
        const word = make("span", "word", text, body);
        if (said.words[number].fault) word.classList.add("fault");
        if (joined) { word.tabIndex = 0; word.dataset.word = number; words[number] = word; }
      }
    });
    const fault = one(".fault", into);
    if (fault) into.scrollTop = fault.offsetTop - into.clientHeight / 2;
  }

  function showText() {
    const heads = { text: "Text", term: "Term, by nodes", bytes: "Bytes, by offset" };
    one("#text h2").textContent = heads[data.text.kind];
    showLines(one("#text"), data.text, true);
  }

  // ---- marks: what is pointed at, in the text, in the picture and in the waves

  const gateWords = {}, netWords = {}, netGates = {};
  function joinUp() {
    data.text.words.forEach((word, number) => {
      for (const gate of word.gates) (gateWords[gate] = gateWords[gate] || { at: [], way: [] }).at.push(number);
      for (const gate of word.way) (gateWords[gate] = gateWords[gate] || { at: [], way: [] }).way.push(number);
      for (const net of word.nets) (netWords[net] = netWords[net] || []).push(number);
    });
    for (const [first, gate] of Object.entries(data.gates || {})) netGates[gate.net] = first;
  }

  let marked = [], pointed = null;
  function clear() {
    for (const [thing, look] of marked) thing.classList.remove(look);
    marked = [];
  }
  function mark(things, look = "marked") {
    for (const thing of things) if (thing) { thing.classList.add(look); marked.push([thing, look]); }
  }
  const drawn = (selector) => all(selector, one("#picture .view"));
  function markNet(net) {
    mark(drawn(`[data-net="${net}"]`));
    pointed = net;
    showWaves.pointed();
    mark(all(`#waves .names [data-net="${net}"]`));
  }
  function pointAtGate(first) {
    clear();
    mark(drawn(`[data-first="${first}"]`));
    mark(around(first));
    const found = gateWords[first] || { at: [], way: [] };
    mark(found.at.map((n) => words[n]));
    mark(found.way.map((n) => words[n]), "way");
    markNet(data.gates[first].net);
    reveal(words[found.at[0]]);
    say(`${data.gates[first].name}, terminals from ${first}` + (data.gates[first].node === null ? "" : `, node ${data.gates[first].node}`));
  }
  function pointAtNet(net) {
    clear();
    mark((netWords[net] || []).map((n) => words[n]));
    const first = netGates[net];
    if (first !== undefined) {
      mark(drawn(`[data-first="${first}"]`));
      mark(((gateWords[first] || {}).at || []).map((n) => words[n]));
    }
    markNet(net);
    say(`net ${net}`);
  }
  function pointAtWord(number) {
    clear();
    const word = data.text.words[number];
    mark([words[number]]);
    for (const gate of word.gates) { mark(drawn(`[data-first="${gate}"]`)); mark(around(gate)); }
    for (const gate of word.way) { mark(drawn(`[data-first="${gate}"]`), "way"); mark(around(gate)); }
    for (const net of word.nets) markNet(net);
    if (word.gates.length) markNet(data.gates[word.gates[0]].net);
    say(`${words[number].textContent}: ${word.gates.length + word.way.length} gates, ${word.nets.length} wires`);
  }
  // the closed boxes that a gate stands in
  function around(first) {
    return drawn(".box.closed").filter((box) => one(`[data-first="${first}"]`, box) || (insides[box.dataset.box] || new Set()).has(String(first)));
  }
  const insides = {};
  function reveal(word) {
    const panel = word && word.closest(".scroll");
    if (!panel) return;
    const top = word.offsetTop, low = panel.scrollTop, high = low + panel.clientHeight - 24;
    if (top < low || top > high) panel.scrollTop = top - panel.clientHeight / 2;
  }
  function say(text) { one("#said").textContent = visible(text); }

  function listen(kind, handler) { document.addEventListener(kind, handler); }
  function pointing(event) {
    const at = event.target instanceof Element ? event.target : null;
    if (!at) return;
    const gate = at.closest(".gate"), word = at.closest("[data-word]"), net = at.closest(".view [data-net], .names [data-net]");
    if (gate) pointAtGate(gate.dataset.first);
    else if (word) pointAtWord(Number(word.dataset.word));
    else if (net) pointAtNet(Number(net.dataset.net));
  }

  // ---- picture: boxes, zoom and pan

  const whole = one("#whole"), closed = one("#closed");
  const NEAREST = 1.5;
  let shown = whole, view = null;
  function size(svg) { const [, , w, h] = (svg.dataset.size || (svg.dataset.size = svg.getAttribute("viewBox"))).split(" ").map(Number); return { x: 0, y: 0, w, h }; }
  function look(next) { view = next; shown.setAttribute("viewBox", `${next.x} ${next.y} ${next.w} ${next.h}`); }
  function zoom(factor, x = 0.5, y = 0.5) {
    const w = view.w * factor, h = view.h * factor;
    look({ x: view.x + (view.w - w) * x, y: view.y + (view.h - h) * y, w, h });
  }
  function pan(dx, dy) { look({ x: view.x + dx * view.w, y: view.y + dy * view.h, w: view.w, h: view.h }); }
  function show(svg) {
    for (const other of [whole, closed]) if (other) other.toggleAttribute("hidden", other !== svg);
    shown = svg;
    const place = one("#picture .view"), whole_ = size(svg);
    // a small circuit is not blown up
    const w = Math.max(whole_.w, place.clientWidth / NEAREST), h = Math.max(whole_.h, place.clientHeight / NEAREST);
    look({ x: (whole_.w - w) / 2, y: (whole_.h - h) / 2, w, h });
  }
  function setClosed(box, is) {
    box.classList.toggle("closed", is);
    box.classList.toggle("open", !is);
    box.setAttribute("aria-expanded", String(!is));
    // a closed box has its name in the middle, and large
    const title = one(":scope > .title", box), frame = one(":scope > rect", box), at = (name) => Number(frame.getAttribute(name));
    const large = Math.max(9, Math.min(at("width") / (box.dataset.name.length + 2), at("height") / 3, 40));
    const look_ = is ? { x: at("x") + at("width") / 2, y: at("y") + at("height") / 2, "text-anchor": "middle", "font-size": large } : { x: at("x") + 6, y: at("y") + 11, "text-anchor": "start", "font-size": 9 };
    for (const [name, value] of Object.entries(look_)) title.setAttribute(name, value);
  }
  function openBox(box) {
    if (shown === closed) {
      const outer = all(":scope > .box", whole);
      for (const other of outer) setClosed(other, other.dataset.box !== box.dataset.box);
      show(whole);
      const inner = outer.find((other) => other.dataset.box === box.dataset.box);
      const place = one("rect", inner).getBBox();
      const room = Math.max(place.width, place.height) * 0.1;
      look({ x: place.x - room, y: place.y - room, w: place.width + 2 * room, h: place.height + 2 * room });
      inner.focus();
    } else setClosed(box, !box.classList.contains("closed"));
    colour();
  }
  function showPicture() {
    if (!whole) { one("#picture").hidden = true; return; }
    for (const box of all(".box", one(".view"))) {
      box.tabIndex = 0;
      box.setAttribute("role", "button");
      box.setAttribute("aria-label", "box " + box.dataset.name);
      box.setAttribute("aria-expanded", String(!box.classList.contains("closed")));
      insides[box.dataset.box + "/" + box.closest("svg").id] = new Set(all("[data-first]", box).map((g) => g.dataset.first));
    }
    for (const box of closed ? all(":scope > .box", whole) : []) insides[box.dataset.box] = insides[box.dataset.box + "/whole"];
    for (const gate of all(".gate", one(".view"))) {
      gate.tabIndex = 0;
      gate.setAttribute("role", "img");
      gate.setAttribute("aria-label", data.gates[gate.dataset.first].name);
    }
    const tools = one("#picture .tools");
    const button = (name, title, act) => { const made = make("button", "", name, tools); made.type = "button"; made.title = title; made.addEventListener("click", act); };
    button("+", "nearer (+)", () => zoom(0.8));
    button("\u2212", "further (-)", () => zoom(1.25));
    button("fit", "all of it (0)", () => show(shown));
    if (closed) {
      button("open boxes", "all boxes open", () => { all(".box", whole).forEach((box) => setClosed(box, false)); show(whole); colour(); });
      button("close boxes", "all boxes closed", () => { show(closed); colour(); });
    }
    show(closed && data.closed_first ? closed : whole);
    const panel = one("#picture .view");
    panel.addEventListener("wheel", (event) => {
      event.preventDefault();
      const place = panel.getBoundingClientRect();
      zoom(event.deltaY > 0 ? 1.12 : 0.89, (event.clientX - place.left) / place.width, (event.clientY - place.top) / place.height);
    }, { passive: false });
    let grip = null, moved = false;
    panel.addEventListener("pointerdown", (event) => { grip = { x: event.clientX, y: event.clientY, view }; moved = false; });
    panel.addEventListener("pointermove", (event) => {
      if (!grip || !event.buttons) return;
      const place = panel.getBoundingClientRect();
      const scale = Math.max(grip.view.w / place.width, grip.view.h / place.height);
      const dx = (event.clientX - grip.x) * scale, dy = (event.clientY - grip.y) * scale;
      if (Math.abs(event.clientX - grip.x) + Math.abs(event.clientY - grip.y) > 4) moved = true;
      if (moved) look({ x: grip.view.x - dx, y: grip.view.y - dy, w: grip.view.w, h: grip.view.h });
    });
    panel.addEventListener("pointerup", () => { grip = null; });
    panel.addEventListener("click", (event) => {
      const box = event.target.closest(".box");
      if (box && !moved && !event.target.closest(".gate")) openBox(box);
    });
    panel.addEventListener("keydown", (event) => {
      const box = event.target.closest(".box");
      const act = { "+": () => zoom(0.8), "=": () => zoom(0.8), "-": () => zoom(1.25), "0": () => show(shown), ArrowLeft: () => pan(-0.1, 0),
        ArrowRight: () => pan(0.1, 0), ArrowUp: () => pan(0, -0.1), ArrowDown: () => pan(0, 0.1) }[event.key];
      if ((event.key === "Enter" || event.key === " ") && box) openBox(box);
      else if (act) act();
      else return;
      event.preventDefault();
    });
  }

  // ---- the circuit, tick by tick, from the registers' bits that the page holds for every `step` ticks

  const bytesOf = (text) => Uint8Array.from(atob(text), (c) => c.charCodeAt(0));
  const bitOf = (bytes, at) => (bytes[at >> 3] >> (at & 7)) & 1;
  function player(circuit, trace) {
    const bits = new Uint8Array(circuit.size), steps = Int32Array.from(circuit.steps);
    const given = trace.in.map(bytesOf), states = bytesOf(trace.states);
    bits[circuit.one] = 1;
    for (const place of circuit.ones) bits[place] = 1;
    let now = -1;
    const settle = (tick) => {
      for (let i = 0; i < given.length; i++) bits[circuit.inputs[i]] = bitOf(given[i], tick);
      for (let i = 0; i < steps.length; i += 4) {
        const a = bits[steps[i + 1]], b = bits[steps[i + 2]];
        bits[steps[i + 3]] = steps[i] === 0 ? a & b : steps[i] === 1 ? a | b : a ^ b;
      }
      now = tick;
    };
    return (tick) => {
      const count = circuit.registers.length, from = tick - (tick % trace.step);
      if (now < from || now > tick) {
        for (let i = 0; i < count; i++) bits[circuit.registers[i][1]] = bitOf(states, (from / trace.step) * count + i);
        settle(from);
      }
      while (now < tick) {
        const next = circuit.registers.map(([source]) => bits[source]);
        next.forEach((bit, i) => { bits[circuit.registers[i][1]] = bit; });
        settle(now + 1);
      }
      return bits;
    };
  }

  // ---- waves: drawn for the ticks that are seen

  const ROW = 22, RULER = 20;
  const runs = [];
  let run = null, cursor = 0, wide = 12, asked = false;
  let canvas, track, spacer, names;
  function tickCount() { return run ? run.trace.ticks : 0; }
  // the first row is for what is pointed at, where that has no row of its own
  function rows() {
    if (pointed === null || data.waves.some((row) => row.net === pointed)) return [{ name: "", side: "none", net: -1 }, ...data.waves];
    const first = netGates[pointed];
    return [{ name: first === undefined ? `net ${pointed}` : data.gates[first].name, side: "net", net: pointed }, ...data.waves];
  }
  function showWaves() {
    const panel = one("#waves");
    const good = (data.traces || []).filter((trace) => !trace.refusal);
    if (!(data.traces || []).length) { panel.hidden = true; return; }
    for (const trace of data.traces) if (trace.refusal) make("p", "fault", `${trace.name}: ${trace.refusal}`, panel);
    if (!good.length) return;
    for (const trace of good) runs.push({ trace, at: player(data.circuit, trace), shown: { in: trace.in.map(bytesOf), out: trace.out.map(bytesOf) } });
    const tools = one(".tools", panel);
    const pick = make("select", "", undefined, tools);
    pick.setAttribute("aria-label", "trace");
    good.forEach((trace, number) => { const option = make("option", "", trace.name, pick); option.value = number; });
    pick.addEventListener("change", () => { run = runs[Number(pick.value)]; cursor = Math.min(cursor, tickCount() - 1); refresh(); });
    for (const [name, title, factor] of [["\u2212", "narrower ticks", 0.5], ["+", "wider ticks", 2]]) {
      const made = make("button", "", name, tools);
      made.type = "button";
      made.title = title;
      made.addEventListener("click", () => { wide = Math.min(Math.max(wide * factor, 1), 48); refresh(); bring(); });
    }
    const body = one(".body", panel);
    names = make("div", "names", undefined, body);
    track = make("div", "track", undefined, body);
    track.tabIndex = 0;
    track.setAttribute("role", "slider");
    track.setAttribute("aria-label", "tick");
    canvas = make("canvas", "", undefined, track);
    spacer = make("div", "length", undefined, track);
    track.addEventListener("scroll", later);
    const move = (event) => {
      const place = track.getBoundingClientRect();
      setCursor(Math.floor((event.clientX - place.left + track.scrollLeft) / wide));
    };
    track.addEventListener("pointerdown", move);
    track.addEventListener("pointermove", (event) => { if (event.buttons) move(event); });
    track.addEventListener("keydown", (event) => {
      const step = { ArrowLeft: -1, ArrowRight: 1, PageUp: -16, PageDown: 16, Home: -Infinity, End: Infinity }[event.key];
      if (step === undefined) return;
      event.preventDefault();
      setCursor(cursor + step);
      bring();
    });
    window.addEventListener("resize", later);
    for (const query of ["(prefers-color-scheme: dark)", "print"]) window.matchMedia(query).addEventListener("change", later);
    run = runs[0];
    wide = Math.min(Math.max(Math.floor(track.clientWidth / Math.max(tickCount(), 1)), 6), 28);
    refresh();
  }
  showWaves.pointed = () => { if (run) { nameRows(); later(); } };
  function nameRows() {
    const list = rows();
    const wanted = list.map((row) => `${row.name}\n${row.net}`).join("\t");
    if (names.dataset.rows === wanted) return;
    names.dataset.rows = wanted;
    names.replaceChildren();
    make("div", "", `tick ${cursor}`, names);
    for (const row of list) {
      const made = make("div", "", row.name, names);
      if (row.side === "none") continue;
      made.dataset.net = row.net;
      made.tabIndex = 0;
    }
  }
  function setCursor(tick) {
    cursor = Math.min(Math.max(tick, 0), tickCount() - 1);
    colour();
    later();
  }
  function bring() {
    const x = cursor * wide;
    if (x < track.scrollLeft || x > track.scrollLeft + track.clientWidth - wide) track.scrollLeft = x - track.clientWidth / 2;
  }
  function refresh() {
    nameRows();
    spacer.style.width = `${tickCount() * wide}px`;
    track.setAttribute("aria-valuemin", "0");
    track.setAttribute("aria-valuemax", String(tickCount() - 1));
    setCursor(cursor);
  }
  // the wires take the colours of the cursor's tick
  function colour() {
    if (!run || tickCount() === 0) return;
    const bits = run.at(cursor);
    for (const net of drawn(".net")) {
      const bit = bits[Number(net.dataset.net)];
      net.classList.toggle("one", bit === 1);
      net.classList.toggle("zero", bit === 0);
    }
    track.setAttribute("aria-valuenow", String(cursor));
    track.dataset.tick = cursor;
    names.firstChild.textContent = `tick ${cursor}`;
  }
  function later() {
    if (asked) return;
    asked = true;
    requestAnimationFrame(() => { asked = false; paint(); });
  }
  // the bits of all rows from one tick to another: pins as the run showed them, all else from the circuit, gone through once
  function bitsOf(list, first, last) {
    const known = list.map((row) => (row.side === "in" || row.side === "out" ? run.shown[row.side][row.place] : null));
    const found = list.map(() => new Uint8Array(last - first));
    const inner = list.some((row, i) => known[i] === null && row.side !== "none");
    for (let tick = first; tick < last; tick++) {
      const bits = inner ? run.at(tick) : null;
      list.forEach((row, i) => { found[i][tick - first] = known[i] ? bitOf(known[i], tick) : row.side === "none" ? 0 : bits[row.net]; });
    }
    return found;
  }
  function paint() {
    const list = rows(), width = track.clientWidth, height = RULER + ROW * list.length + 2, scale = window.devicePixelRatio || 1;
    canvas.width = width * scale;
    canvas.height = height * scale;
    canvas.style.width = `${width}px`;
    canvas.style.height = `${height}px`;
    const pen = canvas.getContext("2d"), look = getComputedStyle(document.documentElement);
    const ink = look.getPropertyValue("--ink"), soft = look.getPropertyValue("--edge"), warm = look.getPropertyValue("--one"), mark_ = look.getPropertyValue("--mark");
    pen.scale(scale, scale);
    const left = track.scrollLeft, first = Math.max(Math.floor(left / wide), 0), last = Math.min(Math.ceil((left + width) / wide) + 1, tickCount());
    pen.font = "11px Helvetica, Arial, sans-serif";
    pen.fillStyle = ink;
    const every = [1, 2, 5, 10, 20, 50, 100, 200, 500].find((n) => n * wide >= 40) || 1000;
    for (let tick = Math.ceil(first / every) * every; tick < last; tick += every) {
      pen.fillText(String(tick), tick * wide - left + 2, 12);
      pen.fillStyle = soft;
      pen.fillRect(tick * wide - left, RULER, 1, height - RULER);
      pen.fillStyle = ink;
    }
    pen.fillStyle = mark_;
    pen.globalAlpha = 0.45;
    pen.fillRect(cursor * wide - left, 0, Math.max(wide, 2), height);
    pen.globalAlpha = 1;
    const seen = bitsOf(list, first, last);
    list.forEach((row, number) => {
      if (row.side === "none") return;
      const bits = seen[number], low = RULER + ROW * (number + 1) - 5, high = RULER + ROW * number + 4;
      pen.strokeStyle = row.net === pointed ? warm : ink;
      pen.lineWidth = row.net === pointed ? 4 : 2;
      pen.beginPath();
      for (let tick = first; tick < last; tick++) {
        const y = bits[tick - first] ? high : low;
        pen.lineTo(tick * wide - left, y);
        pen.lineTo((tick + 1) * wide - left, y);
      }
      pen.stroke();
    });
    document.body.dataset.painted = `${first}-${last}`;
  }

  // ---- the rest

  function showRefusal() {
    if (!data.refusal) { one("#refusal").hidden = true; return; }
    make("pre", "", data.refusal.lines.join("\n"), one("#refusal"));
    if (data.refusal.tree) { make("h2", "", "Term, by nodes", one("#refusal")); showLines(make("div", "tree", undefined, one("#refusal")), data.refusal.tree, false); }
  }
  function showMore() {
    const panel = one("#more");
    if (!data.verilog) panel.hidden = true;
    else {
      const more = make("details", "", undefined, panel);
      make("summary", "", "Verilog", more);
      make("pre", "", data.verilog, more);
    }
  }

  joinUp();
  showHead();
  showText();
  showPicture();
  showMore();
  showRefusal();
  showWaves();
  listen("mouseover", pointing);
  listen("focusin", pointing);
  document.body.dataset.ready = "yes";
})();
