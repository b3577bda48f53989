/* What a page does: it takes files, has the checker run in a worker, tells how far it is and what came of it, and shows
   the puzzle and the arrangements. It asks nothing of any network. A page that publishes a list has texts in it, which
   are taken at first, and tells where each text is and its SHA-256. */

"use strict";

(function () {
  const NAMES = ["puzzle", "list", "certificate"];
  const FIRST_WORDS = { match: "puzzle", list: "list", certificate: "certificate" };
  const PICTURES_AT_ONCE = 24;

  const element = (id) => document.getElementById(id);
  const grouped = (number) => String(number).replace(/\B(?=(\d{3})+$)/g, ",");
  const many = (number, word) => `${grouped(number)} ${word}${number === 1 ? "" : "s"}`;
  const latin = (bytes) => new TextDecoder("latin1").decode(bytes);
  const say = (line) => (element("status").textContent = line);

  // ---- The three texts

  const texts = {}; // by name: { source, from, isInside }, where the source is a file or bytes
  const told = {}; // by name, what the page itself says of the text: { from, digest }, or nothing

  const bytesIn = async (source) => (source instanceof Blob ? new Uint8Array(await source.arrayBuffer()) : source);
  const sizeOf = (source) => (source instanceof Blob ? source.size : source.length);
  const nameOf = (bytes) => FIRST_WORDS[latin(bytes.subarray(0, 16)).split(/[ \r\n]/)[0]];
  const missing = () => NAMES.filter((name) => !texts[name]);

  // Notes what the page says of each text, and takes those that are in it.
  function takeInside() {
    for (const name of NAMES) {
      told[name] = { from: element(`${name}-from`).textContent, digest: element(`${name}-digest`).textContent };
      const inside = element(`${name}-inside`);
      if (inside === null) continue;
      element(`${name}-save`).addEventListener("click", () => save(name));
      if (inside.textContent !== "") {
        texts[name] = { source: new TextEncoder().encode(inside.textContent), from: "this page", isInside: true };
      }
    }
  }

  function save(name) {
    const address = URL.createObjectURL(new Blob([texts[name].source], { type: "application/octet-stream" }));
    const link = document.createElement("a");
    link.href = address;
    link.download = name;
    link.click();
    setTimeout(() => URL.revokeObjectURL(address), 60000);
  }

  // What a file has, by the first word of its text: the names of one text, or of three that stand there joined.
  async function take(file) {
    const name = nameOf(await bytesIn(file.slice(0, 16)));
    if (!name) return [];
    const parts = name === "puzzle" ? edgematchCut(await bytesIn(file)) : [];
    if (parts.length === 3 && parts.every((it, i) => nameOf(it) === NAMES[i])) {
      parts.forEach((it, i) => (texts[NAMES[i]] = { source: it.slice(), from: file.name }));
      return NAMES;
    }
    texts[name] = { source: file, from: file.name };
    return [name];
  }

  // Takes all files of one choice. Of two that have the same text the last counts, and it is said.
  async function takeAll(files) {
    if (worker !== null || files.length === 0) return;
    const said = [], taken = new Set();
    for (const file of files) {
      try {
        const names = await take(file);
        if (names.length === 0) said.push(`${file.name} begins with none of the words match, list and certificate.`);
        for (const name of names) {
          if (taken.has(name)) said.push(`There were two files with a ${name}: ${file.name} counts.`);
          taken.add(name);
        }
      } catch (why) {
        said.push(`${file.name} can’t be read (${why.message}).`);
      }
    }
    forget();
    say([...said, ready()].join(" "));
  }

  function ready() {
    const absent = missing();
    if (absent.length === 0) return "All three texts are here.";
    const last = `the ${absent.pop()}`;
    return `Still wanted: ${absent.map((name) => `the ${name}`).join(", ")}${absent.length > 0 ? " and " : ""}${last}.`;
  }

  // An answer is of the texts that were checked: it goes where others come.
  function forget() {
    for (const id of ["answer", "checked", "pictures"]) element(id).hidden = true;
    for (const name of NAMES) element(`${name}-digest`).textContent = told[name].digest;
    for (const id of ["sheet", "large", "facts"]) element(id).replaceChildren();
    if (printed !== null) printed.hidden = false;
    showTexts();
    showInside();
  }

  function showTexts() {
    for (const name of NAMES) {
      const text = texts[name], here = text && `${text.from}, ${many(sizeOf(text.source), "byte")}`;
      element(`${name}-from`).textContent = here ?? (told[name].from || "not here yet");
      if (printed !== null) element(`${name}-save`).hidden = !text;
    }
    element("check").disabled = missing().length > 0 || worker !== null;
    element("files").disabled = worker !== null;
  }

  // ---- The check, in a worker

  let worker = null, quarter = 0;

  // Runs in the worker, behind the text of the checker: it sends how far the check is, and in the end the answer and
  // the SHA-256 of each text.
  function work() {
    const [ROUNDS, START] = (() => {
      const primes = [];
      for (let n = 2; primes.length < 64; n++) if (primes.every((it) => n % it !== 0)) primes.push(n);
      const bits = (root) => Math.floor((root - Math.floor(root)) * 4294967296);
      return [primes.map((it) => bits(Math.cbrt(it))), primes.slice(0, 8).map((it) => bits(Math.sqrt(it)))];
    })();

    // The SHA-256 of bytes, as FIPS 180-4 has it.
    function sha256(bytes) {
      const whole = bytes.length - (bytes.length % 64), rest = new Uint8Array(bytes.length % 64 < 56 ? 64 : 128);
      rest.set(bytes.subarray(whole));
      rest[bytes.length % 64] = 128;
      const lengths = new DataView(rest.buffer, rest.length - 8);
      lengths.setUint32(0, Math.floor(bytes.length / 536870912));
      lengths.setUint32(4, (bytes.length * 8) % 4294967296);
      const hash = Int32Array.from(START), words = new Int32Array(64), rounds = Int32Array.from(ROUNDS);
      const mix = (from, at) => {
        for (let i = 0; i < 16; i++, at += 4) {
          words[i] = (from[at] << 24) | (from[at + 1] << 16) | (from[at + 2] << 8) | from[at + 3];
        }
        for (let i = 16; i < 64; i++) {
          const x = words[i - 15], y = words[i - 2];
          const s = ((x >>> 7) | (x << 25)) ^ ((x >>> 18) | (x << 14)) ^ (x >>> 3);
          const t = ((y >>> 17) | (y << 15)) ^ ((y >>> 19) | (y << 13)) ^ (y >>> 10);
          words[i] = (words[i - 16] + s + words[i - 7] + t) | 0;
        }
        let [a, b, c, d, e, f, g, h] = hash;
        for (let i = 0; i < 64; i++) {
          const s = ((e >>> 6) | (e << 26)) ^ ((e >>> 11) | (e << 21)) ^ ((e >>> 25) | (e << 7));
          const one = (h + s + ((e & f) ^ (~e & g)) + rounds[i] + words[i]) | 0;
          const t = ((a >>> 2) | (a << 30)) ^ ((a >>> 13) | (a << 19)) ^ ((a >>> 22) | (a << 10));
          const other = (t + ((a & b) ^ (a & c) ^ (b & c))) | 0;
          h = g;
          g = f;
          f = e;
          e = (d + one) | 0;
          d = c;
          c = b;
          b = a;
          a = (one + other) | 0;
        }
        [a, b, c, d, e, f, g, h].forEach((it, i) => (hash[i] += it));
      };
      for (let at = 0; at < whole; at += 64) mix(bytes, at);
      for (let at = 0; at < rest.length; at += 64) mix(rest, at);
      return Array.from(hash, (it) => (it >>> 0).toString(16).padStart(8, "0")).join("");
    }

    self.onmessage = async ({ data }) => {
      try {
        const begun = Date.now(), all = [];
        for (const it of data) all.push(it instanceof Blob ? new Uint8Array(await it.arrayBuffer()) : it);
        const answer = edgematchCheck(...all, (done, whole) => self.postMessage({ done, whole }));
        const seconds = (Date.now() - begun) / 1000;
        self.postMessage({ answer, seconds, digests: all.map(sha256) });
      } catch (why) {
        self.postMessage({ failed: String(why) });
      }
    };
  }

  function check() {
    if (worker !== null || missing().length > 0) return;
    const source = `${element("checker").textContent}\n(${work})();`;
    const address = URL.createObjectURL(new Blob([source], { type: "text/javascript" }));
    try {
      worker = new Worker(address);
    } catch (why) {
      fail(why.message);
      return;
    }
    worker.onmessage = ({ data }) => hear(data);
    worker.onerror = (event) => fail(event.message || "a worker can’t be started");
    worker.postMessage(NAMES.map((name) => texts[name].source));
    quarter = 0;
    element("answer").hidden = true;
    showTexts();
    element("bar").value = 0;
    element("bar").hidden = false;
    element("stop").hidden = false;
    element("stop").focus();
    say("Checking. 0 %");
  }

  function rest() {
    if (worker !== null) worker.terminate();
    worker = null;
    element("bar").hidden = true;
    element("stop").hidden = true;
    showTexts();
    element("check").focus();
  }

  function fail(why) {
    rest();
    say(`This browser could not do the check (${why}). The texts may be too large for it.`);
  }

  function hear({ done, whole, answer, seconds, digests, failed }) {
    if (failed !== undefined) fail(failed);
    else if (answer !== undefined) tell(answer, seconds, digests);
    else {
      element("bar").value = whole > 0 ? done / whole : 1;
      // Who hears the page is told four times, and not of each step.
      const now = Math.floor((4 * done) / Math.max(whole, 1));
      if (now > quarter && now < 4) say(`Checking. ${25 * now} %`);
      quarter = Math.max(quarter, now);
    }
  }

  function tell(answer, seconds, digests) {
    rest();
    element("answer").dataset.kind = ["complete", "refused", "fault"][answer.status];
    element("answer-line").textContent = answer.line;
    element("answer-words").textContent = [inWords(answer), ...aboutDigests(digests)].join(" ");
    element("answer").hidden = false;
    NAMES.forEach((name, i) => (element(`${name}-digest`).textContent = digests[i]));
    say(seconds < 0.1 ? "Checked in less than 0.1 seconds." : `Checked in ${seconds.toFixed(1)} seconds.`);
    if (answer.status < 2) showChecked(answer.status === 0);
  }

  // What a refusal means, as docs/FORMATS.md has it. The line itself says what exactly, and where.
  function refusalInWords(line) {
    const [, kind, number] = line.split(" ");
    if (kind === "list") return `Arrangement ${number} of the list is no arrangement of the puzzle.`;
    if (kind === "repeated") return `Arrangement ${number} of the list stands there before.`;
    const fault = {
      symmetry: `its symmetry ${number} is none of the puzzle`,
      prefix: `its lemma ${number} begins with tiles that can’t stand there`,
      root: "it has no last lemma about the empty board",
      tree: `its lemma ${number} says what isn’t so`,
    }[kind];
    return `The certificate doesn’t show that the list is complete: ${fault}. The list may be complete all the same.`;
  }

  function inWords({ status, line, symmetries }) {
    if (status === 2) return "The texts aren’t a puzzle, a list and a certificate. The first fault is named above.";
    if (status === 1) return `${refusalInWords(line)} “edgematch explain” says more of it.`;
    const number = Number(line.split(" ")[1]), one = number === 1;
    if (number === 0) return "Nothing is listed, and that is right: the puzzle has no arrangement.";
    const listed = one ? "The listed arrangement is right" : `All ${grouped(number)} listed arrangements are right`;
    if (symmetries === 0) return `${listed}, and there is no other.`;
    return `${listed}, and there are no others but images of ${one ? "it" : "these"}, under the `
      + `${symmetries === 1 ? "symmetry" : `${grouped(symmetries)} symmetries`} that the certificate names.`;
  }

  // Whether what was checked is what the page tells of, where it tells of texts.
  function aboutDigests(digests) {
    if (NAMES.every((name) => told[name].digest === "")) return [];
    const others = NAMES.filter((name, i) => told[name].digest !== digests[i]);
    if (others.length === 0) return ["The three texts have the SHA-256 that this page tells."];
    return [`But what was checked is not what this page publishes: the SHA-256 of the ${others.join(" and of the ")} `
      + "is another."];
  }

  // ---- What is shown

  const printed = element("printed"); // pictures that the page has already, if it has some
  let puzzle = null, list = null, starts = [];

  // The pictures of the puzzle and the list that are in the page, in place of its own. Where they can't be drawn, these
  // stay: a check says what is wrong.
  function showInside() {
    if (!["puzzle", "list"].every((name) => texts[name]?.isInside)) return;
    try {
      puzzle = edgematchPuzzle(texts.puzzle.source);
      list = texts.list.source;
      showPictures();
    } catch (why) {
      element("pictures").hidden = true;
      printed.hidden = false;
    }
  }

  // The puzzle of a check, and where the list was called complete its pictures.
  async function showChecked(isComplete) {
    const sources = NAMES.map((name) => texts[name].source);
    const [puzzleBytes, listBytes] = [await bytesIn(sources[0]), await bytesIn(sources[1])];
    if (sources.some((it, i) => texts[NAMES[i]].source !== it)) return; // others were chosen meanwhile
    puzzle = edgematchPuzzle(puzzleBytes);
    list = listBytes;
    element("facts").replaceChildren(...factsOf(puzzle).map(factRow));
    element("puzzle-text").textContent = latin(puzzleBytes);
    element("checked").hidden = false;
    if (isComplete && element("pictures").hidden) showPictures();
  }

  function showPictures() {
    starts = linesOf(list);
    if (starts.length < (printed === null ? 1 : 2)) return; // a page that publishes a list has the first picture
    element("number").max = starts.length - 1;
    element("number").value = 0;
    element("pictures").hidden = false;
    element("several").hidden = starts.length === 1;
    if (printed === null) showLarge(0);
    else printed.hidden = true;
    more();
  }

  function factsOf({ drawn, cells, tiles, turns, colours, asked, meets, mate, sides }) {
    const { kind, width, height } = drawn, own = Array.from(mate).every((it, colour) => it === colour);
    const board = {
      rect: `a rectangle, ${many(width, "column")} and ${many(height, "row")} of squares`,
      triangle: `a triangle of triangles, ${width} at each side`,
      hexagon: `a hexagon of triangles, ${width} at each side`,
      shape: `squares of a rectangle of ${many(width, "column")} and ${many(height, "row")}`,
    };
    let outer = 0, askedOuter = 0, askedInner = 0;
    for (let c = 0; c < cells; c++) {
      for (let k = 0; k < sides; k++) {
        const isOuter = meets[c * 4 + k] < 0, isAsked = asked[c * 4 + k] < 36;
        outer += isOuter;
        askedOuter += isOuter && isAsked;
        askedInner += !isOuter && isAsked;
      }
    }
    return [
      ["Board", board[kind]],
      ["Cells", grouped(cells)],
      ["Tiles", grouped(tiles) + (tiles > cells ? `, of which ${grouped(tiles - cells)} are left over` : "")],
      ["Tiles may be turned", turns ? "yes" : "no"],
      ["Colours", grouped(colours)],
      ["Where sides meet", own ? "equal colours" : "a colour and its mate"],
      ["Outer sides", `${grouped(outer)}; ${asking(askedOuter, outer)} to show a certain colour`],
      ...(askedInner > 0 ? [["Other sides with a clue", grouped(askedInner)]] : []),
    ];
  }

  const asking = (some, all) => (some === 0 ? "none has" : some === all ? "each has" : `${grouped(some)} of them have`);

  function factRow([name, value]) {
    const row = document.createElement("tr"), head = document.createElement("th"), cell = document.createElement("td");
    head.scope = "row";
    head.textContent = name;
    cell.textContent = value;
    row.append(head, cell);
    return row;
  }

  // Where each arrangement's line begins in a list.
  function linesOf(bytes) {
    const found = [];
    let at = bytes.indexOf(10, bytes.indexOf(10) + 1) + 1;
    for (let end; (end = bytes.indexOf(10, at)) >= 0 && bytes[at] !== 101; at = end + 1) found.push(at);
    return found;
  }

  function picture(number, large) {
    const line = latin(list.subarray(starts[number], list.indexOf(10, starts[number])));
    const text = edgematchPicture(puzzle, line, number, large, puzzle.tiles > puzzle.cells);
    return document.importNode(new DOMParser().parseFromString(text, "image/svg+xml").documentElement, true);
  }

  function showLarge(number) {
    element("large").replaceChildren(picture(number, true));
    const spare = puzzle.tiles - puzzle.cells, be = spare === 1 ? "is" : "are";
    const below = spare === 1 ? "is the tile" : `are the ${grouped(spare)} tiles`;
    const name = `Arrangement ${grouped(number)}`;
    element("large-name").textContent = spare > 0 ? `${name}. Below it ${below} that ${be} left over.` : name;
  }

  function figureOf(number) {
    const figure = document.createElement("figure"), caption = document.createElement("figcaption");
    caption.textContent = grouped(number);
    figure.append(picture(number, false), caption);
    return figure;
  }

  // Shows some more pictures behind those that stand there.
  function more() {
    const sheet = element("sheet"), begin = sheet.children.length;
    const end = Math.min(begin + PICTURES_AT_ONCE, starts.length);
    for (let number = begin; number < end; number++) sheet.append(figureOf(number));
    element("shown").textContent = end === starts.length
      ? `All ${grouped(end)} are shown.`
      : `The first ${grouped(end)} of ${grouped(starts.length)} are shown.`;
    element("more").hidden = end === starts.length;
    element("more").textContent = `Show ${Math.min(PICTURES_AT_ONCE, starts.length - end)} more`;
  }

  function showChosen() {
    const { value } = element("number"), number = Number(value);
    if (!/^\d+$/.test(value) || number >= starts.length) {
      say(`There is no arrangement ${value}: they have the numbers 0 to ${grouped(starts.length - 1)}.`);
      return;
    }
    showLarge(number);
    element("large").scrollIntoView({ block: "nearest" });
    say(`Arrangement ${grouped(number)} is shown.`);
  }

  // ---- What the reader does

  element("check").addEventListener("click", check);
  element("stop").addEventListener("click", () => {
    rest();
    say("Stopped: nothing was found out.");
  });
  element("files").addEventListener("change", (event) => takeAll([...event.target.files]));
  element("more").addEventListener("click", () => {
    more();
    say(element("shown").textContent);
  });
  element("choice").addEventListener("submit", (event) => {
    event.preventDefault();
    showChosen();
  });
  const over = (isOver) => document.body.classList.toggle("over", isOver);
  addEventListener("dragover", (event) => {
    event.preventDefault();
    over(true);
  });
  addEventListener("dragleave", (event) => {
    if (event.relatedTarget === null) over(false);
  });
  addEventListener("drop", (event) => {
    event.preventDefault();
    over(false);
    takeAll([...event.dataTransfer.files]);
  });
  document.body.classList.add("scripted");
  takeInside();
  showTexts();
  showInside();
  say(ready());
})();
