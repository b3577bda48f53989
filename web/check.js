/* A second checker of edgematch's three texts: a puzzle, a list of its arrangements, and a certificate that there is no
   other. It is a second opinion: plain JavaScript, for node, a browser and its workers, without any library.

     edgematchCheck(puzzle, list, certificate, tell)   takes the bytes of each (Uint8Array)

   gives { line, status }: the line that `edgematch check` prints, and its exit status, which is 0 for `complete N`, 1
   for `refused ..`, and 2 for a fault of a text. tell(done, total), where it is given, is called now and then.

   It was written from docs/FORMATS.md, which says what each text and each answer means, and from the definitions that
   docs/THEOREM.md quotes. It shares nothing with the crates, whose checker is proved. Nothing here is proved.

   How to read it. It goes from top to bottom, as a check does:

     Lines and words    how a text is read, and its faults
     Boards             which side of which cell meets which
     Puzzles            what is asked of a side, what a tile shows
     Lists              whether each listed arrangement is one, and none comes twice
     Certificates       the text alone: symmetries, prefixes, where each tree begins
     Symmetries         whether each line takes the puzzle to itself
     Prefixes           whether each lemma begins with tiles that may be placed
     Trees              whether each node says what holds
     The answer         all of these in their order, since only the first fault is told

   Numbers that belong together are kept as one:

     a side             4 cell + side
     a placement        4 tile + turn
     a pair             1024 cell + placement */

"use strict";

(function (global) {
  const LF = 10, SPACE = 32, DASH = 45, DOT = 46, ZERO = 48, COLON = 58, HASH = 35;
  const MOST_BYTES = 1073741824, MOST_COLOURS = 36, MOST_LENGTH = 100, MOST_PLACES = 1024;
  const MOST_ARRANGEMENTS = 1000000, MOST_LEMMAS = 1000000, MOST_SYMMETRIES = 1024;

  // What a text of each version may have. Only a puzzle has version 3, with the numbers of version 2.
  const SMALL = { cells: 100, asked: 400, children: 400, levels: 101 };
  const LARGE = { cells: 256, asked: 1024, children: 1024, levels: 257 };
  const LIMITS = { 1: SMALL, 2: LARGE, 3: LARGE };

  // What a side has to show is a colour, 0 to 35, or one of these.
  const NOTHING_SHOWS = 36; // two colours are wanted, so that no tile fits
  const ANY = 37;
  const WANTS = 38;

  // A fault of a text: the check ends there.
  class Fault extends Error {}

  // ---- Lines and words

  // Reads a text line by line, and a line word by word. `end` is where the LF of the line stands. `at` is where the
  // next word begins; it is past `end` where the line has no more words.
  class Text {
    constructor(name, bytes) {
      Object.assign(this, { name, bytes, line: 0, at: 0, end: -1 });
    }

    fault(kind) {
      return new Fault(`${this.name}: line ${this.line}: ${kind}`);
    }

    // Goes to the next line. That it has no LF is found before all else in it.
    nextLine() {
      this.at = this.end + 1;
      this.line++;
      this.end = this.bytes.indexOf(LF, this.at);
      if (this.end < 0) throw this.fault("ends");
    }

    // Takes the next word: where it ends.
    word() {
      if (this.at > this.end) throw this.fault("word");
      let stop = this.at;
      while (this.bytes[stop] !== SPACE && stop !== this.end) stop++;
      this.at = stop + 1;
      return stop;
    }

    // The bytes of the next word, which is taken.
    wordBytes() {
      const from = this.at;
      return this.bytes.subarray(from, this.word());
    }

    // Whether the next word is this one; it isn't taken.
    sees(word) {
      const { at, bytes, end } = this, stop = at + word.length;
      if (stop > end || (stop !== end && bytes[stop] !== SPACE)) return false;
      for (let i = 0; i < word.length; i++) if (bytes[at + i] !== word.charCodeAt(i)) return false;
      return true;
    }

    // Takes the next word, which has to be one of these.
    take(...words) {
      const seen = words.find((it) => this.sees(it));
      if (seen === undefined) throw this.fault("word");
      this.at += seen.length + 1;
      return seen;
    }

    // Takes the next word, a number from `least` to `most`.
    number(least, most) {
      if (this.at > this.end) throw this.fault("word");
      const { at, bytes, end } = this;
      let stop = at, value = 0;
      for (let digit = bytes[stop] - ZERO; digit >= 0 && digit <= 9; digit = bytes[++stop] - ZERO) {
        if (value < 10000000) value = value * 10 + digit; // past that it is over each limit, whatever follows
      }
      const isWord = stop > at && (stop === end || bytes[stop] === SPACE);
      if (!isWord || (bytes[at] === ZERO && stop > at + 1)) throw this.fault("number");
      if (value < least || value > most) throw this.fault("limit");
      this.at = stop + 1;
      return value;
    }

    // The number in a part of a word.
    numberIn(from, to, most) {
      if (from === to || (this.bytes[from] === ZERO && to > from + 1)) throw this.fault("number");
      let value = 0;
      for (let i = from; i < to; i++) {
        const digit = this.bytes[i] - ZERO;
        if (digit < 0 || digit > 9) throw this.fault("number");
        if (value < 10000000) value = value * 10 + digit;
      }
      if (value > most) throw this.fault("limit");
      return value;
    }

    // Where a character stands in a part of a word, which has to have it.
    find(character, from, to) {
      for (let i = from; i < to; i++) if (this.bytes[i] === character) return i;
      throw this.fault("word");
    }

    placementIn(from, dot, to, cells) {
      const tile = this.numberIn(from, dot, cells - 1);
      return tile * 4 + this.numberIn(dot + 1, to, 3);
    }

    // Takes `T.R`. What isn't written as it has to be is looked at once more, for its fault.
    placement(cells) {
      const { at, bytes } = this;
      let dot = at, tile = 0;
      for (let digit = bytes[dot] - ZERO; digit >= 0 && digit <= 9 && tile < cells; digit = bytes[++dot] - ZERO) {
        tile = tile * 10 + digit;
      }
      const turn = bytes[dot + 1] - ZERO, behind = bytes[dot + 2];
      const isTile = bytes[dot] === DOT && dot > at && (bytes[at] !== ZERO || dot === at + 1) && tile < cells;
      const isTurn = turn >= 0 && turn <= 3 && (behind === SPACE || behind === LF);
      if (isTile && isTurn) {
        this.at = dot + 3;
        return tile * 4 + turn;
      }
      const to = this.word();
      return this.placementIn(at, this.find(DOT, at, to), to, cells);
    }

    // Takes `C:T.R`.
    pair(cells) {
      const from = this.at, to = this.word();
      const colon = this.find(COLON, from, to), dot = this.find(DOT, colon + 1, to);
      return this.numberIn(from, colon, cells - 1) * 1024 + this.placementIn(colon + 1, dot, to, cells);
    }

    // Takes a word of one colour.
    colour() {
      const word = this.wordBytes();
      if (word.length !== 1 || colourOf(word[0]) < 0) throw this.fault("word");
      return colourOf(word[0]);
    }

    // Takes a word of three or four characters, one for each side; what each is, is -1 where it may not stand there.
    sides(meaning) {
      const word = Array.from(this.wordBytes(), meaning);
      if (word.length < 3 || word.length > 4 || word.includes(-1)) throw this.fault("word");
      return word;
    }

    // Takes entries up to a word, or up to the end of the line, where no word is given: at most `most` of them.
    entries(before, most, entry) {
      const entries = [];
      while (this.at <= this.end && !(before && this.sees(before))) {
        if (entries.length === most) throw this.fault("limit");
        entries.push(entry());
      }
      if (before) this.take(before);
      return entries;
    }

    lineDone() {
      if (this.at <= this.end) throw this.fault("word");
    }

    // The first line: what the text is, and its version.
    version(what, versions) {
      this.nextLine();
      this.take(what);
      if (this.at > this.end) throw this.fault("word");
      const version = versions.find((it) => this.sees(it));
      if (version === undefined) throw this.fault("version");
      this.take(version);
      this.lineDone();
      return version;
    }

    // A line of a word and a number.
    counted(what, least, most) {
      this.nextLine();
      this.take(what);
      const value = this.number(least, most);
      this.lineDone();
      return value;
    }

    // The line `end`, with nothing after it.
    close() {
      this.nextLine();
      this.take("end");
      this.lineDone();
      this.line++;
      if (this.end + 1 < this.bytes.length) throw this.fault("after");
    }
  }

  // The colour of a character, or -1.
  function colourOf(byte) {
    if (byte >= 48 && byte <= 57) return byte - 48;
    return byte >= 97 && byte <= 122 ? byte - 87 : -1;
  }

  // What a character asks of a side, or -1.
  const askedBy = (byte) => (byte === DASH ? ANY : colourOf(byte));

  // ---- Boards

  // A board is { cells, sides, meets }: how many cells, how many sides a cell has, and for each side (4 cell + side)
  // the side that it meets, or -1 where it is an outer one.

  // Rows of squares; a row says of each place whether there is a cell. Side 0 is north, then clockwise.
  function squares(rows) {
    let cells = 0;
    const numbers = rows.map((row) => row.map((filled) => (filled ? cells++ : -1)));
    const meets = new Int32Array(cells * 4).fill(-1);
    const join = (cell, side, other, otherSide) => {
      if (cell < 0 || other < 0) return;
      meets[cell * 4 + side] = other * 4 + otherSide;
      meets[other * 4 + otherSide] = cell * 4 + side;
    };
    for (let y = 0; y < rows.length; y++) {
      for (let x = 0; x < rows[y].length; x++) {
        if (x + 1 < rows[y].length) join(numbers[y][x], 1, numbers[y][x + 1], 3); // east against west
        if (y + 1 < rows.length) join(numbers[y][x], 2, numbers[y + 1][x], 0); // south against north
      }
    }
    return { cells, sides: 4, meets };
  }

  // Rows of triangles. A row is { length, firstUp, below }: how many it has, whether its first points up, and how many
  // places further right in the next row the cell stands that lies below one that points up. Sides that meet have the
  // same number: 0 to the right of a cell that points up, 2 to the right of one that points down, 1 in between rows.
  function triangles(rows) {
    let cells = 0;
    const starts = rows.map((row) => (cells += row.length) - row.length);
    const meets = new Int32Array(cells * 4).fill(-1);
    const join = (cell, other, side) => {
      meets[cell * 4 + side] = other * 4 + side;
      meets[other * 4 + side] = cell * 4 + side;
    };
    rows.forEach(({ length, firstUp, below }, y) => {
      for (let x = 0; x < length; x++) {
        const up = (x % 2 === 0) === firstUp, cell = starts[y] + x;
        if (x + 1 < length) join(cell, cell + 1, up ? 0 : 2);
        if (up && y + 1 < rows.length) join(cell, starts[y + 1] + x + below, 1);
      }
    });
    return { cells, sides: 3, meets };
  }

  // The rows of a hexagon with `size` cells at each side: they grow to the middle, and shrink again.
  function hexagonRows(size) {
    return Array.from({ length: 2 * size }, (_, y) => {
      const upper = y < size, length = 2 * size + 1 + 2 * Math.min(y, 2 * size - 1 - y);
      return { length, firstUp: upper, below: !upper ? -1 : y + 1 < size ? 1 : 0 };
    });
  }

  function boardOf({ kind, width, height, rows }) {
    const cells = { rect: width * height, triangle: width * width, hexagon: 6 * width * width,
      shape: rows.flat().filter(Boolean).length }[kind];
    if (cells === 0) throw new Fault("puzzle: board empty");
    if (kind === "shape" ? width * height > MOST_PLACES || cells > LARGE.cells : cells > SMALL.cells) {
      throw new Fault("puzzle: board too-large");
    }
    if (kind === "shape") return squares(rows);
    if (kind === "rect") return squares(Array.from({ length: height }, () => new Array(width).fill(true)));
    if (kind === "hexagon") return triangles(hexagonRows(width));
    return triangles(Array.from({ length: width }, (_, y) => ({ length: 2 * y + 1, firstUp: true, below: 1 })));
  }

  // ---- Puzzles

  function readPuzzle(bytes) {
    const text = new Text("puzzle", bytes);
    const version = text.version("match", ["1", "2", "3"]), limits = LIMITS[version];
    const said = { version, board: readBoard(text, version) };
    text.nextLine();
    text.take("turns");
    said.turns = text.take("yes", "no") === "yes";
    text.lineDone();
    said.border = readBorder(text, limits.asked);
    said.mates = version === "1" ? [] : readMates(text);
    said.clues = version === "3" ? readClues(text) : [];
    const count = text.counted("tiles", 1, limits.cells);
    said.words = [];
    for (let i = 0; i < count; i++) {
      text.nextLine();
      text.take("tile");
      said.words.push(text.sides(colourOf));
      text.lineDone();
    }
    text.close();
    return puzzleOf(said);
  }

  function readBoard(text, version) {
    text.nextLine();
    text.take("board");
    const kind = text.take("rect", "triangle", "hexagon", ...(version === "1" ? [] : ["shape"]));
    const [least, most] = kind === "shape" ? [1, MOST_PLACES] : [0, MOST_LENGTH];
    const width = text.number(least, most);
    const height = kind === "rect" || kind === "shape" ? text.number(least, most) : width;
    text.lineDone();
    const rows = [];
    for (let y = 0; kind === "shape" && y < height; y++) {
      text.nextLine();
      text.take("row");
      const row = text.wordBytes();
      if (row.length !== width || !row.every((it) => it === HASH || it === DOT)) throw text.fault("word");
      text.lineDone();
      rows.push(Array.from(row, (it) => it === HASH));
    }
    return { kind, width, height, rows };
  }

  // What the border asks: the word of its kind, and the colours (ANY for a dash) that follow.
  function readBorder(text, most) {
    text.nextLine();
    text.take("border");
    const kind = text.take("free", "one", "each"), asked = [];
    if (kind === "one") asked.push(text.colour());
    if (kind === "each") {
      do {
        if (asked.length === most) throw text.fault("limit");
        asked.push(text.sees("-") ? (text.take("-"), ANY) : text.colour());
      } while (text.at <= text.end);
    }
    text.lineDone();
    return { kind, asked };
  }

  function readMates(text) {
    text.nextLine();
    text.take("mates");
    return text.entries(null, MOST_COLOURS, () => text.colour());
  }

  function readClues(text) {
    const count = text.counted("clues", 0, LARGE.cells), clues = [];
    for (let i = 0; i < count; i++) {
      text.nextLine();
      text.take("clue");
      clues.push({ cell: text.number(0, LARGE.cells - 1), asked: text.sides(askedBy) });
      text.lineDone();
    }
    return clues;
  }

  // The puzzle that the text asks for, in tables; or the first reason for which there is no such puzzle.
  function puzzleOf({ board: drawn, turns, border, mates, clues, words, version }) {
    const board = boardOf(drawn), { cells, sides, meets } = board, tiles = words.length;
    const wrong = (what) => new Fault(`puzzle: ${what}`);
    if (sides === 3 && !turns) throw wrong("fixed-triangles");
    if (version === "3" ? tiles < cells : tiles !== cells) throw wrong("tile-count");
    const odd = words.findIndex((word) => word.length !== sides);
    if (odd >= 0) throw wrong(`tile-sides ${odd}`);
    const outer = outerSides(board);
    if (border.kind === "each" && border.asked.length !== outer.length) throw wrong("border-length");
    const mateless = mates.findIndex((mate, colour) => mates[mate] !== colour);
    if (mateless >= 0) throw wrong(`mates ${mateless}`);

    // What is asked of each side, by the border and by clues: a colour, or ANY.
    const asked = new Uint8Array(cells * 4).fill(ANY);
    if (border.kind !== "free") outer.forEach((side, i) => (asked[side] = border.asked[border.kind === "one" ? 0 : i]));
    clues.forEach((clue, i) => {
      const rises = clue.cell < cells && (i === 0 || clue.cell > clues[i - 1].cell);
      if (!rises || clue.asked.length !== sides) throw wrong(`clue ${i}`);
      clue.asked.forEach((colour, k) => {
        const side = clue.cell * 4 + k;
        if (colour === ANY) return;
        if (meets[side] < 0 && asked[side] !== ANY && asked[side] !== colour) throw wrong(`clue ${i}`);
        asked[side] = colour;
      });
    });

    const mate = Uint8Array.from({ length: MOST_COLOURS }, (_, colour) => mates[colour] ?? colour);
    const named = [...words.flat(), ...border.asked, ...clues.flatMap((clue) => clue.asked)].filter((it) => it !== ANY);
    const colours = named.reduce((most, colour) => Math.max(most, colour + 1), mates.length);

    // Of each tile how many turns it may have, and of each placement what it shows: on side K, turned R times, the
    // colour of the word at K + R, counted round. A word that looks the same after fewer turns has only these.
    const turnsOf = new Uint8Array(tiles), shows = new Uint8Array(tiles * 16);
    words.forEach((word, tile) => {
      const same = (turn) => word.every((colour, k) => colour === word[(k + turn) % sides]);
      turnsOf[tile] = turns ? [1, 2, 3, 4].find((turn) => same(turn)) : 1;
      for (let r = 0; r < 4; r++) for (let k = 0; k < sides; k++) shows[tile * 16 + r * 4 + k] = word[(k + r) % sides];
    });
    return { cells, sides, meets, tiles, asked, mate, colours, turnsOf, shows, drawn, turns, words };
  }

  // The sides that meet nothing, by cell, then by side.
  function outerSides({ cells, sides, meets }) {
    const outer = [];
    for (let c = 0; c < cells; c++) for (let k = 0; k < sides; k++) if (meets[c * 4 + k] < 0) outer.push(c * 4 + k);
    return outer;
  }

  // ---- Lists

  // The placements of all arrangements, cell by cell, one arrangement after another; and the first fault of the first
  // that is none, which is told only if no text has a fault.
  function readList(bytes, puzzle, tell) {
    const text = new Text("list", bytes), { cells } = puzzle;
    const most = LIMITS[text.version("list", ["1", "2"])].cells;
    const count = text.counted("arrangements", 0, MOST_ARRANGEMENTS);
    // An arrangement takes at least four bytes a cell, so that no more than these can be right.
    const placed = new Uint16Array(Math.min(count, Math.floor(bytes.length / (4 * cells))) * cells);
    const row = new Uint16Array(most), seen = new Int32Array(puzzle.tiles).fill(-1);
    let fault = null;
    for (let number = 0; number < count; number++) {
      text.nextLine();
      tell(text.at);
      let length = 0;
      do {
        if (length === most) throw text.fault("limit");
        row[length++] = text.placement(most);
      } while (text.at <= text.end);
      if (fault !== null) continue;
      const why = arrangementFault(puzzle, row, length, seen, number);
      if (why !== null) fault = `refused list ${number} ${why}`;
      else placed.set(row.subarray(0, cells), number * cells);
    }
    text.close();
    return { count, placed, fault };
  }

  // What is wrong with an arrangement: the kind counts first, then the least cell and side. `seen` says of each tile in
  // which arrangement it was seen last.
  function arrangementFault({ cells, sides, meets, tiles, asked, mate, turnsOf, shows }, row, length, seen, number) {
    if (length !== cells) return "length";
    for (let c = 0; c < cells; c++) if (row[c] >> 2 >= tiles) return `tile ${c}`;
    for (let c = 0; c < cells; c++) if ((row[c] & 3) >= turnsOf[row[c] >> 2]) return `turn ${c}`;
    for (let c = 0; c < cells; c++) {
      if (seen[row[c] >> 2] === number) return `twice ${c}`;
      seen[row[c] >> 2] = number;
    }
    for (let c = 0; c < cells; c++) {
      for (let k = 0; k < sides; k++) {
        const wanted = asked[c * 4 + k];
        if (wanted !== ANY && shows[row[c] * 4 + k] !== wanted) return `border ${c} ${k}`;
      }
    }
    for (let c = 0; c < cells; c++) {
      for (let k = 0; k < sides; k++) {
        const there = meets[c * 4 + k];
        if (there < 0) continue;
        if (shows[row[there >> 2] * 4 + (there & 3)] !== mate[shows[row[c] * 4 + k]]) return `edge ${c} ${k}`;
      }
    }
    return null;
  }

  // The least number of an arrangement that equals an earlier one, or -1. The numbers stand in a table at places that
  // depend on random factors, so that no list can be made whose arrangements all come to one place.
  function firstRepeated({ count, placed }, cells) {
    const bits = Math.max(4, Math.ceil(Math.log2(count + 1)) + 1), table = new Int32Array(1 << bits).fill(-1);
    const factors = Int32Array.from({ length: cells }, () => (Math.random() * 4294967296) | 1);
    const same = (one, other) => {
      for (let c = 0; c < cells; c++) if (placed[one * cells + c] !== placed[other * cells + c]) return false;
      return true;
    };
    for (let number = 0; number < count; number++) {
      let sum = 0;
      for (let c = 0; c < cells; c++) sum = (sum + Math.imul(factors[c], placed[number * cells + c])) | 0;
      let at = sum >>> (32 - bits);
      for (; table[at] >= 0; at = (at + 1) & (table.length - 1)) if (same(table[at], number)) return number;
      table[at] = number;
    }
    return -1;
  }

  // ---- Certificates: the text alone

  // Of each lemma, by its number: where its prefix stands in `pairs` and how long it is, and where its tree begins.
  function readCertificate(bytes, tell) {
    const text = new Text("certificate", bytes);
    const limits = LIMITS[text.version("certificate", ["1", "2"])];
    const lines = text.counted("symmetries", 0, MOST_SYMMETRIES), symmetries = [];
    for (let i = 0; i < lines; i++) symmetries.push(readSymmetry(text, limits.cells));
    const count = text.counted("lemmas", 0, MOST_LEMMAS);
    const firsts = new Uint32Array(count), lengths = new Uint16Array(count), trees = new Uint32Array(count);
    const given = new Uint8Array(count), left = new Uint16Array(limits.levels);
    let pairs = new Uint32Array(1024), filled = 0, stranger = Infinity, double = Infinity;
    for (let i = 0; i < count; i++) {
      text.nextLine();
      if ((i & 63) === 0) tell(text.at);
      text.take("lemma");
      const number = text.number(0, MOST_LEMMAS - 1), first = filled;
      text.take("prefix");
      while (text.at <= text.end && !text.sees("tree")) {
        if (filled - first === limits.cells) throw text.fault("limit");
        if (filled === pairs.length) pairs = doubled(pairs);
        pairs[filled++] = text.pair(limits.cells);
      }
      text.take("tree");
      if (number >= count) stranger = Math.min(stranger, number);
      else {
        if (given[number]) double = Math.min(double, number);
        given[number] = 1;
        firsts[number] = first;
        lengths[number] = filled - first;
        trees[number] = text.at;
      }
      readTree(text, limits, left, tell);
      text.lineDone();
    }
    text.close();
    if (stranger < Infinity) throw new Fault(`certificate: stranger ${stranger}`);
    if (double < Infinity) throw new Fault(`certificate: double ${double}`);
    return { bytes, symmetries, count, firsts, lengths, pairs, trees };
  }

  function doubled(numbers) {
    const larger = new Uint32Array(numbers.length * 2);
    larger.set(numbers);
    return larger;
  }

  function readSymmetry(text, most) {
    text.nextLine();
    text.take("symmetry");
    const shift = text.number(0, 3), mirrored = text.take("+", "-") === "-";
    text.take("cells");
    const cells = Uint16Array.from(text.entries("colours", most, () => text.number(0, most - 1)));
    const colours = Uint8Array.from(text.entries("tiles", MOST_COLOURS, () => text.colour()));
    const tiles = Uint16Array.from(text.entries(null, most, () => text.number(0, most - 1)));
    return { shift, mirrored, cells, colours, tiles };
  }

  const [C, T, D, E, F, S, I] = Array.from("ctdefsi", (letter) => letter.charCodeAt(0));

  // Reads the nodes of a tree. `left[level]` is how many children of the branch there are still to come.
  function readTree(text, limits, left, tell) {
    const { bytes, end } = text, lastCell = limits.cells - 1;
    let level = 0;
    for (;;) {
      const at = text.at;
      if (at > end) throw text.fault("word");
      if (level === limits.levels) throw text.fault("too-deep");
      if (bytes[at + 1] !== SPACE) throw text.fault("word"); // each letter has a number behind it
      const letter = bytes[at];
      text.at = at + 2;
      switch (letter) {
        case C:
        case T:
          text.number(0, lastCell);
          left[level++] = text.number(1, limits.children);
          continue;
        case D:
        case E:
          text.number(0, lastCell);
          break;
        case F:
          text.number(0, MOST_ARRANGEMENTS - 1);
          break;
        case S:
          text.number(0, MOST_LEMMAS - 1);
          break;
        case I:
          text.number(0, MOST_LEMMAS - 1);
          text.number(0, MOST_SYMMETRIES - 1);
          break;
        default:
          throw text.fault("word");
      }
      while (level > 0 && --left[level - 1] === 0) level--;
      if (level === 0) return;
      tell(text.at);
    }
  }

  // ---- Symmetries

  function isPermutation(images, size) {
    return images.length === size && images.every((it) => it < size) && new Set(images).size === size;
  }

  // What is wrong with a symmetry, or null. Then `turned` says where it takes each placement that may be.
  function symmetryFault(puzzle, symmetry) {
    const { cells, sides, meets, tiles, asked, mate, colours } = puzzle, colourTo = symmetry.colours;
    if (!isPermutation(symmetry.cells, cells)) return "cells";
    if (!isPermutation(colourTo, colours)) return "colours";
    if (!isPermutation(symmetry.tiles, tiles)) return "tiles";
    const { shift, mirrored } = symmetry;
    const sideTo = [0, 1, 2, 3].map((k) => (mirrored ? shift + 2 * sides - k : shift + k) % sides);
    const goesTo = (side) => symmetry.cells[side >> 2] * 4 + sideTo[side & 3];
    for (let c = 0; c < cells; c++) {
      for (let k = 0; k < sides; k++) {
        const there = meets[c * 4 + k], met = meets[goesTo(c * 4 + k)];
        if (met !== (there < 0 ? -1 : goesTo(there))) return `edge ${c} ${k}`;
      }
    }
    for (let c = 0; c < cells; c++) {
      for (let k = 0; k < sides; k++) {
        const colour = asked[c * 4 + k];
        if (asked[goesTo(c * 4 + k)] !== (colour === ANY ? ANY : colourTo[colour])) return `border ${c} ${k}`;
      }
    }
    symmetry.turned = new Uint16Array(tiles * 4);
    for (let t = 0; t < tiles; t++) if (!takesTile(puzzle, symmetry, sideTo, t)) return `tile ${t}`;
    for (let x = 0; x < colours; x++) if (colourTo[mate[x]] !== mate[colourTo[x]]) return `mates ${x.toString(36)}`;
    return null;
  }

  // Whether each turn of the tile looks like just one turn of its image, and each turn of that is looked like.
  function takesTile({ sides, turnsOf, shows }, { colours, tiles, turned }, sideTo, tile) {
    const image = tiles[tile], arisen = [false, false, false, false];
    for (let r = 0; r < turnsOf[tile]; r++) {
      let found = 0;
      for (let q = 0; q < turnsOf[image]; q++) {
        let alike = true;
        for (let k = 0; k < sides; k++) {
          if (shows[image * 16 + q * 4 + sideTo[k]] !== colours[shows[tile * 16 + r * 4 + k]]) alike = false;
        }
        if (!alike) continue;
        found++;
        arisen[q] = true;
        turned[tile * 4 + r] = image * 4 + q;
      }
      if (found !== 1) return false;
    }
    return arisen.slice(0, turnsOf[image]).every(Boolean);
  }

  // ---- Prefixes

  // What is wrong with a prefix: the place counts first, then the kind. `seen` says of each tile in which lemma's
  // prefix it was seen last.
  function prefixFault({ cells, tiles, turnsOf }, { pairs, firsts, lengths }, seen, number) {
    let before = -1;
    for (let place = 0; place < lengths[number]; place++) {
      const pair = pairs[firsts[number] + place], cell = pair >> 10, tile = (pair >> 2) & 255;
      if (cell >= cells || cell <= before) return `cell ${place}`;
      if (tile >= tiles || seen[tile] === number) return `tile ${place}`;
      if ((pair & 3) >= turnsOf[tile]) return `turn ${place}`;
      before = cell;
      seen[tile] = number;
    }
    return null;
  }

  // ---- Trees: what the nodes say

  // The number of the lowest bit that is 1.
  const lowest = (word) => 31 - Math.clz32(word & -word);

  // A board that is being filled, and what fits it. A placement fits a cell where cell and tile are free, and each of
  // its sides shows what is wanted there: what the border or a clue asks, and the mate of what a placed neighbour has.
  //
  // Sets of placements are words of 32 bits, with some tiles in each: a tile has as many bits as tiles have turns. What
  // fits a cell is then what `free` and the four rows of `showing`, one for each side and what is wanted there, have in
  // common. For nodes `t` and `e` there are sets of cells too: what `empty` and rows of `wanting` have in common fits a
  // tile. They are brought up to date where such a node comes, at the cells that were filled or emptied since.
  class Filling {
    constructor(puzzle, list, certificate) {
      const { cells, sides, meets, tiles, turns, turnsOf, shows, mate } = puzzle, bits = turns ? sides : 1;
      const inWord = Math.floor(32 / bits);
      Object.assign(this, { puzzle, list, certificate });
      this.at = new Int16Array(cells).fill(-1); // what is placed at a cell, or -1
      // Of each side what it asks of the side that it meets, by the mates of what is placed there: four bytes a cell,
      // which are written at once. Behind the cells stands one that asks nothing, for outer sides.
      this.asks = new Uint8Array(cells * 4 + 4).fill(ANY);
      this.asksAt = new Int32Array(this.asks.buffer);
      this.nothing = this.asksAt[cells];
      this.offers = new Int32Array(shows.map((colour) => mate[colour]).buffer); // what a placement asks
      this.across = meets.map((there) => (there < 0 ? cells * 4 : there));
      this.words = Math.ceil(tiles / inWord);
      // Of each tile the word and its bits there, of each bit the placement.
      this.wordOf = new Uint8Array(tiles);
      this.bitsOf = new Int32Array(tiles);
      this.placementOf = new Uint16Array(this.words * 32);
      this.free = new Int32Array(this.words);
      this.showing = new Int32Array(4 * WANTS * this.words);
      const rowOf = (k, colour) => (k * WANTS + colour) * this.words;
      for (let k = 0; k < 4; k++) this.showing.fill(-1, rowOf(k, ANY), rowOf(k, ANY + 1));
      for (let t = 0; t < tiles; t++) {
        const word = (this.wordOf[t] = Math.floor(t / inWord));
        for (let r = 0; r < turnsOf[t]; r++) {
          const place = (t % inWord) * bits + r, bit = 1 << place;
          this.placementOf[word * 32 + place] = t * 4 + r;
          this.bitsOf[t] |= bit;
          for (let k = 0; k < sides; k++) this.showing[rowOf(k, shows[t * 16 + r * 4 + k]) + word] |= bit;
        }
        this.free[word] |= this.bitsOf[t];
      }
      this.wants = new Uint8Array(cells * 4).fill(ANY); // what the sets of cells say of each side
      this.cellWords = Math.ceil(cells / 32);
      this.empty = new Int32Array(this.cellWords);
      this.wanting = new Int32Array(4 * WANTS * this.cellWords);
      // The pairs that are placed, in their order; those by which the sets of cells go; how many first ones are in both.
      Object.assign(this, { path: new Uint32Array(cells), length: 0 });
      Object.assign(this, { known: new Uint32Array(cells), knownLength: 0, shared: 0 });
      for (let c = 0; c < cells; c++) this.empty[c >> 5] |= 1 << (c & 31);
      for (let side = 0; side < cells * 4; side++) this.want(side, this.wanted(side));
      // Of the branch at each level, which is one at most for each cell: the pairs that fit, at most `most` of them,
      // how many children it has, and which of them is looked at.
      this.most = 4 * Math.max(cells, tiles);
      this.fits = new Uint32Array(cells * this.most);
      this.children = new Uint16Array(cells);
      this.child = new Uint16Array(cells);
    }

    // What a side has to show.
    wanted(side) {
      const clue = this.puzzle.asked[side], colour = this.asks[this.across[side]];
      if (clue === ANY || clue === colour) return colour;
      return colour === ANY ? clue : NOTHING_SHOWS;
    }

    // From now on the sets of cells say that the side has to show this.
    want(side, colour) {
      const { wanting, wants, cellWords } = this, first = (side & 3) * WANTS, bit = 1 << ((side >> 2) & 31);
      wanting[(first + wants[side]) * cellWords + (side >> 7)] &= ~bit;
      wanting[(first + colour) * cellWords + (side >> 7)] |= bit;
      wants[side] = colour;
    }

    // Brings the sets of cells up to date.
    followPath() {
      const { path, known } = this;
      for (let i = this.shared; i < this.knownLength; i++) this.follow(known[i] >> 10);
      for (let i = this.shared; i < this.length; i++) this.follow((known[i] = path[i]) >> 10);
      this.shared = this.knownLength = this.length;
    }

    // Brings the sets up to date for one cell and what it meets.
    follow(cell) {
      const { meets, sides } = this.puzzle, bit = 1 << (cell & 31);
      if (this.at[cell] < 0) this.empty[cell >> 5] |= bit;
      else this.empty[cell >> 5] &= ~bit;
      for (let k = 0; k < sides; k++) {
        const there = meets[cell * 4 + k];
        if (there >= 0 && this.wanted(there) !== this.wants[there]) this.want(there, this.wanted(there));
      }
    }

    // Places a pair behind those that are placed.
    place(pair) {
      const cell = pair >> 10, placement = pair & 1023, tile = placement >> 2;
      this.path[this.length++] = pair;
      this.at[cell] = placement;
      this.asksAt[cell] = this.offers[placement];
      this.free[this.wordOf[tile]] &= ~this.bitsOf[tile];
    }

    // Lifts the last pair.
    lift() {
      const pair = this.path[--this.length], cell = pair >> 10, tile = (pair >> 2) & 255;
      if (this.shared > this.length) this.shared = this.length;
      this.at[cell] = -1;
      this.asksAt[cell] = this.nothing;
      this.free[this.wordOf[tile]] |= this.bitsOf[tile];
    }

    // Counts the pairs that fit an empty cell, by tile, then turn, and lists them from `begin` on.
    fittingAt(cell, begin) {
      const { showing, words, free, fits, placementOf } = this, side = cell * 4;
      const row0 = this.wanted(side) * words, row1 = (WANTS + this.wanted(side + 1)) * words;
      const row2 = (2 * WANTS + this.wanted(side + 2)) * words, row3 = (3 * WANTS + this.wanted(side + 3)) * words;
      let end = begin;
      for (let word = 0; word < words; word++) {
        let set = free[word] & showing[row0 + word] & showing[row1 + word];
        set &= showing[row2 + word] & showing[row3 + word];
        for (; set !== 0; set &= set - 1) fits[end++] = cell * 1024 + placementOf[word * 32 + lowest(set)];
      }
      return end - begin;
    }

    // The cells of a word of 32 that a placement of a free tile fits.
    cellsFor(placement, word) {
      const { wanting, cellWords } = this, { sides, shows } = this.puzzle;
      let set = this.empty[word];
      for (let k = 0; k < sides; k++) {
        const colour = k * WANTS + shows[placement * 4 + k], any = k * WANTS + ANY;
        set &= wanting[any * cellWords + word] | wanting[colour * cellWords + word];
      }
      return set;
    }

    // Counts the pairs with a free tile that fit, by cell, then turn, and lists them from `begin` on.
    fittingOf(tile, begin) {
      const turns = this.puzzle.turnsOf[tile], sets = [0, 0, 0, 0];
      this.followPath();
      let end = begin;
      for (let word = 0; word < this.cellWords; word++) {
        let some = 0;
        for (let r = 0; r < turns; r++) some |= sets[r] = this.cellsFor(tile * 4 + r, word);
        for (; some !== 0; some &= some - 1) {
          const bit = some & -some, cell = word * 32 + lowest(some);
          for (let r = 0; r < turns; r++) {
            if ((sets[r] & bit) !== 0) this.fits[end++] = cell * 1024 + tile * 4 + r;
          }
        }
      }
      return end - begin;
    }

    // What is wrong with a node by itself, or null. `own` is the number of its lemma. What fits a branch is listed.
    nodeFault(letter, first, second, own, level) {
      const { cells, tiles } = this.puzzle;
      const begin = level * this.most;
      switch (letter) {
        case C:
        case D:
          if (first >= cells) return "cell-range";
          if (this.at[first] >= 0) return "cell-taken";
          return countFault(letter === C, this.fittingAt(first, begin), second);
        case T:
        case E:
          if (tiles > cells) return "tile-spare";
          if (first >= tiles) return "tile-range";
          if ((this.free[this.wordOf[first]] & this.bitsOf[first]) === 0) return "tile-taken";
          return countFault(letter === T, this.fittingOf(first, begin), second);
        case F:
          return this.foundFault(first, own, level);
        case S:
          return first >= own ? "not-earlier" : this.sameFault(first);
        default:
          if (first >= own) return "not-earlier";
          if (second >= this.certificate.symmetries.length) return "symmetry-range";
          return this.imageFault(first, this.certificate.symmetries[second]);
      }
    }

    foundFault(number, own, level) {
      const { cells } = this.puzzle, { count, placed } = this.list;
      if (this.certificate.lengths[own] + level !== cells) return "not-whole";
      if (number >= count) return "list-range";
      for (let c = 0; c < cells; c++) if (placed[number * cells + c] !== this.at[c]) return "not-listed";
      return null;
    }

    // Whether each pair of the lemma's prefix is placed.
    sameFault(lemma) {
      const { pairs, firsts, lengths } = this.certificate, stop = firsts[lemma] + lengths[lemma];
      for (let i = firsts[lemma]; i < stop; i++) if (this.at[pairs[i] >> 10] !== (pairs[i] & 1023)) return "not-within";
      return null;
    }

    // Whether the image of each of them is.
    imageFault(lemma, { cells, turned }) {
      const { pairs, firsts, lengths } = this.certificate, stop = firsts[lemma] + lengths[lemma];
      for (let i = firsts[lemma]; i < stop; i++) {
        if (this.at[cells[pairs[i] >> 10]] !== turned[pairs[i] & 1023]) return "not-within";
      }
      return null;
    }

    // The first fault of a lemma's tree, where its prefix is placed; null, and the board as before, if there is none.
    // The text was read before, so that its letters and numbers are known to be some.
    treeFault(own, tell) {
      const { fits, most, children, child } = this, { bytes, trees } = this.certificate;
      let at = trees[own], level = 0;
      for (;;) {
        const letter = bytes[at];
        let first = 0, second = 0;
        for (at += 2; bytes[at] > SPACE; at++) first = first * 10 + bytes[at] - ZERO;
        if (letter === C || letter === T || letter === I) {
          for (at++; bytes[at] > SPACE; at++) second = second * 10 + bytes[at] - ZERO;
        }
        at++;
        const why = this.nodeFault(letter, first, second, own, level);
        if (why !== null) return `${level === 0 ? "-" : child.subarray(0, level).join(".")} ${why}`;
        if (letter === C || letter === T) {
          children[level] = second;
          child[level++] = 0;
        } else {
          tell(at);
          // Goes up to the next child that is still to be looked at.
          for (;;) {
            if (level === 0) return null;
            this.lift();
            if (++child[level - 1] < children[level - 1]) break;
            level--;
          }
        }
        this.place(fits[(level - 1) * most + child[level - 1]]);
      }
    }

    // The first fault of all trees, by the numbers of their lemmas.
    firstFault(tell) {
      const { count, firsts, lengths, trees, pairs } = this.certificate;
      for (let number = 0; number < count; number++) {
        if ((number & 63) === 0) tell(trees[number]);
        const first = firsts[number], stop = first + lengths[number];
        for (let i = first; i < stop; i++) this.place(pairs[i]);
        const why = this.treeFault(number, tell);
        if (why !== null) return `refused tree ${number} at ${why}`;
        while (this.length > 0) this.lift();
      }
      return null;
    }
  }

  // What is wrong where `found` pairs fit: a branch has to have as many children, and at a dead end none may fit.
  function countFault(isBranch, found, children) {
    if (isBranch) return found === children ? null : `wrong-count ${found} ${children}`;
    return found === 0 ? null : `not-dead ${found}`;
  }

  // ---- The answer

  // The first fault of texts that were read, or that the list is complete.
  function answerOf(puzzle, list, certificate, tell) {
    if (list.fault !== null) return list.fault;
    const repeated = firstRepeated(list, puzzle.cells);
    if (repeated >= 0) return `refused repeated ${repeated}`;
    const { count, symmetries, lengths } = certificate;
    for (let number = 0; number < symmetries.length; number++) {
      const why = symmetryFault(puzzle, symmetries[number]);
      if (why !== null) return `refused symmetry ${number} ${why}`;
    }
    const seen = new Int32Array(puzzle.tiles).fill(-1);
    for (let number = 0; number < count; number++) {
      const why = prefixFault(puzzle, certificate, seen, number);
      if (why !== null) return `refused prefix ${number} ${why}`;
    }
    if (count === 0 || lengths[count - 1] !== 0) return "refused root";
    return new Filling(puzzle, list, certificate).firstFault(tell) ?? `complete ${list.count}`;
  }

  function edgematchCheck(puzzleBytes, listBytes, certificateBytes, tell = () => {}) {
    // The certificate is read twice. What is told only rises, though lemmas may stand anywhere.
    const whole = listBytes.length + 2 * certificateBytes.length;
    let told = -Infinity;
    const tellFrom = (begin) => (at) => {
      if (begin + at < told + whole / 200) return;
      told = begin + at;
      tell(told, whole);
    };
    try {
      const texts = { puzzle: puzzleBytes, list: listBytes, certificate: certificateBytes };
      for (const name in texts) if (texts[name].length > MOST_BYTES) throw new Fault(`too long ${name}`);
      const puzzle = readPuzzle(puzzleBytes);
      const list = readList(listBytes, puzzle, tellFrom(0));
      const certificate = readCertificate(certificateBytes, tellFrom(listBytes.length));
      const line = answerOf(puzzle, list, certificate, tellFrom(listBytes.length + certificateBytes.length));
      return { line, status: line.startsWith("complete ") ? 0 : 1, symmetries: certificate.symmetries.length };
    } catch (fault) {
      if (!(fault instanceof Fault)) throw fault;
      return { line: fault.message, status: 2 };
    }
  }

  // The three texts that stand in one, joined: each of the first two ends with its first line `end`.
  function edgematchCut(bytes) {
    const texts = [];
    let begin = 0;
    while (texts.length < 2) {
      let at = begin, stop = -1;
      while (stop < 0) {
        const end = bytes.indexOf(LF, at);
        if (end < 0) stop = bytes.length;
        else if (end === at + 3 && bytes[at] === 101 && bytes[at + 1] === 110 && bytes[at + 2] === 100) stop = end + 1;
        at = end + 1;
      }
      texts.push(bytes.subarray(begin, stop));
      begin = stop;
    }
    return [...texts, bytes.subarray(begin)];
  }

  const calls = { edgematchCheck, edgematchCut, edgematchPuzzle: readPuzzle };
  Object.assign(global, calls);
  if (typeof module === "object" && module !== null) module.exports = calls;
})(globalThis);
