/* Pictures (SVG) of arrangements, for the page: as `edgematch draw` makes them.

     edgematchPicture(puzzle, line, number, large, numbers)

   takes a puzzle that edgematchPuzzle of check.js read, and the line of an arrangement of a list that was checked. A
   large picture has the signs of colours, numbers of tiles where they are wanted, and below the board the tiles that are
   left over. */

"use strict";

(function (global) {
  const ANY = 37; // as in check.js: nothing is asked of a side
  // The fill of each colour, and the colours whose sign is white. Of two mates the lesser's fill counts.
  const FILLS = ("ddd 34a e60 912 4cf 188 fd2 e99 96e 964 8c6 222 535 99b 555 995 cea 66a "
    + "240 b37 fdf 797 79d 606 824 bb1 9f7 fbb c22 e6a 3b7 15d 737 bbd 977 660").split(" ");
  const WHITE_SIGNS = "139bcehijnosvwz";
  // Below a board: how far tiles are apart, and how wide a row may be where the board is narrower.
  const GAP = 28, TRAY = 836;

  // Of each side of a cell: where it begins, the way to its end, the way from there to the middle, the straight part
  // and the neck where it has a knob or a hollow, where its sign stands, and where at a hollow, and the way out.
  const SQUARE = [
    [[0, 0], [80, 0], [-40, 40], [33, 0], [14, 0], [40, 14], [40, 20], [0, -16]],
    [[80, 0], [0, 80], [-40, -40], [0, 33], [0, 14], [66, 40], [60, 40], [16, 0]],
    [[80, 80], [-80, 0], [40, -40], [-33, 0], [-14, 0], [40, 66], [40, 60], [0, 16]],
    [[0, 80], [0, -80], [40, 40], [0, -33], [0, -14], [14, 40], [20, 40], [-16, 0]],
  ];
  const UP = [
    [[0, 0], [52, 90], [-52, -30], [24, 41], [4, 8], [16, 50], [14, 52], [14, -8]],
    [[52, 90], [-104, 0], [52, -30], [-48, 0], [-8, 0], [0, 79], [0, 76], [0, 16]],
    [[-52, 90], [52, -90], [0, 60], [24, -41], [4, -8], [-16, 50], [-14, 52], [-14, -8]],
  ];
  const DOWN = [
    [[0, 0], [-52, -90], [52, 30], [-24, -41], [-4, -8], [-16, -50], [-14, -52], [-14, 8]],
    [[-52, -90], [104, 0], [-52, 30], [48, 0], [8, 0], [0, -79], [0, -76], [0, -16]],
    [[52, -90], [-52, 90], [0, -60], [-24, 41], [-4, 8], [16, -50], [14, -52], [14, 8]],
  ];
  // The corners of a band at each side, where the board ends sharply or bluntly: at its begin, at its end.
  const SHARP = [[[0, -32], [28, 16]], [[28, 16], [-28, 16]], [[-28, 16], [0, -32]]];
  const BLUNT_UP = [[[9, -16], [18, 0]], [[9, 16], [-9, 16]], [[-18, 0], [-9, -16]]];
  const BLUNT_DOWN = [[[-9, 16], [-18, 0]], [[-9, -16], [9, -16]], [[18, 0], [9, 16]]];

  const plus = (a, b) => [a[0] + b[0], a[1] + b[1]];
  const minus = (a, b) => [a[0] - b[0], a[1] - b[1]];
  const from = ([x, y]) => `M${x} ${y}`;
  const step = ([x, y]) => (y === 0 ? `h${x}` : x === 0 ? `v${y}` : `l${x}${spaced(y)}`);
  const spaced = (number) => (number < 0 ? `${number}` : ` ${number}`);
  const JOINED = 'stroke="#fff" stroke-linejoin="round"', LINES = 'stroke="#222"', BOLD = 'font-weight="bold"';
  const font = (size) => `font-family="monospace" font-size="${size}" text-anchor="middle"`;
  const group = (open, parts) => {
    const lines = parts.filter((it) => it !== "");
    return lines.length > 0 ? `<g ${open}>\n${lines.map((it) => `${it}\n`).join("")}</g>\n` : "";
  };

  // Where each cell stands: its point and the table of its sides; and how large the paper is.
  function layoutOf({ kind, width, height, rows }) {
    if (kind === "rect" || kind === "shape") return squares(width, height, kind === "shape" ? rows : null);
    const hexagon = kind === "hexagon", count = hexagon ? 2 * width : width, cells = [];
    for (let y = 0; y < count; y++) {
      const upper = y < width, far = upper ? y : count - 1 - y;
      const length = (hexagon ? 2 * width : 0) + 1 + 2 * far;
      for (let x = 0; x < length; x++) {
        const up = (x % 2 === 0) === upper;
        const point = [40 + 52 * (width - far + x), 40 + 90 * y + (up ? 0 : 90)];
        cells.push({ point, table: up ? UP : DOWN, up });
      }
    }
    return { cells, size: [(hexagon ? 208 : 104) * width + 80, 90 * count + 80], knob: 5 };
  }

  function squares(width, height, rows) {
    const cells = [];
    for (let y = 0; y < height; y++) {
      for (let x = 0; x < width; x++) {
        if (rows === null || rows[y][x]) cells.push({ point: [40 + 80 * x, 40 + 80 * y], table: SQUARE, x, y });
      }
    }
    const filled = new Set(cells.map(({ x, y }) => `${x} ${y}`));
    return { cells, size: [80 * width + 80, 80 * height + 80], knob: 8, isCell: (x, y) => filled.has(`${x} ${y}`) };
  }

  // The two corners of the band along an outer side.
  function cornersOf(puzzle, layout, cell, k) {
    const { table, x, y, up } = layout.cells[cell], out = table[k][7];
    if (table.length === 4) {
      const away = [out[0] / 16, out[1] / 16], along = [table[k][1][0] / 80, table[k][1][1] / 80];
      const corner = (way) => {
        if (layout.isCell(x + way[0] + away[0], y + way[1] + away[1])) return plus(out, [-16 * way[0], -16 * way[1]]);
        if (layout.isCell(x + way[0], y + way[1])) return out;
        return plus(out, [16 * way[0], 16 * way[1]]);
      };
      return [corner([-along[0], -along[1]]), corner(along)];
    }
    // Who stands round the corner, at the side before or after this one?
    const corner = (turn, end) => {
      const beside = puzzle.meets[cell * 4 + ((k + turn) % 3)];
      if (beside < 0) return SHARP[k][end];
      const across = puzzle.meets[(beside & ~3) + (((beside & 3) + turn) % 3)];
      return across < 0 ? (up ? BLUNT_UP : BLUNT_DOWN)[k][end] : out;
    };
    return [corner(2, 0), corner(1, 1)];
  }

  // Where tiles lie below a board: in as few rows as it takes, with as few in each.
  function trayOf(count, sides, [boardWidth, top]) {
    const [width, height, middle, table] = sides === 4 ? [80, 80, 0, SQUARE] : [104, 90, 52, UP];
    const most = Math.floor((Math.max(boardWidth - 80, TRAY) + GAP) / (width + GAP));
    const rows = Math.ceil(count / most), columns = Math.ceil(count / rows);
    const places = Array.from({ length: count }, (_, i) => {
      const x = 40 + middle + (i % columns) * (width + GAP), y = top + Math.floor(i / columns) * (height + GAP);
      return { point: [x, y], table };
    });
    return { places, size: [columns * (width + GAP) - GAP + 80, top + rows * (height + GAP) - GAP + 40] };
  }

  // What shows a colour: a part, a sign, the edge of a side.
  function inksOf({ mate }, knob) {
    const lesser = (colour) => Math.min(colour, mate[colour]);
    return {
      part: (colour, d) => `<path fill="#${FILLS[lesser(colour)]}" d="${d}z"/>`,
      sign: ([x, y], colour) => {
        const white = WHITE_SIGNS.includes(lesser(colour).toString(36)) ? ' fill="#fff"' : "";
        return `<text x="${x}" y="${y + 5}"${white}>${colour.toString(36)}</text>`;
      },
      // A side is straight where its colour is its own mate. Else the lesser has a knob, and the greater a hollow.
      edge: (colour, side) => {
        if (mate[colour] === colour) return step(side[1]);
        const [x, y] = side[4], turn = colour < mate[colour] ? 1 : 0;
        return `${step(side[3])}a${knob} ${knob} 0 1 ${turn}${spaced(x)}${spaced(y)}${step(side[3])}`;
      },
    };
  }

  // The bands along outer sides of which a colour is asked.
  function bandsOf(puzzle, layout, { part, sign, edge }, signs) {
    const { mate, meets, asked, sides } = puzzle, bands = [], letters = [];
    layout.cells.forEach(({ point, table }, cell) => {
      let band = "", letter = "";
      for (let k = 0; k < sides; k++) {
        const side = table[k], wanted = asked[cell * 4 + k], begin = from(plus(point, side[0]));
        if (wanted === ANY || meets[cell * 4 + k] >= 0) continue;
        const [first, last] = cornersOf(puzzle, layout, cell, k), by = mate[wanted] === wanted ? 2 : 4;
        band += part(wanted, `${begin}${edge(wanted, side)}${step(last)}${step(minus(minus(first, last), side[1]))}`);
        const at = [0, 1].map((i) => point[i] + side[0][i] + Math.trunc(side[1][i] / by) + side[7][i] / 2);
        letter += sign(at, wanted);
      }
      bands.push(band);
      letters.push(letter);
    });
    return group(JOINED, bands) + (signs ? group(`${font(13)} ${BOLD}`, letters) : "");
  }

  // Tiles, each [tile, turn], at places on the board or below it.
  function tilesAt(puzzle, places, placements, { part, sign, edge }, { thick, signs, numbers }) {
    const { mate, shows, sides, turns } = puzzle, parts = [], outlines = [], letters = [], arrows = [], discs = [], labels = [];
    const [radius, size, away] = sides === 4 ? [13, 13, [40, 40]] : [9, 12, [0, 60]];
    places.forEach(({ point, table }, place) => {
      const [tile, turn] = placements[place], middle = table === DOWN ? minus(point, away) : plus(point, away);
      let own = "", outline = from(plus(point, table[0][0])), letter = "";
      for (let k = 0; k < sides; k++) {
        const side = table[k], colour = shows[tile * 16 + turn * 4 + k], curve = edge(colour, side);
        own += part(colour, `${from(plus(point, side[0]))}${curve}${step(side[2])}`);
        outline += curve;
        letter += sign(plus(point, side[mate[colour] < colour ? 6 : 5]), colour);
      }
      parts.push(own);
      outlines.push(`<path d="${outline}z"/>`);
      letters.push(letter);
      discs.push(`<circle cx="${middle[0]}" cy="${middle[1]}" r="${radius}"/>`);
      labels.push(`<text x="${middle[0]}" y="${middle[1] + 5}">${tile}</text>`);
      if (!turns) arrows.push(`<path d="${from(plus(point, [12, 6]))}l6 8h-4v7h-4v-7h-4z"/>`);
    });
    return [
      group(JOINED, parts),
      group(`fill="none" ${LINES} stroke-width="${thick}" stroke-linejoin="round"`, outlines),
      signs ? group(`${font(14)} ${BOLD}`, letters) : "",
      numbers ? group(`fill="#fff" ${LINES}`, discs) + group(font(size), labels) : "",
      group(`fill="#fff" ${LINES} stroke-linejoin="round"`, arrows),
    ].join("");
  }

  function describe({ shows, sides, turns }, placements) {
    const words = placements.map(([tile, turn]) => {
      const colours = Array.from({ length: sides }, (_, k) => shows[tile * 16 + turn * 4 + k].toString(36));
      return `${tile}.${turn} ${colours.join("")}`;
    });
    const begin = turns ? "" : "Tiles may not be turned. ";
    return `${begin}By cell the tile, its turns and its colours: ${words.join(", ")}`;
  }

  // The tiles that an arrangement leaves over, unturned.
  function spareOf({ tiles }, placements) {
    const placed = new Set(placements.map(([tile]) => tile));
    return Array.from({ length: tiles }, (_, tile) => [tile, 0]).filter(([tile]) => !placed.has(tile));
  }

  function edgematchPicture(puzzle, line, number, large, numbers) {
    const { drawn, sides } = puzzle, layout = layoutOf(drawn), inks = inksOf(puzzle, layout.knob);
    const placements = line.split(" ").map((it) => it.split(".").map(Number));
    const spare = large ? spareOf(puzzle, placements) : [], thick = Math.ceil(Math.max(...layout.size) / 200);
    const labels = large ? { thick: 2, signs: true, numbers } : { thick, signs: false, numbers: false };
    const tray = spare.length > 0 ? trayOf(spare.length, sides, layout.size) : { places: [], size: [0, 0] };
    const [width, height] = [0, 1].map((i) => Math.max(layout.size[i], tray.size[i]));
    const size = drawn.kind === "rect" || drawn.kind === "shape" ? `${drawn.width} ${drawn.height}` : drawn.width;
    return [
      `<svg xmlns="http://www.w3.org/2000/svg" width="${width}" height="${height}" viewBox="0 0 ${width} ${height}" `,
      `role="img">\n<title>Arrangement ${number}: board ${drawn.kind} ${size}</title>\n`,
      `<desc>${describe(puzzle, placements)}</desc>\n<path fill="#fff" d="M0 0h${width}v${height}H0z"/>\n`,
      bandsOf(puzzle, layout, inks, labels.signs),
      tilesAt(puzzle, layout.cells, placements, inks, labels),
      tilesAt(puzzle, tray.places, spare, inks, { ...labels, numbers: true }),
      "</svg>\n",
    ].join("");
  }

  global.edgematchPicture = edgematchPicture;
  if (typeof module === "object" && module !== null) module.exports = { edgematchPicture };
})(globalThis);
