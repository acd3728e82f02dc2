'use strict';
// A trace: its rows, the memory after any of them, and the replies that the page tells in advance.
// Nothing is drawn here: this file and words.js run under node too (check_rules.mjs).

// A line about the scenario, and one for each row. What else was printed, `output`, has a row of its own:
// it is put into the row above.
const [head, ...rows] = document.getElementById('trace').textContent.trim().split('\n').map(it => JSON.parse(it))
  .filter((row, at, all) => row.output === undefined || !Object.assign(all[at - 1], {output: row.output}));
const {layout} = head, last = rows.length - 1;
const pageblockFrames = 2 ** layout.order;
const blockFrames = pageblockFrames * layout.pageblocks;
const allFrames = blockFrames * layout.blocks;
const blockOf = frame => Math.floor(frame / blockFrames);
const pageblockOf = frame => Math.floor(frame / pageblockFrames);
const upTo = (n, from = 0) => Array.from({length: n}, (_, at) => from + at);
const pageblocksOf = block => upTo(layout.pageblocks, block * layout.pageblocks);

// ---- The memory. It is cut into pieces: free blocks, frames on processors' lists, pages, kernel
// blocks, and pageblocks that are not in use. `who` tells two pieces of a kind apart.
const PARTS = ['blocks', 'pageblocks', 'lists', 'kernel', 'pages', 'words', 'settings'];
const memory = Object.fromEntries(PARTS.map(part => [part, new Map()]));
const pieces = new Map(), backs = [];               // by first frame; by row, what takes its change back
let reached = -1;                                   // the row that `memory` is after

// The pieces that a change brings.
function piecesIn({lists = {}, kernel = {}, pages = {}, blocks = {}}) {
  const out = [], add = (kind, frame, order, who, list) => out.push({kind, frame, order, who, list});
  for (const [key, {put = []}] of Object.entries(lists)) {
    const [first, second, pool] = key.split(' ');
    const one = pool ? ['listed', 0, `${second} ${pool}`] : ['free', +second, first];
    for (const frame of put) add(one[0], frame, one[1], one[2], key);
  }
  for (const [frame, order] of Object.entries(kernel)) if (order !== null) add('kernel', +frame, order, '');
  for (const [page, frame] of Object.entries(pages)) if (frame !== null) add('page', frame, 0, page);
  for (const [block, row] of Object.entries(blocks)) {
    for (const pageblock of row && !row.zone ? pageblocksOf(block) : []) {
      add(row.state, pageblock * pageblockFrames, layout.order, '');
    }
  }
  return out;
}
// Changes the memory, adds the pageblocks that change to `touched`, and returns the change back.
function applyChange(change, touched) {
  const back = {};
  for (const [part, values] of Object.entries(change)) {
    back[part] = {};
    for (const [key, value] of Object.entries(values)) {
      const old = memory[part].get(key);
      if (part === 'lists') {
        const {at = 0, drop = 0, put = []} = value, list = old ?? [];
        back.lists[key] = {at, drop: put.length, put: list.slice(at, at + drop)};
        memory.lists.set(key, [...list.slice(0, at), ...put, ...list.slice(at + drop)]);
        continue;
      }
      back[part][key] = old ?? null;
      if (value === null) memory[part].delete(key);
      else memory[part].set(key, value);
    }
  }
  const gone = piecesIn(back), come = piecesIn(change);
  for (const {frame} of gone) pieces.delete(frame);
  for (const piece of come) pieces.set(piece.frame, piece);
  const all = [...[...gone, ...come].map(piece => pageblockOf(piece.frame)),
    ...Object.keys(change.pageblocks ?? {}).map(Number), ...Object.keys(change.blocks ?? {}).flatMap(pageblocksOf)];
  for (const pageblock of all) touched.add(pageblock);
  return back;
}
function goTo(index, touched = new Set()) {
  while (reached < index) {
    reached++;
    backs[reached] = applyChange(rows[reached].change ?? {}, touched);
  }
  while (reached > index) applyChange(backs[reached--], touched);
}
const endOf = piece => piece.frame + 2 ** piece.order;
const covers = (piece, frame) => piece.frame <= frame && frame < endOf(piece);
const isIsolated = piece => piece.kind === 'free' && piece.who[0] === 'I';
const isSame = (a, b) => ['kind', 'frame', 'order', 'who'].every(key => a?.[key] === b?.[key]);

function pieceAt(frame) {
  for (let order = 0; ; order++) {
    const piece = pieces.get(frame - frame % 2 ** order);
    if (piece && covers(piece, frame)) return piece;
  }
}
function piecesFrom(frame, end) {
  const out = [];
  for (; frame < end; frame = endOf(out.at(-1))) out.push(pieces.get(frame));
  return out;
}
const piecesOf = block => piecesFrom(block * blockFrames, (block + 1) * blockFrames);

const wordsOf = (page, most) => upTo(most).map(at => memory.words.get(`${page} ${at}`) ?? '0');
// The rows that changed what is at a frame, with the piece that it was part of from then on.
function storyOf(frame) {
  const story = [];
  let piece;
  rows.forEach(({change = {}}, at) => {
    const now = piecesIn(change).find(it => covers(it, frame));
    const words = Object.entries(change.words ?? {})
      .filter(([key]) => piece?.kind === 'page' && key.startsWith(`${piece.who} `));
    if (now && !isSame(now, piece)) story.push({at, piece: piece = now});
    else if (words.length) story.push({at, piece, words});
  });
  return story;
}

// ---- What a step does to a piece, each with its sign.
const MARKS = {
  moved: ['\u2192', 'page moved in'], taken: ['+', 'handed out'], freed: ['\u2212', 'freed'],
  split: ['\u00f7', 'split'], joined: ['\u222a', 'joined'],
  listed: ['\u203a', 'onto a processor\u2019s list'],
  drained: ['\u2039', 'back from a processor\u2019s list'],
  isolated: ['/', 'isolated'], released: ['o', 'no longer isolated'],
  mobility: ['\u2260', 'of the other mobility'], written: ['=', 'written'],
  online: ['\u25b4', 'came online'], unused: ['\u25be', 'not in use'],
};

// The marks of each piece that a change brings or writes to, by its first frame.
function marksOf(change, back) {
  const marks = new Map(), gone = piecesIn(back).sort((a, b) => a.frame - b.frame);
  let at = 0;
  for (const piece of piecesIn(change).sort((a, b) => a.frame - b.frame)) {
    while (at < gone.length && endOf(gone[at]) <= piece.frame) at++;
    let end = at;
    while (end < gone.length && gone[end].frame < endOf(piece)) end++;
    const all = marksOfPiece(piece, gone.slice(at, end), back.pages ?? {});
    if (all.length) marks.set(piece.frame, all);
  }
  for (const key of Object.keys(change.words ?? {})) {
    const frame = memory.pages.get(key.replace(/ \d+$/, ''));
    if (frame !== undefined && !marks.has(frame)) marks.set(frame, ['written']);
  }
  return marks;
}
function marksOfPiece(piece, was, pagesBefore) {
  const had = (...kinds) => was.some(old => kinds.includes(old.kind));
  const is = (...kinds) => kinds.includes(piece.kind);
  const [old] = was, one = was.length === 1;
  if (one && isSame(old, piece)) return [];
  const whole = is('free') && one && old.kind === 'free';        // of one free block
  const moved = is('page') && (pagesBefore[piece.who] ?? null) !== null;
  const marks = {
    moved, taken: is('page', 'kernel') && !moved, freed: is('free', 'listed') && had('page', 'kernel'),
    split: whole && old.order > piece.order,
    joined: is('free') && was.length > 1 && !had('offline', 'absent'),
    listed: is('listed') && had('free'), drained: is('free') && had('listed'),
    isolated: whole && isIsolated(piece) && !isIsolated(old),
    released: whole && isIsolated(old) && !isIsolated(piece),
    mobility: whole && old.who !== piece.who && !isIsolated(old) && !isIsolated(piece),
    online: !is('offline', 'absent') && had('offline', 'absent'), unused: is('offline', 'absent'),
  };
  return Object.keys(marks).filter(mark => marks[mark]);
}

// ---- The journal, and replies in advance. check_rules.mjs compares these with traces.
const tops = [], below = [];        // after a row the latest step that counts; below a step the next
const serials = [], seals = [];     // after a row the last serial, and the last one sealed
rows.forEach(({serial, drops, sealed, journal}, at) => {
  let top = tops[at - 1] ?? -1;
  if (drops) {
    const gone = new Set(drops);
    while (top >= 0 && gone.has(rows[top].serial)) top = below[top];
  }
  if (sealed !== undefined) top = -1;
  if (journal) {
    below[at] = top;
    top = at;
  }
  tops[at] = top;
  serials[at] = serial ?? serials[at - 1] ?? 0;
  seals[at] = sealed === undefined ? seals[at - 1] ?? 0 : serials[at];
});
const rowOfSerial = new Map(rows.flatMap(({serial}, at) => serial ? [[serial, at]] : []));
// The rows whose steps count after a row, the latest first, as long as `holds` does.
function netAt(index, holds = () => true) {
  const net = [];
  for (let at = tops[index]; at >= 0 && holds(at); at = below[at]) net.push(at);
  return net;
}
const blocksOf = op => [...memory.blocks].filter(([, row]) => row.op === op);
const isFull = index => serials[index] - seals[index] >= layout.history;
// What is in the way of a commit after the reached row: the pieces of going blocks that are not free.
function inTheWay(op) {
  return blocksOf(op).filter(([, {wish}]) => wish === 'off').sort(([a], [b]) => a - b)
    .flatMap(([block]) => piecesOf(+block).filter(piece => piece.kind !== 'free'));
}
function commitReply(op) {
  const [piece] = inTheWay(op), done = piece ? `refused NotFree ${piece.frame}` : 'done';
  return isFull(reached) ? 'fault HistoryFull' : blocksOf(op).length ? done : 'refused NoOp';
}
function cancelReply(op) {
  if (isFull(reached)) return 'fault HistoryFull';
  if (!blocksOf(op).length) return 'refused NoOp';
  const own = new RegExp(`^(drainfor|migrate) ${op}( |$)`);
  const later = netAt(reached, at => own.test(rows[at].call)).at(-1);
  const begin = later === undefined ? tops[reached] : below[later];
  return rows[begin]?.serial === op ? 'restored' : 'released';
}
function undoReply(serial, index) {
  if (isFull(index)) return 'fault HistoryFull';
  if (serial > serials[index] || serial < seals[index]) return 'refused Gone';
  return `undone ${netAt(index, at => rows[at].serial > serial).length}`;
}
// Whether an undo to a row's serial, after a later row, brings back the state of that row.
function undoRestores(row, index) {
  const serial = serials[row];
  if (!undoReply(serial, index).startsWith('undone')) return false;
  const dropped = netAt(index, at => rows[at].serial > serial).at(-1);
  const top = dropped === undefined ? tops[index] : below[dropped];
  return top === tops[row] || seals[row] < seals[index];
}
const zoneLists = ['NU', 'NM', 'MM', 'IN', 'IM'].flatMap(name => upTo(layout.order + 1).map(n => `${name} ${n}`));
const cpuLists = upTo(layout.cpus).flatMap(cpu => ['NU', 'NM', 'MM'].map(pool => `cpu ${cpu} ${pool}`));
