// Draws the current step and what the reader points at. Texts of a trace become text nodes, never markup.
const byId = id => document.getElementById(id);
const put = (id, ...children) => byId(id).replaceChildren(...children);
const folds = blockFrames * layout.blocks > 8192;   // too large to draw every memory block
let view, current = -1;                   // the current row, its change, that back, its marks; its number
let playing = 0, noting = 0;              // timers: of play, of the address
let picked = null, hovered = null;        // the frame that is followed, and pointed at
let cursor = 0, told = {};                // the frame that the Tab key leads to; a frame, and its story
let size, sizeKey, room = 0;              // of what is drawn, what it depends on; the width for it
const opened = new Set(), unfolded = new Set();     // memory blocks, and long lists, shown on demand
const cards = new Map(), boxes = new Map();         // elements of memory blocks, and of pageblocks
function make(tag, {aria = {}, data = {}, ...properties} = {}, ...children) {
  const element = Object.assign(document.createElement(tag), properties);
  for (const [name, value] of Object.entries(aria)) element.setAttribute(`aria-${name}`, value);
  Object.assign(element.dataset, data);
  element.append(...children);
  return element;
}
function svg(tag, attributes) {
  const element = document.createElementNS('http://www.w3.org/2000/svg', tag);
  for (const [name, value] of Object.entries(attributes)) element.setAttribute(name, value);
  return element;
}
const paragraph = (text, className = '') => make('p', {className}, text);
const quiet = text => make('span', {className: 'quiet'}, text);
const chip = (text, look, data, label = text) =>
  make('button', {className: `chip ${look}`, tabIndex: -1, data, aria: {label}}, text);
const frameChip = ([frame, mark]) => chip(`${frame}`, mark, {frame}, `frame ${frame} ${mark}`);
const stepChip = (at, look) => chip(`${rows[at].serial} ${rows[at].call.split(' ')[0]}`, look, {row: at});

// A list of buttons of which one is a stop of the Tab key; arrows lead to the others. Of a long list
// it has only the first, the last and some that are marked, until it is unfolded.
function roving(tag, key, items, toElement, isMarked = () => false) {
  const group = make(tag, {data: {roving: key}}), isWhole = items.length <= 24 || unfolded.has(key);
  let marked = 12, hidden = 0;
  items.forEach((item, at) => {
    const shows = isWhole || at < 12 || at >= items.length - 3 || (isMarked(item) && marked-- > 0);
    if (shows && hidden) group.append(chip(`\u2026 ${number(hidden)} more`, 'more', {unfold: key}));
    hidden = shows ? 0 : hidden + 1;
    if (shows) group.append(toElement(item));
  });
  group.querySelector('button')?.setAttribute('tabindex', 0);
  return group;
}
// Draws, and leads the focus back into the list in which it was.
function keepFocus(draw) {
  const active = document.activeElement, key = active.closest('[data-roving]')?.dataset.roving;
  draw();
  if (!key || active.isConnected) return;
  const items = [...document.querySelectorAll(`[data-roving="${key}"] button`)];
  const isOld = ({dataset: {frame, row}}) => frame === active.dataset.frame && row === active.dataset.row;
  (items.find(isOld) ?? items[0])?.focus();
}
function show(index) {
  index = Math.max(0, Math.min(last, Math.floor(index) || 0));
  if (index === current) return;
  const stale = new Set([...view?.marks.keys() ?? []].map(pageblockOf)
    .concat(Object.keys(view?.change.blocks ?? {}).flatMap(pageblocksOf)));
  goTo(index, stale);
  const row = rows[index], [change, back] = index && row.change ? [row.change, backs[index]] : [{}, {}];
  current = index;
  view = {row, change, back, marks: marksOf(change, back)};
  for (const frame of view.marks.keys()) stale.add(pageblockOf(frame));
  clearTimeout(noting);                             // browsers allow so many a second
  noting = setTimeout(() => history.replaceState(null, '', `#step=${current}`), 200);
  drawLines(true);                                  // first, since it asks for sizes
  drawMachine(stale);
  drawStep();
  keepFocus(drawPanels);
  drawFrame(), drawArrows();
  const changed = matchMedia('(min-width: 1100px)').matches && document.querySelector('.blocks .hot');
  if (changed) changed.closest('.block').scrollIntoView({block: 'nearest'});
}

// ---- The step, and the lines.
const kindOf = row => row.drops ? 'undo' : row.answer?.startsWith('refused') ? 'refused'
  : row.journal ? 'step' : 'other';
const askedText = row => shown(row.text ?? row.call);
const replyText = row => row.answer ? `${row.serial}: ${row.answer}` : '';
const firstOutput = row => shown((row.output ?? '').split('\n')[0]).replace(/ +/g, ' ');

// The pieces that have a mark; of those freed or drained what they were, and not what they joined.
function marked(mark) {
  const {marks, back} = view, has = frame => marks.get(frame)?.includes(mark);
  const was = {freed: ['page', 'kernel'], drained: ['listed']}[mark] ?? [], now = [...marks.keys()];
  return was.length ? piecesIn(back).filter(it => was.includes(it.kind) && has(pieceAt(it.frame).frame))
    : now.filter(has).map(frame => pieces.get(frame));
}
function drawStep() {
  const {row, back} = view, reply = make('span', {className: `reply ${kindOf(row)}`}, replyText(row));
  const also = !row.text ? `by processor ${row.cpu}`
    : row.call && !row.text.endsWith(row.call) ? `that is, ${row.call}` : '';
  put('asked', quiet(row.line ? `Line ${number(row.line)}` : 'Start'),
    make('code', {className: 'text'}, askedText(row)), quiet(also), reply);
  put('says', sayRow(row, (part, key) => back[part]?.[key]));
  byId('output').hidden = !row.output;
  put('output', (row.output ?? '').split('\n').map(shown).join('\n'));
  put('changes', ...Object.entries(MARKS).flatMap(([mark, [sign, text]]) => {
    const all = marked(mark), places = all.slice(0, 12).map(it => short(it.frame, it.order)).join(', ');
    const rest = all.length > 12 ? `, and ${all.length - 12} more` : '';
    return all.length ? make('li', {}, make('b', {}, sign), `${text}: ${places}${rest}`) : [];
  }));
}
// The lines that are in sight, and some around them: each is as high as all others.
function drawLines(moves, from, end) {
  const list = byId('lines'), seen = list.clientHeight, rem = getComputedStyle(document.documentElement).fontSize;
  const high = 2.6 * parseFloat(rem), top = current * high, counts = new Set(netAt(current));
  if (!list.firstChild) list.appendChild(make('li')).style.height = `${rows.length * high}px`;   // to scroll
  if (moves && (top < list.scrollTop || top + high > list.scrollTop + seen)) list.scrollTop = top - seen / 2;
  from ??= Math.max(0, Math.floor(list.scrollTop / high / 8) * 8 - 8);
  const some = rows.slice(from, end ?? from + Math.ceil(seen / high) + 24), key = `${from} ${some.length} ${high}`;
  if (list.dataset.key !== key) {
    list.dataset.key = key;
    list.replaceChildren(...some.map((row, n) => {
      const words = askedText(row), reply = [replyText(row), firstOutput(row)].filter(Boolean).join('; ');
      const aria = {posinset: from + n + 1, setsize: rows.length}, data = {row: from + n}, id = `row${from + n}`;
      return make('li', {className: kindOf(row), id, role: 'option', title: `${words}\n${reply}`, aria, data},
        make('span', {className: 'number'}, row.text ? `${row.line}` : ''),
        make('span', {className: `words text ${row.text ? '' : 'call'}`}, words),
        make('span', {className: 'reply text'}, reply));
    }));
    list.firstChild.style.marginTop = `${from * high}px`;         // padding would make the list as high
    list.lastChild.style.marginBottom = `${(rows.length - from - some.length) * high}px`;
  }
  for (const element of list.children) {
    const at = +element.dataset.row;
    element.ariaSelected = at === current;
    element.classList.toggle('dropped', Boolean(at < current && rows[at].journal && !counts.has(at)));
  }
  list.setAttribute('aria-activedescendant', `row${current}`);
  byId('slider').value = byId('step').value = current;
  byId('slider').ariaValueText = `step ${current} of ${last}: ${askedText(view.row)}, ${replyText(view.row)}`;
}

// ---- The machine.
// The largest cells with which this many memory blocks fit the stage, else some that can be read. All
// widths are powers of two, so that each free block is a rectangle.
function fit(blocks) {
  const height = Math.max(300, innerHeight - 400), sizes = [56, 48, 40, 34, 28, 24, 20, 17, 14, 12, 10, 8];
  const layouts = cell => {
    const out = [], gap = cell < 15 ? 4 : 8;
    for (let columns = 2 ** Math.min(layout.order, 3); columns <= blockFrames; columns *= 2) {
      const wide = Math.min(columns, pageblockFrames), across = columns / wide;
      const blockWidth = Math.max(cell < 28 ? 82 : 140, cell * columns + gap * (across - 1) + 14);
      const blockHeight = cell * blockFrames / columns + (gap + 4) * layout.pageblocks / across - gap + 35;
      const most = Math.max(1, Math.floor((room + gap + 5) / (blockWidth + gap + 5)));
      const lines = Math.ceil(blocks / most), perRow = Math.ceil(blocks / lines);
      const high = lines * (blockHeight + gap + 4), fits = blockWidth <= room && high <= height;
      if (!out.length || blockWidth <= room) {
        out.push({cell, gap, wide, across, blockWidth, blockHeight, perRow, high, fits});
      }
    }
    return out.sort((a, b) => a.high - b.high || b.wide - a.wide)[0];
  };
  const all = sizes.map(layouts);
  return all.find(it => it.fits) ?? all.find(it => it.cell <= 12 && it.blockWidth <= room) ?? all.at(-1);
}
const rowOf = block => memory.blocks.get(`${block}`);
const pageClass = owner => `page owner${owner % 7}${owner > 6 ? ' striped' : ''}`;
const letterOf = owner => 'abcdefghijklmnopqrstuvwxyz'[owner % 26];
const stateName = (state, long) => ({normal: long ? 'Normal' : 'N', movable: long ? 'Movable' : 'M'}[state] ?? state);

// A memory block's frames by their places.
function countsOf(block) {
  const counts = {page: 0, kernel: 0, listed: 0, free: 0, offline: 0, absent: 0};
  for (const piece of piecesOf(block)) counts[piece.kind] += 2 ** piece.order;
  return Object.entries(counts).filter(([, n]) => n);
}
function aboutBlock(block) {
  const names = {page: 'with pages', listed: 'on processors\u2019 lists'};
  const counts = countsOf(block).map(([kind, n]) => `${number(n)} ${names[kind] ?? kind}`);
  return `Memory block ${block}, ${blockText(rowOf(block))}; frames: ${counts.join(', ')}`;
}
// Its number, its zone or state, and where it is to go.
function titleOf(block, width) {
  const {state, zone, wish} = rowOf(block), long = width >= 200;
  const goal = wish ? ` \u2192 ${stateName(wish, long)}` : '';
  return [make('span', {}, width >= 140 ? `block ${block}` : `${block}`),
    make('span', {className: 'quiet'}, stateName(zone ?? state, long), make('b', {}, goal))];
}
function drawPiece(it) {
  const {kind, frame, order, who} = it, {cell, wide} = size, marks = view.marks.get(frame);
  const at = frame % pageblockFrames, columns = Math.min(2 ** order, wide), roomy = cell >= 28;
  const [name, page] = who.split(' '), owner = head.names.indexOf(name), letter = letterOf(owner);
  const text = cell < 12 ? '' : {
    free: columns * cell > 80 ? `order ${order}` : order || roomy ? `${order}` : '',
    listed: name, kernel: 'K',
    page: [`${name} ${page}`, `${letter} ${page}`].find(it => roomy && it.length * 8 < cell) ?? letter,
  }[kind] ?? '';
  const look = {page: pageClass(owner), free: isIsolated(it) ? 'free isolated' : 'free'}[kind] ?? kind;
  const piece = make('span', {className: `piece ${look} ${marks ? 'hot' : ''}`, role: 'img', tabIndex: -1,
    data: {frame}, aria: {label: `${span(frame, order)}: ${placeText(it)}`, describedby: 'tip'}});
  if (roomy) piece.append(make('i', {}, `${frame}`));
  if (text) piece.append(make('span', {}, text));
  if (marks && cell >= 14) piece.dataset.mark = marks.map(mark => MARKS[mark][0]).join('');
  piece.style.gridArea = `${Math.floor(at / wide) + 1} / ${at % wide + 1} / `
    + `span ${2 ** order / columns} / span ${columns}`;
  return piece;
}
function drawBox(pageblock) {
  const {zone} = rowOf(Math.floor(pageblock / layout.pageblocks));
  const mobility = zone ? memory.pageblocks.get(`${pageblock}`) ?? 'movable' : '';
  const all = piecesFrom(pageblock * pageblockFrames, (pageblock + 1) * pageblockFrames);
  const box = make('div', {className: `pageblock ${mobility}`}, ...all.map(drawPiece));
  boxes.get(pageblock)?.replaceWith(box);
  boxes.set(pageblock, box);
  return box;
}
function drawTitle(block) {
  const card = cards.get(block), changed = view.change.blocks?.[block] ? 'changed' : '';
  card.className = `block ${rowOf(block).state} ${changed}`;
  card.setAttribute('aria-label', aboutBlock(block));
  card.firstChild.replaceChildren(...titleOf(block, size.blockWidth));
  return card;
}
function drawCard(block) {
  cards.set(block, make('section', {role: 'group'}, make('h3'),
    make('div', {className: 'pageblocks'}, ...pageblocksOf(block).map(drawBox))));
  return drawTitle(block);
}
function drawTile(block) {
  const bar = make('span', {className: 'bar'}), label = aboutBlock(block), expanded = cards.has(block);
  for (const [kind, n] of countsOf(block)) {
    bar.append(make('span', {className: kind}));
    bar.lastChild.style.flexGrow = n;
  }
  const className = `tile ${changedBlocks().includes(block) ? 'changed' : ''}`, aria = {expanded, label};
  return make('button', {className, title: label, data: {block}, aria}, ...titleOf(block, 0), bar);
}
const changedBlocks = () => [...Object.keys(view.change.blocks ?? {}), ...[...view.marks.keys()].map(blockOf)]
  .map(Number).sort((a, b) => a - b);
// Draws what is stale, or all anew if the size changes. Of a large machine it draws a tile for each memory
// block, and in full up to four that the step changes, that of the followed frame, and those opened by hand.
function drawMachine(stale = []) {
  const machine = byId('machine'), hadFocus = machine.contains(document.activeElement);
  const some = [...new Set(changedBlocks())].slice(0, 4).concat(picked === null ? [] : blockOf(picked), ...opened);
  const drawn = upTo(layout.blocks).filter(block => !folds || some.includes(block));
  const key = [room, innerHeight, ...drawn].join();
  const blocks = new Set([...stale].map(it => Math.floor(it / layout.pageblocks)));
  if (key !== sizeKey) {
    for (const block of [...cards.keys(), ...drawn]) blocks.add(block);
    sizeKey = key;
    size = fit(Math.max(1, drawn.length));
    cards.clear(), boxes.clear();
    machine.replaceChildren(make('div', {className: 'blocks'}, ...drawn.map(drawCard)));
    for (const [name, n] of Object.entries(size)) {
      machine.style.setProperty(`--${name}`, ['wide', 'across', 'perRow'].includes(name) ? n : `${n}px`);
    }
  } else {
    for (const pageblock of stale) if (boxes.has(pageblock)) drawBox(pageblock);
    for (const block of blocks) if (cards.has(block)) drawTitle(block);
  }
  const tiles = byId('tiles');
  if (folds && !tiles.firstChild) put('tiles', ...upTo(layout.blocks).map(drawTile));
  else if (folds) for (const block of blocks) tiles.children[block].replaceWith(drawTile(block));
  moveCursor(cursor, hadFocus);
}
// An arrow from the old frame of each page that moved to its new one.
function drawArrows() {
  const {pages: old = {}} = view.back, {cell, wide} = size, arrows = svg('svg', {id: 'arrows', 'aria-hidden': true});
  const moved = [...view.marks.keys()].filter(frame => view.marks.get(frame).includes('moved')).slice(0, 40);
  byId('arrows')?.remove();
  if (!moved.length) return;
  const {left, top} = byId('machine').getBoundingClientRect();
  const centre = at => {
    const box = boxes.get(pageblockOf(at))?.getBoundingClientRect(), n = at % pageblockFrames;
    return box && [box.left - left + (n % wide + .5) * cell, box.top - top + (Math.floor(n / wide) + .5) * cell];
  };
  for (const [from, to] of moved.map(at => [centre(old[pieces.get(at).who]), centre(at)])) {
    if (!from || !to) continue;
    const [dx, dy] = [to[0] - from[0], to[1] - from[1]], bend = dx < 0 ? -.2 : .2;
    const over = [from[0] + dx / 2 + dy * bend, from[1] + dy / 2 - dx * bend];
    const part = Math.min(.4, cell * .42 / Math.hypot(to[0] - over[0], to[1] - over[1]));
    const tip = to.map((x, i) => x + (over[i] - x) * part), d = `M${from} Q${over} ${tip}`;
    const turn = Math.atan2(to[1] - over[1], to[0] - over[0]) * 180 / Math.PI;
    arrows.append(svg('path', {d, class: 'halo'}), svg('path', {d}),
      svg('path', {d: 'M3 0L-9 -6V6Z', class: 'head', transform: `translate(${tip}) rotate(${turn})`}));
  }
  byId('machine').append(arrows);
}
