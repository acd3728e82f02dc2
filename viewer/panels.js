// Draws the panels beside the memory, and takes keys, buttons, the pointer and the address.
function aboutFrame(frame) {
  const piece = pieceAt(frame), row = rowOf(blockOf(frame)), {kind, order, who} = piece;
  const list = memory.lists.get(piece.list), buddy = piece.frame ^ 2 ** order;
  const more = layout.words > 16 ? ` and ${layout.words - 16} more` : '';
  const facts = [['Frame', `${frame}, in pageblock ${pageblockOf(frame)} of memory block ${blockOf(frame)}`],
    ['Block', blockText(row)], ['Place', placeText(piece)]];
  if (row.zone) facts.splice(2, 0, ['Pageblock', memory.pageblocks.get(`${pageblockOf(frame)}`) ?? 'movable']);
  if (list) facts.push(['In its list', `${list.indexOf(piece.frame) + 1} of ${list.length} from the front`]);
  if (kind === 'free' && order < layout.order) facts.push(['Buddy', `${span(buddy, order)}: `
    + (pieceAt(buddy).kind === 'free' ? 'not free as a whole' : placeText(pieceAt(buddy)))]);
  if (kind === 'page') facts.push(['Words', wordsOf(who, Math.min(16, layout.words)).join(' ') + more]);
  return make('dl', {}, ...facts.flatMap(([term, text]) => [make('dt', {}, term), make('dd', {}, text)]));
}
// What became of a frame: the steps that touched it, the latest up to now marked; in a tip those near it.
function tellStory(frame, isTip) {
  if (told.frame !== frame) told = {frame, story: storyOf(frame)};
  const {story} = told, now = story.findLastIndex(({at}) => at <= current);
  const lineOf = ({line, text, call}) => line ? `line ${line}${text ? '' : `, ${call}`}` : 'boot';
  const items = story.map(({at, piece, words}, n) => ({row: at, far: n - now,
    text: `${lineOf(rows[at])}: ${words ? wordsText(words) : placeText(piece)}`}));
  const toStep = ({row, far, text}) => chip(text, far ? 'step' : 'step now', {row});
  const toLine = ({far, text}) => paragraph(text, far > 0 ? 'quiet' : far ? '' : 'now');
  return [paragraph(`Touched by ${count(story.length, 'step')}:`, 'quiet'),
    ...isTip ? items.filter(({far}) => far > -4 && far < 3).map(toLine)
      : [roving('div', 'story', items, toStep, ({far}) => Math.abs(far) < 4)]];
}
function drawFrame() {
  keepFocus(() => put('frame', ...picked !== null ? [aboutFrame(picked), ...tellStory(picked)] : [paragraph(
    'Point at a frame to see which steps touched it. Choose it, or give its number, to follow it here.', 'quiet')]));
  if (document.activeElement !== byId('follow')) byId('follow').value = picked ?? '';
  if (hovered !== null) put('tip', aboutFrame(hovered), ...tellStory(hovered, true));
  const frame = hovered ?? picked, first = frame === null ? null : pieceAt(frame).frame;
  for (const element of document.querySelectorAll('.picked')) element.classList.remove('picked');
  for (const element of document.querySelectorAll(`[data-frame="${first}"]`)) element.classList.add('picked');
}
function drawOperations() {
  const operations = new Set([...memory.blocks.values()].flatMap(({op}) => op ?? []));
  const lineOf = op => rowOfSerial.has(op) ? `begun in line ${rows[rowOfSerial.get(op)].line}` : '';
  const out = [...operations].flatMap(op => [make('h3', {}, `Operation ${op} `, quiet(lineOf(op))),
    ...blocksOf(op).map(([block, row]) => paragraph(`Block ${block}, now ${row.state}, is to ${wishText(row.wish)}.`)),
    paragraph(sayCommit(op)), paragraph(sayCancel(op))]);
  put('operations', ...out.length ? out : [paragraph('None is live.', 'quiet')]);
}
// A list's frames, each with what the step did to it; those that left it stand where they were.
function listItems(key) {
  const list = memory.lists.get(key) ?? [], {at = 0, put: came = []} = view.change.lists?.[key] ?? {};
  const left = view.back.lists?.[key]?.put ?? [], wasHere = new Set(left), isHere = new Set(came);
  const marked = came.map(frame => [frame, wasHere.has(frame) ? 'moved' : 'new']);
  const gone = left.filter(frame => !isHere.has(frame)).map(frame => [frame, 'gone']);
  const plain = frame => [frame, ''];
  return [...list.slice(0, at).map(plain), ...gone, ...marked, ...list.slice(at + came.length).map(plain)];
}
function drawLists(id, keys, titleOf, nameOf) {
  const out = Object.entries(Object.groupBy(keys, titleOf)).flatMap(([title, keys]) => {
    const lists = keys.map(key => [key, listItems(key)]).filter(([, items]) => items.length);
    const dl = make('dl', {}, ...lists.flatMap(([key, items]) => {
      const list = roving('dd', key, items, frameChip, item => item[1]);
      if (items.every(item => item[1] === 'gone')) list.append(quiet('empty'));
      return [make('dt', {}, nameOf(key)), list];
    }));
    return lists.length ? [make('h3', {}, `${title} `, quiet(CLASSES[title] ?? '')), dl] : [];
  });
  put(id, ...out.length ? out : [paragraph('All are empty.', 'quiet')]);
}
function drawJournal() {
  const {line, answer, drops, journal, sealed} = view.row;
  const toItem = ([name, ...rest]) => make('li', {}, start(DELTAS[name]?.(...rest) ?? name));
  const known = (drops ?? []).toReversed().flatMap(serial => rowOfSerial.get(serial) ?? []);
  put('journal', paragraph(journal ? journal.length ? `${count(journal.length, 'delta')}, which an undo runs backwards.`
    : 'An entry without deltas: there was nothing to change.'
    : drops ? `None. ${count(drops.length, 'entry', 'entries')} of earlier steps ran backwards, in this order:`
    : !line ? 'None: the history begins here.'
    : sealed !== undefined ? 'None: the journal is empty now.'
    : answer?.startsWith('refused') ? 'None: a refusal changes nothing, so there is nothing to undo.'
    : answer ? 'None: a read is no step.' : 'None: this made no record.'),
  drops ? roving('div', 'drops', known, at => stepChip(at, '')) : roving('ol', 'journal', journal ?? [], toItem));
}
function drawUndo() {
  const serial = serials[current], reply = undoReply(serial, last), isUndone = reply.startsWith('undone');
  const goes = isUndone ? netAt(last, at => rows[at].serial > serial) : [], text = reply === 'refused Gone'
    ? ', as the history was sealed in between.' : !isUndone ? ', as the history is full.'
    : undoRestores(current, last) ? ' and bring exactly this state back.'
    : ', but not bring this state back: steps that led to it were undone later.';
  put('undo', paragraph(`At the end of the trace, undo ${serial} would reply ${reply}${text}`
    + (goes.length ? ' It would drop, the latest first:' : '')),
  roving('div', 'goes', goes, at => stepChip(at, 'dropped')));
}
function drawPanels() {
  for (const draw of [drawOperations, drawJournal, drawUndo]) draw();
  drawLists('free', zoneLists, key => key.slice(0, 2), key => `order ${key.slice(3)}`);
  drawLists('cpus', cpuLists, key => `Processor ${key.split(' ')[1]}`, key => key.split(' ')[2]);
}
// What no step changes: the title, the ends of the slider, its marks, and the legend.
function drawFrameOfAll() {
  put('layout', `${count(layout.blocks, 'memory block')}, each ${count(layout.pageblocks, 'pageblock')} of `
    + `${count(pageblockFrames, 'frame')}; ${count(layout.cpus, 'processor')}`);
  put('form', head.trace);
  put('steps', `of ${number(byId('slider').max = byId('step').max = last)}`);
  byId('follow').max = blockFrames * layout.blocks - 1;
  byId('ticks').setAttribute('viewBox', `0 0 ${Math.max(1, last)} 16`);
  const thick = last / 250, places = [...new Set(upTo(251).map(n => Math.ceil(n * thick)))];
  for (const [kind, high] of [['refused', 6], ['undo', 12]]) {
    const all = places.filter((from, n) => rows.slice(from, places[n + 1]).some(row => kindOf(row) === kind));
    const toBar = at => `M${at - thick / 2} 14h${thick}v${-high}h${-thick}z`;
    byId('ticks').append(svg('path', {d: all.map(toBar).join(''), class: kind}));
  }
  const owners = head.names.slice(0, 14).map((name, at) => [pageClass(at), `page of ${name}`, letterOf(at)]);
  put('legend', ...[['free', 'free block, its order', '2'], ['free isolated', 'the same, isolated'],
    ['listed', 'on the list of processor 0', '0'], ...owners, ['kernel', 'kernel', 'K'],
    ['offline', 'offline'], ['absent', 'absent'], ['hot', 'changed in this step'],
    ['rule', 'movable pageblock'], ['rule unmovable', 'unmovable pageblock']].map(([look, text, label = '']) =>
    make('li', {}, make('span', {className: `piece ${look}`}, make('span', {}, label)), text)));
}

// ---- Control: buttons, slider, keys, pointer, address.

const ways = {first: () => 0, back: () => current - 1, next: () => current + 1, last: () => last};
function play(on) {
  const button = document.querySelector('[data-go=play]'), step = () => current < last ? show(current + 1) : play(false);
  clearInterval(playing);
  playing = on ? setInterval(step, +byId('pace').value) : 0;
  button.ariaPressed = on;
  button.ariaLabel = on ? 'Pause' : 'Play';
  if (on) show(current < last ? current + 1 : 0);
}
const go = index => (play(false), show(index));

function pick(frame) {
  picked = frame;
  if (folds) drawMachine();
  drawFrame(), drawArrows();
}
// The frame that an event is about: in a piece of several frames the one below the pointer.
function frameOf({target, clientX, clientY}) {
  const element = target.closest?.('[data-frame]');
  if (!element) return null;
  const first = +element.dataset.frame, {cell, wide} = size, box = element.getBoundingClientRect();
  if (!element.matches('.piece') || !clientX) return first;
  const frames = 2 ** pieces.get(first).order, columns = Math.min(wide, frames);
  const place = (from, most) => Math.max(0, Math.min(most - 1, Math.floor(from / cell)));
  return first + columns * place(clientY - box.top, frames / columns) + place(clientX - box.left, columns);
}
function tip(frame, x, y) {
  const box = byId('tip'), isNew = frame !== hovered;
  hovered = frame;
  if (isNew) drawFrame();
  if (box.hidden = frame === null) return;
  const below = y + 18 + box.offsetHeight < innerHeight;
  box.style.left = `${Math.max(4, Math.min(x + 14, innerWidth - box.offsetWidth - 8))}px`;
  box.style.top = `${below ? y + 18 : Math.max(4, y - box.offsetHeight - 14)}px`;
}
// Of the machine and of each list one piece is reached by the Tab key; arrow keys lead to the others.
function rove(group, to, focus) {
  group.querySelector('[tabindex="0"]')?.setAttribute('tabindex', -1);
  to.tabIndex = 0;
  if (group === byId('machine')) cursor = +to.dataset.frame;
  if (focus) to.focus();
}
function moveCursor(frame, focus) {
  const all = [...document.querySelectorAll('.blocks .piece')];
  if (all.length) rove(byId('machine'), all.findLast(piece => +piece.dataset.frame <= frame) ?? all[0], focus);
}
function moveFrom(target, key) {
  const group = target.closest('#machine, [data-roving]'), all = [...group.querySelectorAll('.piece, button')];
  const far = {ArrowUp: -blockFrames, ArrowDown: blockFrames}[key] ?? 0;
  if (far && target.matches('.piece')) moveCursor(cursor + far, true);
  else rove(group, all[all.indexOf(target) + ({ArrowLeft: -1, ArrowRight: 1}[key] ?? 0)] ?? target, true);
}
document.addEventListener('click', event => {
  const active = '[data-go], [data-row], [data-unfold], [data-block]', frame = frameOf(event);
  const {dataset = {}} = event.target.closest(active) ?? {};
  if (dataset.go === 'play') play(!playing);
  else if (dataset.go) go(ways[dataset.go]());
  else if (dataset.row) go(+dataset.row);
  else if (dataset.unfold) {
    unfolded.add(dataset.unfold);
    keepFocus(drawPanels), drawFrame();
  } else if (dataset.block) {
    opened.delete(+dataset.block) || opened.add(+dataset.block);
    drawMachine(), drawArrows();
    byId('tiles').children[dataset.block].focus();
  } else if (frame !== null) pick(frame === picked ? null : frame);
  else tip(null);
});

document.addEventListener('keydown', event => {
  const {key, target} = event;
  if (event.ctrlKey || event.metaKey || event.altKey || target.matches?.('input, select')) return;
  const isIn = selector => target.matches?.(selector);
  const way = {ArrowLeft: 'back', ArrowRight: 'next', Home: 'first', End: 'last',
    ...isIn('#lines') ? {ArrowUp: 'back', ArrowDown: 'next'} : {}}[key];
  if (key === 'Escape') pick(null), tip(null);
  else if (key.startsWith('Arrow') && isIn('.piece, [data-roving] button')) moveFrom(target, key);
  else if (isIn('.piece') && (key === 'Enter' || key === ' ')) pick(cursor === picked ? null : cursor);
  else if (way) go(ways[way]());
  else if (key === ' ' && !isIn('button, summary')) play(!playing);
  else return;
  event.preventDefault();
});
document.addEventListener('pointermove', event => {
  const frame = frameOf(event);
  if (frame !== null || hovered !== null) tip(frame, event.clientX, event.clientY);
});
byId('machine').addEventListener('mousedown', event => event.preventDefault());   // keys still step
document.addEventListener('focusin', ({target}) => {
  const {left, bottom} = target.getBoundingClientRect();
  tip(target.matches('[data-frame]:focus-visible') ? +target.dataset.frame : null, left, bottom);
});
const within = ({value, max}) => value === '' ? null : Math.max(0, Math.min(+max, Math.floor(value)));
byId('slider').addEventListener('input', ({target}) => go(+target.value));
byId('step').addEventListener('change', ({target}) => go(within(target) ?? current));
byId('follow').addEventListener('input', ({target}) => pick(within(target)));
byId('pace').addEventListener('change', () => playing && play(true));
byId('lines').addEventListener('scroll', () => drawLines(false), {passive: true});
addEventListener('beforeprint', () => drawLines(false, Math.max(0, current - 200), current + 200));
addEventListener('afterprint', () => drawLines(true));

function fromAddress(hash) {
  const words = new URLSearchParams(hash.slice(1)), line = words.get('line');
  show(line === null ? +words.get('step') : rows.findIndex(row => row.line === +line));
}
addEventListener('hashchange', event => fromAddress(new URL(event.newURL).hash));
new ResizeObserver(() => {
  room = byId('scroll').clientWidth - 8;
  if (view) drawMachine(), drawArrows();
  else drawFrameOfAll(), fromAddress(location.hash);
}).observe(byId('scroll'));
