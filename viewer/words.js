// The trace in words. Characters that cannot be seen, or that turn the direction of reading, are shown
// by their numbers: the set of `is_hidden` in crates/hp_text/src/escapes.rt.

const HIDDEN =
  /[\\\u0000-\u001f\u007f-\u00a0\u00ad\u061c\u1680\u180e\u2000-\u200f\u2028-\u202f\u205f-\u206f\u3000\ufeff\ufff9-\ufffb]/g;
const shown = text => String(text).replace(HIDDEN, c =>
  c === '\\' ? '\\\\' : `\\u${c.charCodeAt(0).toString(16).padStart(4, '0')}`);
const number = n => n.toLocaleString('en');
const count = (n, one, many = `${one}s`) => `${number(n)} ${n === 1 ? one : many}`;
const and = texts => texts.length < 2 ? texts.join('')
  : `${texts.slice(0, -1).join(', ')} and ${texts.at(-1)}`;
const start = text => text.charAt(0).toUpperCase() + text.slice(1);
const short = (frame, order) => order ? `${frame}\u2013${frame + 2 ** order - 1}` : `${frame}`;
const span = (frame, order) => order ? `frames ${frame} to ${frame + 2 ** order - 1}` : `frame ${frame}`;
const zoneName = zone => zone === 'normal' ? 'Normal' : 'Movable';
const wishText = wish => wish === 'off' ? 'go offline' : `come online in zone ${zoneName(wish)}`;
const pageText = (name, page) => `page ${page} of ${name}`;

const CLASSES = {
  NU: 'zone Normal, unmovable', NM: 'zone Normal, movable', MM: 'zone Movable',
  IN: 'zone Normal, isolated', IM: 'zone Movable, isolated',
};

function blockText({state, zone, op, wish}) {
  return (state === 'going' ? 'going offline' : state) + (zone ? ` in zone ${zoneName(zone)}` : '')
    + (op ? `; operation ${op} wants it to ${wishText(wish)}` : '');
}
function listText(key) {
  const [first, second, pool] = key.split(' ');
  return pool ? `processor ${second}\u2019s list ${pool}` : `list ${first} of order ${second}`;
}
function placeText({kind, frame, order, who}) {
  const over = order ? `, ${span(frame, order)}` : '';
  return {
    free: `free block of order ${order} on ${who}${over}${who[0] === 'I' ? ', isolated' : ''}`,
    listed: `on processor ${who.split(' ')[0]}\u2019s list ${who.split(' ')[1]}`,
    page: pageText(...who.split(' ')), kernel: `kernel block of order ${order}${over}`,
    offline: 'not in use: its memory block is offline',
    absent: 'not there: its memory block is absent',
  }[kind];
}
const wordsText = words => words.map(([key, word]) => `word ${key.split(' ')[2]} = ${word ?? 0}`).join(', ');

const REFUSALS = {                        // and faults
  EmptyPlan: 'the plan names no memory block', NoBlock: 'the layout has no such memory block',
  NoCpu: 'the layout has no such processor', NoPage: 'the layout gives an owner no page of this number',
  NoSuchFrame: 'the layout has no such frame', NoWord: 'a page has no word of this number',
  NoOwner: 'there are more names than the layout has owners', BadOrder: 'the layout has no such order',
  BadAddress: 'the address is no multiple of the size of a memory block',
  AlreadyMapped: 'the page already has a frame', NotMapped: 'the page has no frame',
  NotKernel: 'no kernel block starts at this frame', NotFree: 'frame # is not in the free lists',
  NoFrame: 'no free block that may be used is large enough',
  Busy: 'an operation holds memory block #', NotOnline: 'memory block # is not online',
  NotOffline: 'memory block # is not offline', NotAbsent: 'memory block # is there already',
  Twice: 'the plan names memory block # twice', NoOp: 'no live operation has this number',
  Unmovable: 'the kernel uses frame #, and its memory cannot move',
  NothingToMove: 'no page is left in the memory blocks that go',
  Gone: 'there is no such record: it is yet to come, or it was sealed', HistoryFull: 'the history is full',
  NoFile: 'there is no such control file', BadText: 'the control file does not take this text',
  ReadOnly: 'the control file can only be read', WriteOnly: 'the control file can only be written',
};
const refusal = ([name, n]) => REFUSALS[name]?.replace('#', n) ?? name;
// What a call does, by its verb: `w` are the words after it, `a` those of its reply, `was` gives the
// old value of a part's key.
const becameText = row => and(Object.entries(row.change?.blocks ?? {})
  .map(([block, now]) => `memory block ${block} is now ${blockText(now)}`));
const SAYS = {
  kalloc: (w, a) => `The kernel gets ${span(+a[0], +w[0])}.`,
  kfree: (w, a, row, was) => `The kernel gives back ${span(+w[0], was('kernel', w[0]))}.`,
  map: w => `${start(pageText(...w))} gets frame ${memory.pages.get(`${w[0]} ${w[1]}`)}; `
    + 'all its words are 0.',
  unmap: (w, a, row, was) => `${start(pageText(...w))} gives back frame `
    + `${was('pages', `${w[0]} ${w[1]}`)}; its words are gone.`,
  write: (w, a, row, was) => `Word ${w[2]} of ${pageText(...w)} becomes ${w[3]}; it was `
    + `${was('words', w.slice(0, 3).join(' ')) ?? 0}.`,
  read: (w, a) => `Word ${w[2]} of ${pageText(...w)} is ${a[0]}.`,
  drain: w => `Processor ${w[0]}\u2019s lists go back to the free lists.`,
  drainfor: w => `For operation ${w[0]}, processor ${w[1]}\u2019s lists go back to the free lists.`,
  online: (w, a, row) => `${start(becameText(row))}; its frames are free.`,
  remove: w => `Memory block ${w[0]} is taken out.`,
  probe: (w, a, row) => `A memory block is plugged in: ${becameText(row)}.`,
  auto: w => `From now on, a memory block that is plugged in becomes ${w[0]}.`,
  begin: (w, a) => `Operation ${a[0]} opens: ` + and(w.flatMap((wish, at) => at % 2 ? []
    : `memory block ${w[at + 1]} is to ${wishText(wish)}`)) + '.'
    + (w.includes('off') ? ' Free frames of a block that goes are no longer handed out.' : ''),
  migrate: (w, a) => `${start(pageText(...pieceAt(+a[1]).who.split(' ')))} moves from frame ${a[0]} to `
    + `frame ${a[1]}, with its words.`,
  commit: (w, a, row) => `Operation ${w[0]} is carried out in one step: ${becameText(row)}.`,
  cancel: (w, a, row) => `Operation ${w[0]} is given up. ` + (row.answer === 'restored'
    ? 'Since its begin only its own drains and migrations changed anything, so all is as before it.'
    : 'Its memory blocks are as before its begin; pages that moved stay where they are.'),
  undo: (w, a) => a[0] === '0' ? `There is no step after record ${w[0]} to take back.`
    : `Takes back ${count(+a[0], 'step')} after record ${w[0]}, the latest first. The state is that `
      + 'from before them, down to the order of the lists.',
};

function outputText({output, sealed}) {
  const [what, how, ...rest] = output.split(' ');
  if (sealed !== undefined) return `The history, ${count(sealed, 'record')}, is handed out and starts anew. `
    + 'The state stays; what was before can no longer be undone.';
  if (what !== 'plan:') return how === 'fault' ? `No record is made: ${refusal(rest)}.`
    : 'Reads a control file. This makes no record and changes nothing.';
  const why = rest[0] === '-' ? '' : ` Its last refusal was ${rest.slice(0, -1).join(' ')}.`;
  return {
    done: 'The plan is carried out.', undone: 'The plan ends: another call ended its operation.',
    refused: `The plan is refused: ${refusal(rest)}.`,
    cancelled: `The plan has used up its turns and is cancelled.${why}`,
    left: `The plan stops, as no record is made: ${refusal(rest.slice(1))}.`,
  }[how];
}
function sayRow(row, was) {
  const texts = [];
  if (row.line === 0) texts.push('The memory at boot.');
  if (row.answer) {
    const [verb, ...words] = row.call.split(' '), [how, ...more] = row.answer.split(' ');
    texts.push(how === 'refused' ? `Refused: ${refusal(more)}. Nothing changes.`
      : SAYS[verb]?.(words, more, row, was) ?? '');
  }
  if (row.output) texts.push(outputText(row));
  return texts.join(' ') || 'A driver carries this plan out by the calls that follow.';
}
function sayCommit(op) {
  const left = inTheWay(op), reply = `A commit now would reply ${commitReply(op)}`;
  const of = (kind, ...words) => count(left.filter(piece => piece.kind === kind).length, ...words);
  const ways = [of('page', 'page'), of('kernel', 'kernel block'),
    of('listed', 'frame on a processor\u2019s list', 'frames on processors\u2019 lists')];
  return left.length ? `${reply}. In the way: ${and(ways.filter(text => !text.startsWith('0 ')))}.`
    : `${reply}: nothing is in the way.`;
}
function sayCancel(op) {
  const reply = cancelReply(op), sealed = seals[reached] >= op;
  const why = {restored: ': only its own drains and migrations came after its begin',
    released: sealed ? ': its begin was sealed' : ': other steps came after its begin'}[reply] ?? '';
  return `A cancel now would reply ${reply}${why}.`;
}
const turn = (was, now) => `${was ?? 'none'} \u2192 ${now ?? 'none'}`;
const where = after => after === null ? 'in front' : `behind ${after}`;
const DELTAS = {
  link: (list, frame, after) => `frame ${frame} goes onto ${listText(list)}, ${where(after)}`,
  unlink: (list, frame, after) => `frame ${frame} leaves ${listText(list)}; it was ${where(after)}`,
  kind: (pageblock, was, now) => `pageblock ${pageblock}: ${turn(was, now)}`,
  kernel: (frame, was, now) => `order of the kernel block at frame ${frame}: ${turn(was, now)}`,
  map: (name, page, was, now) => `frame of ${pageText(name, page)}: ${turn(was, now)}`,
  swap: (a, b) => `frames ${a} and ${b} exchange their words`,
  word: (frame, index, was, now) => `word ${index} of frame ${frame}: ${turn(was, now)}`,
  emptied: (frame, words) => `frame ${frame} loses its words, ${words.join(' ')}`,
  row: (block, was, now) => `memory block ${block}: ${turn(blockText(was), blockText(now))}`,
  auto: (was, now) => `auto_online_blocks: ${turn(was, now)}`,
};
