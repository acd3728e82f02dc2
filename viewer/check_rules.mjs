// Compares what the page works out for itself with a trace's own replies, and its states with those
// of `hotplug serial`.
//
//     node viewer/check_rules.mjs TRACE..              what `hotplug_lab trace --json` prints
//
// - The reply that the page tells in advance of a commit, a cancel or an undo is the one of the row
//   that asks for it.
// - Where the page says that an undo brings a state back, the undo of the trace does.
// - The characters that are shown by their numbers are those of `is_hidden` in hp_text.
// - After each row the pieces cover each frame once, and going back to a row gives its state again.
// The last line is 'rules: N passed, M failed'.
import {readFileSync} from 'node:fs';
import {stateText} from './state_text.mjs';

const source = ['trace.js', 'words.js'].map(name => readFileSync(new URL(name, import.meta.url), 'utf8')).join('');
const NAMES = `{head, layout, rows, last, memory, pieces, goTo, piecesOf, endOf, serials, commitReply, cancelReply,
  undoReply, undoRestores, sayRow, sayCommit, sayCancel, backs, shown, pageblocksOf, wordsOf, zoneLists, cpuLists}`;
let passed = 0;
const failures = [];

function holds(where, isRight, message) {
  if (isRight) passed++;
  else failures.push(`${where}: ${message}`);
}

function readTrace(text) {
  const document = {getElementById: () => ({textContent: text})};
  return new Function('document', `${source}; return ${NAMES}`)(document);
}

function predicted(trace, call, at) {
  const [verb, n] = call.split(' ');
  return {commit: () => trace.commitReply(+n), cancel: () => trace.cancelReply(+n),
    undo: () => trace.undoReply(+n, at)}[verb]?.();
}

function checkTrace(file) {
  const trace = readTrace(readFileSync(file, 'utf8'));
  const {rows, layout, goTo, serials, backs} = trace, states = [], counts = {};
  rows.forEach((row, at) => {
    const isAsked = row.call && row.cpu < layout.cpus && !row.answer.startsWith('refused NoCpu');
    const reply = at > 0 && isAsked ? predicted(trace, row.call, at - 1) : undefined;
    if (reply !== undefined) {
      const kind = `${row.call.split(' ')[0]} ${row.answer.split(' ')[0]}`;
      counts[kind] = (counts[kind] ?? 0) + 1;
      holds(`${file} row ${at}`, reply === row.answer, `${reply} in place of ${row.answer}`);
    }
    goTo(at);
    states.push(stateText(trace));
    const covered = Array.from({length: layout.blocks}, (_, block) => trace.piecesOf(block)).flat();
    const frames = covered.reduce((n, piece) => n + 2 ** piece.order, 0);
    const isWhole = frames === layout.blocks * layout.pageblocks * 2 ** layout.order
      && covered.length === trace.pieces.size;
    holds(`${file} row ${at}`, isWhole, 'the pieces do not cover the frames');
    const words = trace.sayRow(row, (part, key) => backs[at]?.[part]?.[key]);
    holds(`${file} row ${at}`, words && !/undefined|NaN|null/.test(words), `says ${words}`);
    if (!row.answer?.startsWith('undone')) return;
    const serial = +row.call.split(' ')[1];
    for (let to = at - 1; to >= 0 && serials[to] >= serial; to--) {
      if (serials[to] !== serial || !trace.undoRestores(to, at - 1)) continue;
      holds(`${file} row ${at}`, states[to] === states[at], `does not bring back row ${to}`);
    }
  });
  for (let at = rows.length - 1; at >= 0; at -= Math.ceil(rows.length / 200)) {
    goTo(at);
    holds(`${file} row ${at}`, stateText(trace) === states[at], 'another state on the way back');
  }
  console.log(`${file}: ${rows.length} rows; ${JSON.stringify(counts)}`);
}

// The set of characters, against that of the source of hp_text.
function checkHidden() {
  const path = new URL('../crates/hp_text/src/escapes.rt', import.meta.url);
  const body = readFileSync(path, 'utf8').split('fn is_hidden').at(-1);
  const code = text => text === ' ' ? 32 : parseInt(text.slice(3, -1), 16);
  const ranges = [...body.matchAll(/c < '(.+?)'|'(.+?)' <= c && c <= '(.+?)'|c == '(.+?)'/g)]
    .map(([, end, from, to, only]) => end ? [0, code(end) - 1] : [code(from ?? only), code(to ?? only)]);
  const {shown} = readTrace('{"layout":{"order":0,"pageblocks":1,"blocks":0,"cpus":0},"names":[]}');
  const wrong = [];
  for (let c = 0; c < 0x10000; c++) {
    const isHidden = ranges.some(([from, to]) => from <= c && c <= to), text = String.fromCharCode(c);
    const expected = isHidden ? `\\u${c.toString(16).padStart(4, '0')}` : text === '\\' ? '\\\\' : text;
    if (shown(text) !== expected) wrong.push(c.toString(16));
  }
  holds('hidden characters', ranges.length > 5 && !wrong.length, `differ at ${wrong.slice(0, 20)}`);
}

checkHidden();
process.argv.slice(2).forEach(checkTrace);
for (const failure of failures.slice(0, 40)) console.log('FAIL', failure);
console.log(`rules: ${passed} passed, ${failures.length} failed`);
process.exitCode = failures.length ? 1 : 0;
