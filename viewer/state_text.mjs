// The state that the page has reached, as `hotplug serial` prints it but for its first line. For the
// checks alone: try.py runs it in the page, check_rules.mjs beside trace.js.
export function stateText({layout, head, memory, pageblocksOf, wordsOf, zoneLists, cpuLists}) {
  const {blocks, pageblocks, lists, kernel, pages, settings} = memory, out = [];
  const say = (...parts) => out.push(parts.filter(part => part !== undefined).join(' ') + '\n');
  const numbers = map => [...map.keys()].map(Number).sort((a, b) => a - b);
  for (const [block, {state, zone, op}] of blocks) say('block', block, state, zone, op && `op ${op}`);
  const auto = settings.get('auto_online_blocks');
  if (auto !== 'offline') say('auto:', auto);
  if (pageblocks.size) say('unmovable:', ...numbers(pageblocks));
  const going = [...blocks].filter(([, {state}]) => state === 'going').map(([block]) => block);
  if (going.length) say('isolated:', ...going.flatMap(pageblocksOf));
  for (const key of [...zoneLists, ...cpuLists]) {
    if (lists.get(key)?.length) say(`${key}:`, ...lists.get(key));
  }
  for (const frame of numbers(kernel)) say('kernel', frame, 'order', kernel.get(`${frame}`));
  for (const name of head.names) {
    const own = [...pages.keys()].filter(page => page.startsWith(`${name} `));
    for (const page of own.sort((a, b) => a.split(' ')[1] - b.split(' ')[1])) {
      say('page', page, 'at', `${pages.get(page)}:`, ...wordsOf(page, layout.words));
    }
  }
  return out.join('');
}
