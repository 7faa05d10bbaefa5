'use strict';
// The reader says which process takes the next turn. What is shown stands in the data, in which the program wrote what it says in
// `xvsh step` too; this looks it up. Text goes in as text, never as markup.
const D = JSON.parse(document.getElementById('data').textContent), B = D.B;
const get = id => document.getElementById(id);
const SHAPES = /^(svg|g|rect|line|path|text|circle|defs|pattern|title)$/;

// An element with attributes, of which `click` is what it does, and with children, each an element or a text.
function make(tag, attributes, ...children) {
  const at = SHAPES.test(tag) ? document.createElementNS('http://www.w3.org/2000/svg', tag) : document.createElement(tag);
  for (const [name, value] of Object.entries(attributes || {})) {
    if (name === 'click') at.addEventListener('click', value);
    else if (value !== undefined) at.setAttribute(name, value);
  }
  at.append(...children);
  return at;
}
const put = (id, ...children) => get(id).replaceChildren(...children);
const count = (n, word) => `${n} ${word}${n === 1 ? '' : 's'}`;
const listed = words => words.length < 2 ? words.join('') : words.slice(0, -1).join(', ') + ' and ' + words.at(-1);
const first = (text, most) => text.length > most ? text.slice(0, most - 2).replace(/\\(x.?)?$/, '') + '..' : text;
const quoted = text => '"' + text.replace(/"/g, '\\"') + '"';
// How many bytes a text shows, and its lines, each with its end.
const size = text => text.replace(/\\(x..|.)/g, '.').length;
const lines = text => text.match(/(?:\\[^n]|[^\\])*(?:\\n|$)/g).filter(line => line !== '');
const pairs = list => list.flatMap((x, i) => i % 2 ? [] : [[x, list[i + 1]]]);

// ---- The data: states, processes, turns, and what can still come out.
const sets = D.Q.map(ranges => new Set(pairs(ranges).flatMap(([a, b]) => Array.from({length: b - a + 1}, (_, i) => a + i))));
const possible = state => sets[D.S[state][1]];
const world = state => D.W[D.S[state][2]];
const isCut = state => D.S[state][0] === -2;
const processes = state => D.S[state].slice(4, 4 + D.S[state][3]).map(i => D.P[i])
  .map(p => ({pid: p[0], parent: p[1], name: B[p[2]], state: p[4], words: B[p[5]]}));
const process = (state, pid) => processes(state).find(p => p.pid === pid);
function turnsOf(state) {
  const row = D.S[state], found = [];
  for (let i = 4 + row[3]; i < row.length; i += 3) {
    const [call, short, words, ends, child, ...touches] = D.T[row[i + 1]], sleeps = ends === 1;
    found.push({from: state, pid: row[i], to: row[i + 2], call: B[call], short: B[short], words: B[words], sleeps, child, touches: pairs(touches)});
  }
  return found;
}
const who = (state, pid) => `${pid} ${process(state, pid).name}`;
const told = turn => `process ${who(turn.from, turn.pid)} ${turn.words}`;
const thing = row => [B[D.N[row][1]], `pipe ${B[D.N[row][1]]}`, 'the output', 'the diagnostics', 'the input'][D.N[row][0]];

// Whether the order of two touches of one thing matters: 0 reads, 1 changes, 2 makes, 3 looks whether it is there, 4 closes for good.
// What goes through a pipe keeps its order, whoever comes first; but two writers, two readers, or a writer whose last reader leaves don't.
function crosses(kind, a, b) {
  const [low, high] = a < b ? [a, b] : [b, a];
  if (kind === 1) return low === high ? low < 2 : low === 1 && high === 4;
  return kind === 4 ? high === 0 : low === 2 || high === 2 || high === 1;
}
// The thing on which two turns are against each other, if there is one.
function clash(a, b) {
  if (a.pid === b.pid) return undefined;
  const found = a.touches.find(([x, how]) => b.touches.some(([y, other]) => x === y && crosses(D.N[x][0], how, other)));
  return found && found[0];
}
const rivalsOf = (turn, others) => others.filter(it => clash(turn, it) !== undefined);

// ---- The run: the turns that were taken, and those that can be taken again.
let isEvery = false, isHinting = false, goal = -1, path = [], ahead = [], frame = 0;
const now = () => path.length ? path.at(-1).to : 0;
// The turns among which the reader chooses; a turn that nobody can interfere with is taken at once, and one that only sleeps isn't offered.
function offered(state) {
  const all = turnsOf(state), only = D.S[state][0];
  if (isEvery) return all;
  const some = all.filter(turn => only >= 0 ? turn.pid === only : !turn.sleeps);
  return some.length ? some : all;
}
// Whether a turn was chosen: there was another one, or a link has one that isn't taken at once.
const isChosen = (turn, some) => some.length > 1 || some[0].pid !== turn.pid;
const isChoice = turn => isEvery || isChosen(turn, offered(turn.from));
function take(pid) {
  const turn = turnsOf(now()).find(it => it.pid === pid);
  if (turn) path.push(turn);
  if (ahead[0] === pid) ahead.shift(); else ahead = [];
  return turn !== undefined;
}
function goOn() {
  for (let some = offered(now()); !isEvery && some.length === 1; some = offered(now())) take(some[0].pid);
}
const choose = pid => { take(pid); goOn(); show(); };
function returnTo(length) {
  if (length < 0) return;
  ahead = path.slice(length).map(turn => turn.pid).concat(ahead);
  path.length = length;
  goOn();
  show();
}
const forward = () => ahead.length && choose(ahead[0]);
const meets = (state, set) => [...possible(state)].some(outcome => set.has(outcome));
const lostAt = set => path.findIndex(turn => !meets(turn.to, set));
const goalLostAt = () => goal < 0 ? -1 : lostAt(goals[goal].set);
const back = () => returnTo(path.findLastIndex(isChoice));
const restart = () => returnTo(0);
const rescue = () => returnTo(goalLostAt());
const toggleHint = () => { isHinting = !isHinting; show(); };
const toggleEvery = () => { isEvery = D.whole === 1 && !isEvery; goOn(); show(); };
const wish = wished => { goal = goal === wished ? -1 : wished; show(); };

// ---- The link: every turn or not, hint, goal, and the processes of all turns, so that it means the same in both ways of choosing.
const link = () => '#' + [isEvery ? 'e' : 's', isHinting ? 'h' : '', goal < 0 ? '' : goal, path.map(turn => turn.pid).join('.')].join('/');
function load() {
  const [way, hint, wished, turns] = location.hash.slice(1).split('/');
  [isEvery, isHinting, path] = [way === 'e' && D.whole === 1, hint === 'h', []];
  goal = wished && goals[+wished] ? +wished : way === '' && D.lesson ? goals.findIndex(it => it.words === D.lesson.goal) : -1;
  for (const pid of (turns || '').split('.')) if (pid === '' || !take(+pid)) break;
  goOn();
  show();
}
function keepLink() {
  try { history.replaceState(null, '', link()); } catch { /* a browser refuses after many changes in a short time */ }
}
function copyLink() {
  const say = words => () => { get('link').textContent = words; }, address = location.href.split('#')[0] + link();
  const copied = navigator.clipboard ? navigator.clipboard.writeText(address) : Promise.reject();
  copied.then(say('Copied'), say('Copy the address of this page'));
  setTimeout(say('Copy a link to these turns'), 2000);
}

// ---- Outcomes and goals in words.
const outcomes = D.O.map(row => ({isStuck: row[0] === 1, out: B[row[1]], diag: B[row[2]], full: B[row[3]],
  files: pairs(row.slice(4)).map(([name, bytes]) => [B[name], B[bytes]])}));
const printed = text => text === '' ? 'nothing' : quoted(text);
const held = ([name, bytes]) => bytes === '' ? `leaves ${name} empty` : `leaves ${quoted(bytes)} in ${name}`;
const ends = outcomes.filter(it => !it.isStuck), names = [...new Set(ends.flatMap(it => it.files.map(file => file[0])))];
const changing = names.filter(name => new Set(ends.map(it => String(it.files.find(file => file[0] === name)))).size > 1);
// What is left of an outcome besides its output, as far as it isn't the same of all of them.
function besides(it) {
  const words = changing.map(name => it.files.find(file => file[0] === name)).map((file, i) => file ? held(file) : `leaves no ${changing[i]}`);
  if (it.diag !== '') words.push(`says ${quoted(it.diag)}`);
  if (it.full !== '') words.push(`something was full: ${it.full}`);
  return words;
}
const outcomeWords = it => it.isStuck ? 'never ends, since all its processes sleep' : [`prints ${printed(it.out)}`, ...besides(it)].join('; ');
// What the reader can aim at: each text that some outcomes have and others haven't.
function goalsOf() {
  const found = new Map();
  const add = (words, at) => found.set(words, (found.get(words) || new Set()).add(at));
  const each = act => outcomes.forEach((it, at) => it.isStuck || act(it, at));
  each((it, at) => add(`print ${printed(it.out)}`, at));
  each((it, at) => lines(it.diag).forEach(line => add(`say ${quoted(line.replace(/\\n$/, ''))}`, at)));
  each((it, at) => besides({...it, diag: ''}).forEach(words => add(words.replace('leaves', 'leave'), at)));
  outcomes.forEach((it, at) => it.isStuck && add('never end', at));
  return [...found].map(([words, set]) => ({words, set})).filter(it => it.set.size < outcomes.length);
}
const goals = goalsOf();

// ---- What is shown.
const numbered = list => listed(list.map(at => `${at + 1} (${first(outcomeWords(outcomes[at]), 60)})`));
function goneWords(before, after) {
  const gone = [...before].filter(at => !after.has(at));
  return gone.length === 0 ? '' : gone.length > 3 ? ` ${gone.length} outcomes are gone.` : ` Gone: ${numbered(gone)}.`;
}
const endedWords = at => outcomes[at].isStuck ? 'Nobody can go on any more' : 'The script has ended';
function stands(state, isOver) {
  const left = possible(state), only = [...left][0];
  if (isOver) return ` ${endedWords(only)} after ${count(path.length, 'turn')}: it ${outcomeWords(outcomes[only])}.`;
  const cut = isCut(state) ? ' This page has no turns behind this one; the command below goes on from here.' : '';
  if (outcomes.length === 1) return ' Whatever you choose, the same comes out.' + cut;
  if (left.size === 1) return ` Only outcome ${only + 1} is left: it ${outcomeWords(outcomes[only])}.${cut}`;
  const all = left.size === 2 ? 'Both' : `All ${left.size}`;
  return ` ${left.size === outcomes.length ? all : `${left.size} of ${outcomes.length}`} outcomes are still possible.${cut}`;
}
function showSentence(state, isOver) {
  const at = path.findLastIndex(isChoice), last = path[at], after = path.length - 1 - at;
  let words = last ? `Turn ${at + 1}: ${told(last)}.` : 'You choose which process takes the next turn.', tone = '';
  if (after > 0) words += last ? ` Then came ${count(after, 'turn')} without a choice.` : ` The first ${count(after, 'turn')} had no choice.`;
  words += goneWords(possible(last ? last.from : 0), possible(state)) + stands(state, isOver);
  if (goal >= 0) {
    const {set} = goals[goal], lost = goalLostAt();
    if (lost >= 0) {
      tone = 'lost';
      words += lost >= at ? ' Your goal went with that.' : ` Your goal went at turn ${lost + 1}: ${told(path[lost])}.`;
    } else if ([...possible(state)].every(outcome => set.has(outcome))) {
      tone = 'won';
      words += isOver ? ' That was your goal.' : ' Your goal is certain now.';
    }
  }
  if (get('say').textContent !== words) get('say').textContent = words;
  get('say').className = tone;
}

function hintOf(state, turn) {
  const {set} = goals[goal] || {}, left = possible(turn.to), before = possible(state).size;
  if (set && meets(state, set)) {
    if (!meets(turn.to, set)) return ['alert', '\u2717 your goal can no longer come'];
    return ['good', [...left].every(it => set.has(it)) ? '\u2713 makes your goal certain' : '\u2713 keeps your goal possible'];
  }
  return ['', before === 1 ? 'changes nothing any more' : left.size === before ? `keeps all ${before}` : `leaves ${left.size} of ${before}`];
}
// A process that can't be chosen, and why.
function idle(p) {
  const next = `next: ${p.words}`, left = `has exited; process ${p.parent} hasn't waited for it yet`;
  const words = [next, `${next}, and would only go to sleep`, `sleeps: ${p.words}`, left];
  return make('div', {class: 'idle'}, make('span', {'aria-hidden': 'true'}, '\u00b7\u00b7z\u2020'[p.state]),
    make('span', {}, make('b', {class: 'who'}, `${p.pid} ${p.name}`), ` ${words[p.state]}`));
}
function choiceButton(state, turn, some) {
  const key = some.indexOf(turn) < 9 ? `${some.indexOf(turn) + 1}` : undefined, says = ` next: ${process(state, turn.pid).words}`;
  const at = make('button', {'data-pid': turn.pid, 'aria-keyshortcuts': key, click: () => choose(turn.pid)},
    make('kbd', {'aria-hidden': 'true'}, key || ''), make('b', {class: 'who'}, who(state, turn.pid)), make('span', {}, says));
  const data = turn.call === 'write' && /: ("(?:\\.|[^"\\])*"(?:\.\.)?)/.exec(turn.words);
  if (data) at.append(make('span', {class: 'sub'}, ` it writes ${data[1]}`));
  for (const rival of rivalsOf(turn, some)) {
    at.append(make('span', {class: 'sub alert'}, ` against ${who(state, rival.pid)}, on ${thing(clash(turn, rival))}`));
  }
  const [tone, words] = hintOf(state, turn);
  if (isHinting) at.append(make('span', {class: `sub ${tone}`}, ` ${words}`));
  return at;
}
const depth = (all, p) => p && p.pid > 1 ? 1 + depth(all, all.find(it => it.pid === p.parent)) : 0;
function showChoices(state, isOver) {
  const some = offered(state), all = processes(state), focused = document.activeElement, hadFocus = get('who').contains(focused);
  put('others');
  put('who', ...all.map(p => {
    const turn = some.find(it => it.pid === p.pid), deep = ['', ' deep', ' deeper'][Math.min(depth(all, p), 2)];
    if (!turn) get('others').append(make('li', {}, idle(p)));
    return make('li', {class: (turn ? 'can' : 'not') + deep}, turn ? choiceButton(state, turn, some) : idle(p));
  }));
  get('who-name').textContent = isOver ? endedWords([...possible(state)][0]) : isCut(state) ? 'The page ends here' : 'Who goes next?';
  get('back').disabled = !path.some(isChoice);
  get('forward').disabled = !ahead.length;
  get('rescue').hidden = goalLostAt() < 0;
  put('rescue', `Back to before turn ${goalLostAt() + 1}, when your goal could come`, make('kbd', {'aria-hidden': 'true'}, 'b'));
  if (hadFocus || focused.disabled || focused.hidden) (get('who').querySelector('button') || get('back')).focus();
}
function showOutcomes(state) {
  const left = possible(state), wished = goal < 0 ? new Set() : goals[goal].set;
  put('outcomes', ...outcomes.map((it, at) => {
    const isLeft = left.has(at), lost = isLeft ? -1 : lostAt(new Set([at]));
    const words = make(isLeft ? 'span' : 'del', {}, outcomeWords(it)), row = make('div', {}, words);
    if (wished.has(at)) row.append(' ', make('span', {class: 'mark'}, 'your goal'));
    if (lost >= 0) row.append(make('p', {}, `gone since turn ${lost + 1}: ${told(path[lost])}`));
    const mark = make('span', {class: isLeft ? 'good' : ''}, `${isLeft ? '\u25cb' : '\u2717'} ${at + 1}`);
    return make('li', {class: !isLeft ? 'gone' : left.size === 1 ? 'only' : ''}, mark, row);
  }));
  get('count').textContent = `${left.size} of ${outcomes.length}`;
}
function showNow(state) {
  const [out, diag, files, pipes] = world(state), parts = [], same = [];
  const begun = new Set(pairs(D.files).map(String)), isMany = D.files.length > 16;
  const add = (title, text, none, to) => to.push(make('h3', {}, title + (text === '' ? '' : `, ${count(size(text), 'byte')}`)),
    make('pre', {class: 'bytes'}, lines(text).join('\n') || none));
  add('Output', B[out], '(nothing)', parts);
  if (B[diag] !== '') add('Diagnostics', B[diag], '', parts);
  for (const file of pairs(files)) add(`File ${B[file[0]]}`, B[file[1]], '(empty)', isMany && begun.has(String(file)) ? same : parts);
  const holders = pids => pids.map(pid => who(state, pid)).join(', ') || 'nobody';
  for (const [name, bytesHeld, bytes, readers, writers] of pipes) {
    const ends = `; written by ${holders(writers)}; read by ${holders(readers)}`;
    parts.push(make('h3', {}, `Pipe ${B[name]}, ${bytesHeld} of 512 bytes${ends}`));
    if (bytes >= 0) parts.push(make('pre', {class: 'bytes'}, lines(B[bytes]).join('\n') || '(empty)'));
  }
  if (same.length) parts.push(make('details', {}, make('summary', {}, `${same.length / 2} files are as before`), ...same));
  put('now', ...parts);
}
function showWords() {
  put('log', ...path.map(turn => {
    const fewer = goneWords(possible(turn.from), possible(turn.to));
    return make('li', {class: isChoice(turn) ? '' : 'auto'}, told(turn), make('span', {class: 'alert'}, fewer.replace(/\.$/, '')));
  }));
  get('terminal').hidden = !path.length;
  get('command').textContent = `for p in ${path.map(turn => turn.pid).join(' ')}; do echo D 0 $p; echo T 0 $p; done > turns\n` +
    `xvsh step --schedule turns ${D.command.replace(/\\([nt\\])/g, (_, c) => '\n\t\\'['nt\\'.indexOf(c)]) || 'SCRIPT [FILE]..'}`;
}
function show() {
  const state = now(), isOver = !turnsOf(state).length && !isCut(state);
  goalButtons.forEach((at, i) => at.setAttribute('aria-pressed', goal === i));
  for (const [id, is] of [['hint', isHinting], ['every', isEvery]]) get(id).setAttribute('aria-pressed', is);
  for (const part of [showSentence, showChoices, showOutcomes, showNow, showWords]) part(state, isOver);
  cancelAnimationFrame(frame);
  frame = requestAnimationFrame(() => { draw(); keepLink(); });
}

// ---- The diagram: a lane for each process that ever was, time from left to right, and below it what was left, files, pipes and output.
const LANE = 34, TOP = 16, WIDE = 70, NARROW = 46, BAND = 22, AGAIN = 280, LEFT = 'outcomes left';
const middle = lane => TOP + lane * LANE + LANE / 2;
// The columns of turns and the lanes of processes; a number that is used again gets a new lane.
function layout() {
  const lanes = [], lane = {}, born = processes(0);
  const open = (p, all, x) => { lane[p.pid] = lanes.push({pid: p.pid, name: p.name, depth: depth(all, p), born: x, spans: []}) - 1; };
  born.forEach(p => open(p, born, 4));
  const columns = path.map((turn, at) => {
    const rivals = isChoice(turn) ? rivalsOf(turn, offered(turn.from)).map(it => it.pid) : [];
    const isFewer = possible(turn.to).size < possible(turn.from).size;
    return {turn, at, rivals, isFewer, isHot: rivals.length > 0 || isFewer};
  });
  // The turn that was against this one when this one was chosen is the next one of that process.
  for (const c of columns) {
    c.meets = c.rivals.map(pid => columns.find(d => d.at > c.at && d.turn.pid === pid)).filter(next => next);
    c.meets.forEach(next => { next.isHot = true; });
  }
  let x = 4;
  for (const c of columns) {
    const width = isChoice(c.turn) || c.isHot ? WIDE : NARROW, all = processes(c.turn.to);
    Object.assign(c, {x, width, lane: lane[c.turn.pid], middle: x + width / 2});
    x += width + 3;
    if (c.turn.child >= 0) { open(all.find(p => p.pid === c.turn.child), all, x - 7); c.child = lane[c.turn.child]; }
    for (const p of all) {
      const it = lanes[lane[p.pid]];
      it.name = p.name;
      it.spans.push({from: Math.max(c.x, it.born), to: x, state: p.state});
    }
  }
  return {lanes, columns, width: Math.max(x + 10, 300)};
}
const rule = (style, x1, y1, x2, y2) => make('line', {class: style, x1, y1, x2, y2});
const letters = (style, x, y, ...text) => make('text', {class: style, x, y}, ...text);
const drawLane = (it, i) => it.spans.map(({from, to, state}) => state !== 2 ? rule(state === 3 ? 'dead' : 'life', from, middle(i), to, middle(i))
  : make('rect', {class: 'sleep', x: from, y: middle(i) - 5, width: to - from, height: 10}));
function drawTurn(c) {
  const {turn, x, width, middle: m, at} = c, y = middle(c.lane), isFree = isChoice(turn), isPale = !isFree && !c.isHot, marks = [];
  const cx = x + width - 4, cy = middle(c.child);
  if (c.child !== undefined) marks.push(rule('life', cx, y, cx, cy), make('circle', {class: 'box', cx, cy, r: 3}));
  marks.push(make('g', {}, make('title', {}, `turn ${at + 1}: ${told(turn)}`),
    make('rect', {class: `box${c.isHot ? ' hot' : isFree ? '' : ' auto'}`, x, y: y - 14, width, height: 28, rx: 2}),
    letters(`middle bold${c.isHot ? ' fewer' : isFree ? '' : ' pale'}`, m, y - 2, turn.call),
    letters(`middle${isPale ? ' pale' : ''}`, m, y + 10, first(turn.short, width === WIDE ? 11 : 7))));
  if (!isPale || at % 5 === 4) marks.push(letters(`middle ${isFree ? 'bold' : 'pale'}`, m, 10, `${at + 1}`));
  for (const {lane, middle: n} of c.meets) {
    const to = middle(lane), d = to < y ? -14 : 14;
    marks.push(make('path', {class: 'curve', d: `M${m} ${y + d}C${m} ${y + 2 * d} ${n} ${to - 2 * d} ${n} ${to - d}`}));
  }
  return marks;
}
// What each file and each pipe holds in a state, by its title; kept, since many states have the same.
const holdings = new Map(), holding = bytes => bytes === '' ? 'empty' : quoted(bytes);
function holdingsOf(state) {
  const row = D.S[state][2], [, , files, pipes] = D.W[row];
  if (!holdings.has(row)) {
    const inPipes = pipes.map(([name, size, bytes]) => [`pipe ${B[name]}`, bytes < 0 ? count(size, 'byte') : holding(B[bytes])]);
    holdings.set(row, new Map([...pairs(files).map(([name, bytes]) => [`file ${B[name]}`, holding(B[bytes])]), ...inPipes]));
  }
  return holdings.get(row);
}
// What stands in the bands: a title, and a text for each state.
function bandsOf() {
  const states = [0, ...path.map(turn => turn.to)], titles = new Set(states.flatMap(state => [...holdingsOf(state).keys()]));
  const found = [...titles].map(title => ({title, value: state => holdingsOf(state).get(title) || 'none'}))
    .filter(({value}) => states.some(state => value(state) !== value(0)));
  if (outcomes.length > 1) found.unshift({title: LEFT, value: state => `${possible(state).size}`});
  return [...found, {title: 'output', value: state => printed(B[world(state)[0]])}];
}
// A band has its value where it changes, and again, pale, where that was long before.
function drawBand({title, value}, columns, y, width) {
  const found = [{x: 4, text: value(0), style: ' pale'}], style = title === LEFT ? ' fewer' : ' bold';
  for (const c of columns) {
    const text = value(c.turn.to);
    if (text !== found.at(-1).text) found.push({x: c.x, text, style});
    else if (c.x - found.at(-1).x > AGAIN) found.push({x: c.x, text, style: ' pale'});
  }
  const marks = found.map(({x, text, style}, at) => {
    const room = Math.floor(((at + 1 < found.length ? found[at + 1].x : width) - x) / 6.8);
    return letters('name' + style, x, y, first(text, Math.max(room, 3)), make('title', {}, text));
  });
  return [rule('rule', 0, y + 6, width, y + 6), ...marks];
}
function draw() {
  const {lanes, columns, width} = layout(), base = TOP + lanes.length * LANE + 10, bands = bandsOf();
  const height = base + bands.length * BAND + 8, row = i => base + i * BAND + 14, room = Math.floor(get('names').clientWidth / 6.8);
  const turned = {id: 'hatch', width: 5, height: 5, patternUnits: 'userSpaceOnUse', patternTransform: 'rotate(45)'};
  const falls = columns.filter(c => c.isFewer).map(c => rule('fall', c.middle, middle(c.lane), c.middle, base + 2));
  put('names', make('svg', {width: 210, height, 'aria-hidden': 'true'},
    ...lanes.map((it, i) => letters('name', Math.min(it.depth * 9, 27), middle(i) + 4, first(`${it.pid} ${it.name}`, room - Math.min(it.depth, 3)), make('title', {}, it.name))),
    ...bands.map((it, i) => letters('name', 0, row(i), it.title))));
  put('time', make('svg', {width, height, role: 'img', 'aria-label': `${count(path.length, 'turn')}, in words below`},
    make('defs', {}, make('pattern', turned, rule('life', 0, 0, 0, 5))), ...lanes.flatMap(drawLane), ...falls,
    ...columns.flatMap(drawTurn), ...bands.flatMap((it, i) => drawBand(it, columns, row(i), width))));
  get('time').scrollLeft = width;
}

// ---- What never changes, keys and buttons.
const goalButtons = goals.map((it, i) => make('button', {title: it.words, click: () => wish(i)}, first(it.words, 60)));
if (goals.length) put('goals', make('span', {}, 'Make it'), ...goalButtons);
put('script', ...D.script.map(line => make('li', {}, line)));
const before = pairs(D.files).map(([name, bytes]) => `${B[name]} holds ${first(printed(B[bytes]), 60)}`);
if (before.length > 8) before.splice(7, before.length, `${before.length - 7} more`);
get('before').textContent = `Files before: ${listed(before) || 'none'}.` + (D.input < 0 ? '' : ` Its input is ${first(printed(B[D.input]), 60)}.`);
get('title').textContent = D.lesson ? D.lesson.title : 'Choose the order';
get('question').textContent = D.lesson ? D.lesson.question : '';
document.title = `${get('title').textContent}: ${first(D.script.join('; '), 60)}`;
get('made').textContent = `${D.program} wrote this page, ${D.S.some(row => row[0] === -2) ? `which ends after ${count(D.S.length, 'state')}; a search of every order has ${D.states}`
  : `with all of its ${count(D.S.length, 'state')}`}. What can still come out is by every order of turns, also of those that aren't offered.`;
get('every').hidden = !D.whole;
const ACTS = {u: back, ArrowLeft: back, r: forward, ArrowRight: forward, Home: restart, b: rescue, h: toggleHint, s: toggleEvery};
const BUTTONS = {back, forward, restart, rescue, hint: toggleHint, every: toggleEvery, link: copyLink};
for (const [id, act] of Object.entries(BUTTONS)) get(id).addEventListener('click', act);
document.addEventListener('keydown', event => {
  if (event.ctrlKey || event.metaKey || event.altKey || event.target.id === 'time' && event.key.startsWith('Arrow')) return;
  const turn = /^[1-9]$/.test(event.key) ? offered(now())[+event.key - 1] : undefined;
  const act = turn ? () => choose(turn.pid) : Object.hasOwn(ACTS, event.key) ? ACTS[event.key] : undefined;
  if (act) { event.preventDefault(); act(); }
});
addEventListener('hashchange', load);
addEventListener('resize', draw);
load();
