'use strict'
// A run that was made: its source, what everything held at first, what each step did, and what that changed. All of it stands in this
// page as text. The script takes no step of the program: it makes edits of that text, forwards and backwards, and draws. Where the page doesn't begin
// with the first entry, what everything held is what it held before the first one that is shown.
const $ = id => document.getElementById(id)
const textOf = id => $(id).textContent, linesOf = id => textOf(id).split('\n').slice(0, -1)
const esc = s => String(s).replace(/[&<>"]/g, c => ({'&': '&amp;', '<': '&lt;', '>': '&gt;', '"': '&quot;'})[c])
const source = linesOf('source'), first = +textOf('opening').split(' ')[1] + 1, later = first > 1

// ---- the parts of what everything holds: the lines of processes (P), of common blocks (B) and of activations (A)

const parts = {P: [], B: [], A: []}
{ let kind
  for (const l of linesOf('opening').slice(1)) { if (l[0] !== ' ') kind = {PROCESS: 'P', COMMON: 'B', ACTIVATION: 'A'}[l.split(' ')[0]]; parts[kind].push(l) } }
// The sections of a part, by the number of a process or an activation, or counted: each has a line that isn't indented, and those after it.
function sectionsOf(kind, lines) {
  const found = []; let section, blocks = 0
  for (const l of lines) if (l[0] === ' ') section.push(l); else found[kind === 'B' ? ++blocks : +l.split(' ')[1]] = section = [l]
  return found
}
const state = Object.fromEntries(Object.entries(parts).map(([kind, lines]) => [kind, sectionsOf(kind, lines)]))

// ---- turns: a line of the trace, and edits of parts: how many lines stay at the front, how many go after them, and those that come in their place

const turns = linesOf('trace').map(line => {
  const [, entry, p, unit, at, deed] = /^(\d+) PROCESS (\d+) (\S+) LINE (\d+) (.*)$/.exec(line)
  const [, act, wakes] = deed.startsWith('print') ? [0, deed] : /^(.*?)(?:, wakes ([\d, ]+?))?((?:, frame of \d+ given back)*)$/.exec(deed)
  return {text: line, entry: +entry, p: +p, unit, line: +at, deed, act, verb: act.split(' ')[0], wakes: wakes ? wakes.split(', ').map(Number) : [], edits: []}
})
{ let t = -1, e
  for (const l of linesOf('changes')) {
    if (l === '=') t++
    else if (l[0] === '+') e.come.push(l.slice(1))
    else { const w = l.split(' '); turns[t].edits.push(e = {kind: w[0], stay: +w[1], go: +w[2], come: []}) }
  } }
function edited(e, go, come) { parts[e.kind].splice(e.stay, go, ...come); state[e.kind] = sectionsOf(e.kind, parts[e.kind]) }
function forth(t) { for (const e of t.edits) edited(e, e.go, e.come) }
function back(t) { for (const e of t.edits) edited(e, e.come.length, e.was) }
// The sections of a part before a turn that was made.
function before(kind, t) {
  const e = t?.edits.find(e => e.kind === kind), lines = [...parts[kind]]
  if (e) lines.splice(e.stay, e.come.length, ...e.was)
  return sectionsOf(kind, lines)
}

// ---- what lines tell

const head = l => { const m = /^PROCESS (\d+) (\S+) LINE (\d+) IN ACTIVATION (\d+)(?: WAITING FOR (FULL|EMPTY) (.*))?$/.exec(l); return m && {p: +m[1], unit: m[2], line: +m[3], a: +m[4], full: m[5], place: m[6]} }
const backs = ls => ls.slice(1).map(l => /BACK TO (\S+) LINE (\d+) IN ACTIVATION (\d+)/.exec(l)).map(m => ({unit: m[1], line: +m[2], a: +m[3]}))
// The variables of a section: runs of elements that hold the same, and how many elements stand before each one.
function variables(ls) {
  const found = []
  for (const l of ls.slice(1)) {
    const m = /^  ([^ (]+)(?:\((.*)\))? = (\S+)(?: (FULL|EMPTY))?$/.exec(l), is = /^  (\S+) IS (.*)$/.exec(l)
    if (is) found.push({name: is[1], is: is[2], runs: []})
    if (!m) continue
    const ends = m[2] === undefined ? null : m[2].split(/\)?\.\.\(?/).map(s => s.split(',').map(Number))
    let v = found[found.length - 1]
    if (!v || v.name !== m[1] || !ends) found.push(v = {name: m[1], lower: ends?.[0], runs: []})
    v.runs.push({first: ends?.[0], last: ends?.[ends.length - 1], value: m[3], state: m[4]})
    v.upper = v.runs[v.runs.length - 1].last
  }
  let base = 0
  for (const v of found) { v.base = base; base += v.lower ? numberIn(v, v.upper) : v.is ? 0 : 1 }
  return found
}
function numberIn(v, subscripts) { let k = 1, stride = 1; subscripts.forEach((s, i) => { k += (s - v.lower[i]) * stride; stride *= v.upper[i] - v.lower[i] + 1 }); return k }
// Names and bounds don't change while a section is there. What arguments are associated with goes when the activation ends.
const shapes = {}
const associated = ls => / IS /.test(ls?.[ls.length - 1] ?? '')
const shapeOf = (kind, n) => shapes[`${kind}${n}${associated(state[kind][n])}`] ??= state[kind][n]?.length ? variables(state[kind][n]) : undefined
// A table's elements one by one, in their order: the first subscript goes fastest.
function singles(v) {
  const all = []
  for (const r of v.runs) for (let k = numberIn(v, r.first); k <= numberIn(v, r.last); k++) {
    const high = v.upper[0] - v.lower[0] + 1, sub = [v.lower[0] + (k - 1) % high, v.lower[1] + Math.floor((k - 1) / high)]
    all.push({...r, first: sub, last: sub})
  }
  return all
}
const blockOf = ls => ls[0].split(' ')[1]
// The words for where an element is, as the trace and those who wait have them.
const placeIn = (kind, n, ls, v, k) => kind === 'B' ? `${blockOf(ls)}#${v.base + k}` : v.lower ? `${v.name}#${k} OF ${n}` : `${v.name} OF ${n}`
// With the name that the cell has where it is declared, if that place is in COMMON.
function named(place) {
  const m = /^(\/.*\/)#(\d+)$/.exec(place), n = m && state.B.findIndex(ls => ls && blockOf(ls) === m[1]), v = n > 0 && shapeOf('B', n).filter(v => v.base < +m[2]).pop()
  return v ? v.name + (v.lower ? `#${m[2] - v.base}` : '') + ` of ${m[1]}` : place.replace(' OF ', ' of ')
}
function placeOf(text, a) {           // of a name with subscripts, in activation a
  const [, name, list] = /^([^ (]+)(?:\((.*)\))?$/.exec(text) ?? [], v = shapeOf('A', a)?.find(v => v.name === name)
  return !v ? null : v.is ?? placeIn('A', a, state.A[a], v, list ? numberIn(v, list.split(',').map(Number)) : 1)
}
function placesOf(t, a) {
  const told = /\[(.*)\]$/.exec(t.act)
  if (/^(read|take|store|fill|ask)$/.test(t.verb)) return [told ? told[1] : placeOf(t.verb === 'ask' ? /\((.*)\) =/.exec(t.act)[1] : t.act.split(' ')[1], a)]
  if (t.verb === 'next') return [placeOf(t.act.split(' ')[1], a)]
  if (t.verb === 'begin') return [placeOf(t.act.split(' ')[2], a)]
  if (t.verb === 'purge') return t.act.split(' ').slice(1).map(r => placeOf(r, a))
  return []
}

// ---- once through all turns: what was there before, who waits from when to when and since whose step, what was taken from whom

const KIND = {take: 'take', fill: 'fill', read: 'read', store: 'store', ask: 'ask', purge: 'take', print: 'print', creates: 'make', resumes: 'make', calls: 'call', returns: 'call', ends: 'end', stop: 'end', FAULT: 'fault', waits: 'wait'}
const shows = new Set(['take', 'fill', 'ask', 'print', 'make', 'end', 'fault', 'wait'])
const waits = [], flows = [], born = {}, gone = {}, unitOf = {}, records = [], changed = {}, filled = {}, open = {}
for (const ls of state.P) if (ls) { const h = head(ls[0]); born[h.p] = -1; unitOf[h.p] = backs(ls).pop()?.unit ?? h.unit; if (h.place) wait(h, -1) }
function wait(h, i) { waits.push(open[h.p] = {p: h.p, from: i, to: turns.length, full: h.full, place: h.place, since: changed[h.place]}) }
turns.forEach((t, i) => {
  const h = head(state.P[t.p][0])
  t.a = h.a; t.places = placesOf(t, h.a).filter(Boolean)
  t.kind = KIND[t.verb] ?? 'tick'
  t.seen = shows.has(t.kind) || /\[/.test(t.act) && /read|store/.test(t.kind)
  t.hay = (t.text + ' ' + t.places.join(' ')).toUpperCase()
  for (const e of t.edits) e.was = parts[e.kind].slice(e.stay, e.stay + e.go)
  if (/take|fill/.test(t.kind) || t.act.startsWith('ask SETE')) for (const x of t.places) changed[x] = i
  if (t.verb === 'take' && filled[t.places[0]] >= 0 && turns[filled[t.places[0]]].p !== t.p) flows.push([filled[t.places[0]], i])
  if (t.verb === 'fill') filled[t.places[0]] = i
  const made = /^creates (\d+) (\S+)|^resumes as (\d+)/.exec(t.act)
  if (made) { const q = +(made[1] ?? made[3]); born[t.makes = q] = i; unitOf[q] = made[2] ?? '' }
  if (t.verb === 'print') records.push([i, t.act.slice(5)])
  forth(t)
  if (!state.P[t.p]) gone[t.p] = i
  for (const q of t.wakes) if (open[q]) { open[q].to = i; delete open[q] }
  if (t.verb === 'waits' && !open[t.p]) wait(head(state.P[t.p][0]), i)
})
for (const q in born) if (!unitOf[q]) unitOf[q] = turns.find(t => t.p === +q)?.unit ?? ''
const processes = Object.keys(born).map(Number).sort((a, b) => a - b), laneOf = Object.fromEntries(processes.map((p, i) => [p, i]))
const left = state.P.filter(Boolean).map(ls => head(ls[0]))
const ends = (left.length === 0 ? 'all have ended' : left.every(h => h.place) ? 'all that live wait at the end' : 'some are still running at the end') + (turns.some(t => t.kind === 'fault') ? ', with a fault' : '')
let at = turns.length                   // so many turns are made
const waitAt = p => waits.find(w => w.p === p && w.from < at && w.to >= at)

// ---- what is shown

const chip = (p, cls = '') => `<span class="chip ${cls}">${p}</span>`
const now = () => turns[at - 1]
const marks = p => (waitAt(p) ? 'w ' : '') + (now()?.p === p ? 'now' : '')
const WORDS = /('(?:[^']|'')*')|(\$[A-Z][A-Z0-9]*)|\b(PROGRAM|SUBROUTINE|FUNCTION|INTEGER|LOGICAL|COMMON|PARAMETER|DIMENSION|DATA|CREATE|CALL|RESUME|RETURN|DO|CONTINUE|IF|THEN|ELSE|ELSEIF|ENDIF|END|GO|TO|GOTO|PRINT|PURGE|STOP)\b/g
const coloured = l => /^[C*]/i.test(l) ? `<span class="c">${esc(l)}</span>` : esc(l).replace(WORDS, (m, q, d) => `<span class="${q ? 'q' : d ? 'd' : 'k'}">${m}</span>`)
$('src').innerHTML = source.map((l, i) => `<li><span class="at"></span><button class="no" tabindex="-1" aria-label="steps at line ${i + 1}">${i + 1}</button><span class="tx">${coloured(l)}</span></li>`).join('')
const rows = [...$('src').children]; let lit = new Set(), letter = 0
function showSource() {
  const there = new Map(), t = now()
  for (const ls of state.P) if (ls?.length) { const h = head(ls[0]); there.set(h.line, [...(there.get(h.line) ?? []), h.p]) }
  for (const n of lit) { const r = rows[n - 1]; r.className = ''; r.firstChild.innerHTML = ''; r.firstChild.removeAttribute('title'); r.querySelector('.ghost')?.remove() }
  lit = new Set(there.keys()); if (t) lit.add(t.line)
  for (const [n, ps] of there) {
    const r = rows[n - 1]; if (t && ps.includes(t.p)) { ps.splice(ps.indexOf(t.p), 1); ps.unshift(t.p) }
    r.firstChild.innerHTML = (ps.length > 3 ? chip(`+${ps.length - 2}`, 'more') : '') + ps.slice(0, ps.length > 3 ? 2 : 3).reverse().map(p => chip(p, marks(p))).join('')
    r.firstChild.title = 'process ' + ps.join(', ')
  }
  if (t) {
    const r = rows[t.line - 1], tx = r.lastChild, ghost = t.act.replace(/ \[.*\]$/, '')
    letter ||= (() => { const s = tx.appendChild(document.createElement('span')); s.textContent = '0'.repeat(50); const w = s.getBoundingClientRect().width / 50; s.remove(); return w })()
    r.className = 'now'
    if ((source[t.line - 1].length + ghost.length + 3) * letter < tx.clientWidth) tx.insertAdjacentHTML('afterbegin', `<span class="ghost">${esc(ghost)}</span>`)
    nearest(r, r.closest('.scroll'))
  }
}
function nearest(el, box) { const a = el.getBoundingClientRect(), b = box.getBoundingClientRect(); if (a.top < b.top + 30 || a.bottom > b.bottom - 30) box.scrollTop += a.top - b.top - b.height / 2 }
function boxes(kind, n, ls, old) {
  const t = now(), was = {}
  for (const v of variables(old[kind][n] ?? [])) for (const r of v.runs) was[v.name + (r.first ?? '')] = r.value
  return variables(ls).map(v => {
    if (v.is) return `<span class="is">${esc(v.name)} is <b>${esc(named(v.is))}</b></span>`
    const table = v.lower?.length === 2 && numberIn(v, v.upper) <= 144, size = table && [v.upper[0] - v.lower[0] + 1, v.upper[1] - v.lower[1] + 1]
    const runs = table ? singles(v) : v.runs, els = runs.slice(0, 144).map(r => {
      const k = r.first ? numberIn(v, r.first) : 1, to = r.last ? numberIn(v, r.last) : 1, place = placeIn(kind, n, ls, v, k)
      const hit = t?.places.some(x => { for (let i = k; i <= Math.min(to, k + 99); i++) if (x === placeIn(kind, n, ls, v, i)) return true })
      const wrote = hit && /^(store|fill|next|begin)$/.test(t.verb), then = was[v.name + (r.first ?? '')], shown = r.value === 'UNDEFINED' ? (r.state ? '' : '?') : r.value
      const label = r.first ? (k === to ? `${r.first}` : `${r.first}–${r.last}`) : '', queue = waits.filter(w => w.from < at && w.to >= at && w.place === place).map(w => chip(w.p, 'w')).join('')
      return `<span class="el"><button tabindex="-1" data-find="${esc(place)}" class="cell ${r.state ? r.state.toLowerCase() : r.value === 'UNDEFINED' ? 'u' : ''} ${hit ? wrote ? 'wr' : 'rd' : ''}" title="${esc(place)}" aria-label="${esc(v.name)} ${label} ${r.value} ${r.state ?? ''}">${wrote && then !== undefined && then !== r.value && then !== 'UNDEFINED' ? `<s>${esc(then)}</s>` : ''}${esc(shown) || '&nbsp;'}</button>${label && !table ? `<i>${label}</i>` : ''}${queue ? `<span class="queue">${queue}</span>` : ''}</span>`
    }).join('') + (runs.length > 144 ? '<span class="is">…</span>' : '')
    if (table) return `<span class="var"><span>${esc(v.name)} (${v.lower[0]}..${v.upper[0]}, ${v.lower[1]}..${v.upper[1]})</span><span class="table" style="grid-template-rows:repeat(${size[0]},auto)">${els}</span></span>`
    return `<span class="var"><span>${esc(v.name)}</span><span class="arr">${els}</span></span>`
  }).join('')
}
function why(w) {
  const t = turns[w.since]
  if (!t) return `nobody has ${w.full === 'FULL' ? 'filled' : 'emptied'} it${later ? ` from entry ${first} on` : ''}`
  return `process ${t.p}${t.p === w.p ? ' itself' : waitAt(t.p) ? ', which waits,' : gone[t.p] < at ? ', which has ended,' : ''} ${w.full === 'FULL' ? 'emptied' : 'filled'} it at ${t.unit} line ${t.line}, entry ${t.entry}`
}
function circle(p) {                    // of those that wait for what the next one changed last
  const seen = [p]
  for (;;) { const w = waitAt(seen[seen.length - 1]), q = w && turns[w.since]?.p; if (!q || !waitAt(q)) return null; if (q === p) return seen; if (seen.includes(q)) return null; seen.push(q) }
}
function showCells() {
  const old = {B: before('B', now()), A: before('A', now())}, shown = new Set(), frame = a => { shown.add(a); const ls = state.A[a]; return ls?.length ? boxes('A', a, ls, old) : '' }
  let html = '', ps = ''
  state.B.forEach((ls, n) => { html += `<div class="frame wide"><h3>COMMON ${esc(blockOf(ls))}</h3><div class="row">${boxes('B', n, ls, old)}</div></div>` })
  for (const ls of state.P) if (ls?.length) {
    const h = head(ls[0]), w = waitAt(h.p), c = w && circle(h.p), subs = backs(ls)
    ps += `<div class="frame${now()?.p === h.p ? ' now' : ''}"><h3>${chip(h.p, marks(h.p))}<span>${esc(h.unit)}</span><small>line ${h.line}<span class="act">, activation ${h.a}</span></small></h3><div class="row">${frame(h.a)}</div>`
    if (w) ps += `<div class="why">waits for ${w.full} ${esc(named(w.place))}: ${why(w)}${c && c.length > 1 && Math.min(...c) === h.p ? `. Circle: ${[...c, h.p].join(' → ')}` : ''}</div>`
    for (const b of subs) ps += `<div class="sub"><h3><span><small>back to</small> ${esc(b.unit)}</span><small>line ${b.line}<span class="act">, activation ${b.a}</span></small></h3><div class="row">${frame(b.a)}</div>`
    ps += '</div>'.repeat(subs.length + 1)
  }
  state.A.forEach((ls, a) => { if (ls?.length && !shown.has(a)) ps += `<div class="frame"><h3><span>${esc(ls[0].split(' ')[2])}</span><small>activation ${a}, kept</small></h3><div class="row">${boxes('A', a, ls, old)}</div></div>` })
  $('cells').innerHTML = (html && `<div class="shared">${html}</div>`) + ps || '<p>Nothing lives any more.</p>'
  const one = $('cells').querySelector('.frame.now'), box = $('cells')
  if (one && box.scrollHeight > box.clientHeight + 4) { const top = box.querySelector('.shared')?.offsetHeight ?? 0, a = one.getBoundingClientRect(), b = box.getBoundingClientRect(); if (a.top < b.top + top || a.bottom > b.bottom) box.scrollTop += a.top - b.top - top - 8 }
}
function showSide() {
  const t = now(), so = records.filter(r => r[0] < at)
  const faults = turns.slice(0, at).filter(t => t.kind === 'fault').map(t => `FAULT ${t.p} ${t.unit} LINE ${t.line} ${t.act.split(' ')[1]}`)
  $('out').innerHTML = so.map(([i, r]) => i === at - 1 ? `<span class="new">${esc(r)}</span>` : esc(r)).concat(faults.map(f => `<span class="err">${f}</span>`)).join('\n') || '<span class="is">nothing yet</span>'
  const lo = Math.max(0, Math.min(at - 7, turns.length - 15)), some = turns.slice(lo, lo + 15)
  $('steps').innerHTML = some.map((x, i) => `<li data-at="${lo + i + 1}" class="${lo + i === at - 1 ? 'now' : ''}"${lo + i === at - 1 ? ' aria-current="step"' : ''}>${x.entry} ${chip(x.p)} ${x.line} ${esc(x.deed)}</li>`).join('')
  $('story').innerHTML = `<span class="step">Step ${at} of ${turns.length}${t && t.entry !== at ? `, entry ${t.entry}` : ''}</span>` + (t ? `${chip(t.p, 'now')}<span>${esc(t.unit)} line ${t.line}</span><span class="deed mono">${esc(t.act)}</span><span class="more">${t.wakes.length ? 'wakes ' + t.wakes.join(', ') : ''}</span>` : `<span class="deed">before ${later ? `entry ${first}` : 'the first step'}</span>`)
}

// ---- lanes: a window of turns around this one, in which processes go from left to right

const shape = {
  fill: (x, y) => `<rect x="${x - 5}" y="${y - 5}" width="10" height="10" rx="1" fill="var(--cell)"/>`,
  take: (x, y) => `<rect x="${x - 4.2}" y="${y - 4.2}" width="8.4" height="8.4" rx="1" fill="var(--panel)" stroke="var(--cell)" stroke-width="2"/>`,
  ask: (x, y) => `<rect x="${x - 3}" y="${y - 3}" width="6" height="6" fill="var(--panel)" stroke="var(--cell)"/>`,
  store: (x, y) => `<circle cx="${x}" cy="${y}" r="4.8" fill="var(--plain)"/>`,
  read: (x, y) => `<circle cx="${x}" cy="${y}" r="3.6" fill="var(--panel)" stroke="var(--plain)" stroke-width="1.6"/>`,
  print: (x, y) => `<path d="M${x} ${y - 6.5}l6 6.5-6 6.5-6-6.5z" fill="var(--print)"/>`,
  make: (x, y) => `<path d="M${x - 5} ${y}h10M${x} ${y - 5}v10" stroke="var(--proc)" stroke-width="3"/>`,
  call: (x, y) => `<path d="M${x - 4} ${y - 3}l4 5 4-5" fill="none" stroke="var(--proc)" stroke-width="2"/>`,
  end: (x, y) => `<path d="M${x} ${y - 7}v14" stroke="var(--ink)" stroke-width="3"/>`,
  fault: (x, y) => `<path d="M${x - 6} ${y - 6}l12 12m0-12l-12 12" stroke="var(--wait)" stroke-width="3.5"/>`,
  wait: (x, y) => `<path d="M${x} ${y - 6}v12" stroke="var(--wait)" stroke-width="2.5"/>`,
  tick: (x, y) => `<path d="M${x} ${y - 3}v6" stroke="var(--tick)" stroke-width="2"/>`}
const pattern = id => `<pattern id="${id}" width="6" height="6" patternUnits="userSpaceOnUse" patternTransform="rotate(45)"><rect width="6" height="6" fill="var(--wait-soft)"/><path d="M0 0V6" stroke="var(--wait)" stroke-width="2.4"/></pattern>${['wait', 'cell'].map(c => `<marker id="to-${c}" markerWidth="7" markerHeight="7" refX="6" refY="3.5" orient="auto"><path d="M0 .5L6.5 3.5 0 6.5z" fill="var(--${c})"/></marker>`).join('')}`
const row = processes.length > 12 ? 18 : 24, margin = 92
let laneFrom = 0, laneCount = 0, dx = 15
function showLanes(width = $('lanes').clientWidth || 900) {
  const high = processes.length * row + 26, wide = width - margin - 14
  dx = Math.max(width < 600 ? 13 : 15, Math.min(36, wide / turns.length)); laneCount = Math.max(8, Math.floor(wide / dx + .01)); laneFrom = Math.max(0, Math.min(at - Math.ceil(laneCount * .62), turns.length - laneCount + 1))
  const lo = laneFrom, hi = Math.min(turns.length, lo + laneCount), X = i => margin + (i - lo + .5) * dx, Y = p => 26 + laneOf[p] * row + row / 2 - 2, clip = i => Math.max(lo - .5, Math.min(hi - .5, i))
  let s = `<defs>${pattern('hatch')}<clipPath id="window"><rect x="${margin - 2}" y="12" width="${wide + 8}" height="${high}"/></clipPath></defs>`
  if (at > lo) s += `<rect x="${X(at - 1) - dx / 2}" y="14" width="${dx}" height="${high - 14}" rx="3" fill="var(--now)"/>`
  for (let i = lo; i < hi; i++) if (turns[i].entry % 5 === 0 && turns[i].entry !== turns[i - 1]?.entry) s += `<text x="${X(i)}" y="10" text-anchor="middle">${turns[i].entry}</text>`
  for (const p of processes) {
    const b = born[p], g = gone[p] ?? turns.length - 1, dim = b >= at ? ' opacity=".35"' : ''
    s += `<g${dim}><text class="n${waitAt(p) ? ' w' : ''}" x="4" y="${Y(p) + 4}">${p}</text><text x="26" y="${Y(p) + 4}">${esc((unitOf[p] ?? '').slice(0, 9))}</text></g>`
    if (b < hi && g >= lo) s += `<path d="M${X(clip(b))} ${Y(p)}H${X(clip(g))}" stroke="var(--line)" stroke-width="1.5"/>`
  }
  for (const w of waits) if (w.from < hi && w.to >= lo) {
    const x = X(clip(w.from)), x2 = X(clip(w.to)), y = Y(w.p), live = w.from < at && w.to >= at
    s += `<rect x="${x}" y="${y - 5}" width="${Math.max(0, x2 - x)}" height="10" fill="url(#hatch)" opacity="${w.from < at ? 1 : .4}"><title>process ${w.p} waits for ${w.full} ${esc(w.place)}</title></rect>`
    if (x2 - x > 90 && row > 20) s += `<text class="w" x="${x + 8}" y="${y - 8}">${w.full} ${esc(named(w.place))}</text>`
    if (live && w.since >= 0 && turns[w.since].p !== w.p) { const q = turns[w.since].p, xq = X(w.since); s += `<path clip-path="url(#window)" d="M${X(w.from)} ${y}L${xq} ${Y(q) + (Y(q) < y ? 7 : -7)}" stroke="var(--wait)" stroke-width="1.6" stroke-dasharray="4 3" fill="none" marker-end="url(#to-wait)"/>` }
  }
  for (const [f, t] of flows) if (f < hi && t >= lo && t - f < 3 * laneCount) { const a = Y(turns[f].p), b = Y(turns[t].p), d = Math.sign(b - a); s += `<path clip-path="url(#window)" d="M${X(f)} ${a + d * 5}L${X(t)} ${b - d * 6}" stroke="var(--cell)" stroke-width="1.2" fill="none" opacity="${t < at ? .75 : .25}" marker-end="url(#to-cell)"/>` }
  for (let i = lo; i < hi; i++) {
    const t = turns[i], x = X(i), y = Y(t.p)
    if (t.makes) s += `<path d="M${x} ${y}V${Y(t.makes)}h${dx / 2}" stroke="var(--proc)" stroke-width="1.5" fill="none" opacity="${i < at ? 1 : .35}"/>`
    s += `<g opacity="${i < at ? 1 : .35}">${shape[t.kind](x, y)}<title>${esc(t.text)}</title></g>`
  }
  $('lanes').style.aspectRatio = `${width} / ${high}`; $('lanes').setAttribute('viewBox', `0 0 ${width} ${high}`); $('lanes').innerHTML = s
  const t = now(); if (t) { const box = $('lanebox'), y = Y(t.p); if (y < box.scrollTop + 20 || y > box.scrollTop + box.clientHeight - 20) box.scrollTop = y - box.clientHeight / 2 }
}

// ---- the whole run in a strip

const RANK = ['', 'tick', 'read', 'call', 'ask', 'make', 'store', 'take', 'fill', 'end', 'print', 'fault'], COLOUR = {tick: '--tick', read: '--tick', call: '--tick', ask: '--cell', make: '--proc', store: '--plain', take: '--cell', fill: '--cell', end: '--ink', print: '--print', fault: '--wait'}
const strip = document.createElement('canvas')
function drawStrip() {
  const o = $('over'), w = strip.width = o.width = o.clientWidth * devicePixelRatio, h = strip.height = o.height = o.clientHeight * devicePixelRatio, g = strip.getContext('2d'), css = getComputedStyle(document.documentElement), of = v => css.getPropertyValue(v)
  const r = h / processes.length, sx = w / turns.length, best = processes.map(() => new Uint8Array(w + 1))
  g.fillStyle = of('--wait'); g.globalAlpha = .38
  for (const x of waits) g.fillRect(x.from * sx, laneOf[x.p] * r + r * .28, Math.max(1, (x.to - x.from) * sx), r * .44)
  g.globalAlpha = 1
  turns.forEach((t, i) => { const x = Math.floor(i * sx), b = best[laneOf[t.p]]; b[x] = Math.max(b[x], RANK.indexOf(t.kind)) })
  const one = Math.max(1, Math.min(sx - .5, 5 * devicePixelRatio))
  best.forEach((b, l) => b.forEach((k, x) => { if (k) { g.fillStyle = of(COLOUR[RANK[k]]); const small = k < 4; g.fillRect(x, l * r + r * (small ? .36 : .12), one, Math.max(1, r * (small ? .28 : .76))) } }))
  hits.forEach(i => { g.fillStyle = of('--ring'); g.fillRect(i * sx, 0, Math.max(2, one / 2), h * .16 + 3) })
}
function drawPlace() {
  const c = $('over'), g = c.getContext('2d'), x = Math.round(at / turns.length * c.width), css = getComputedStyle(document.documentElement)
  g.clearRect(0, 0, c.width, c.height); if (strip.width && strip.height) g.drawImage(strip, 0, 0); g.fillStyle = css.getPropertyValue('--ink'); g.fillRect(Math.min(x, c.width - 2) - 1, 0, 3, c.height)
}

// ---- going

function go(k, quiet) {
  k = Math.max(0, Math.min(turns.length, k))
  while (at < k) forth(turns[at++])
  while (at > k) back(turns[--at])
  const pos = $('pos'); pos.value = at; pos.setAttribute('aria-valuetext', `step ${at} of ${turns.length}${now() ? ': ' + now().text : ''}`)
  $('first').disabled = $('prev').disabled = at === 0; $('next').disabled = $('last').disabled = at === turns.length
  showSource(); showCells(); showSide(); showLanes(); drawPlace()
  if (!quiet) history.replaceState(null, '', '#' + at)
}
const stops = {all: () => true, seen: t => t.seen, own: (t, p) => t.p === p, found: (t, p, i) => hitSet.has(i)}
function step(d) {
  const stop = stops[$('by').value], p = now()?.p ?? 1
  let k = at + d
  while (k > 0 && k < turns.length && !stop(turns[k - 1], p, k - 1)) k += d
  go(k)
}
let timer
function play(on = !timer) { clearInterval(timer); timer = on && at < turns.length ? setInterval(() => { step(1); if (at === turns.length) play(false) }, 350) : 0; $('play').innerHTML = `<svg viewBox="0 0 16 16" aria-hidden="true"><path d="${timer ? 'M3 2h4v12H3zM9 2h4v12H9z' : 'M1 3v10l6-5zM8 3v10l6-5z'}"/></svg>`; $('play').setAttribute('aria-label', timer ? 'pause' : 'play') }
let hits = [], hitSet = new Set()
function find(words) {
  const parts = words.toUpperCase().split(/\s*&\s*/).filter(Boolean)
  hits = []; if (parts.length) turns.forEach((t, i) => { if (parts.every(w => t.hay.includes(w))) hits.push(i) })
  hitSet = new Set(hits); showFound(); drawStrip(); drawPlace()
}
function showFound() { const n = hits.indexOf(at - 1); $('found').textContent = $('q').value ? hits.length ? `${n >= 0 ? n + 1 + ' of ' : ''}${hits.length}` : 'none' : '' }
function hit(d) { if (!hits.length) return; const k = d > 0 ? hits.find(i => i >= at) ?? hits[0] : hits.filter(i => i < at - 1).pop() ?? hits[hits.length - 1]; go(k + 1); showFound() }
function search(words) { $('q').value = words; find(words); hit(1) }
const themes = ['auto', 'light', 'dark'], dark = matchMedia('(prefers-color-scheme:dark)'); let theme = 0
function paint() { const t = themes[theme]; document.documentElement.dataset.theme = t === 'auto' ? dark.matches ? 'dark' : 'light' : t; $('theme').textContent = {auto: '◐', light: '☀', dark: '☾'}[t]; $('theme').setAttribute('aria-label', 'colours: ' + t); drawStrip(); drawPlace() }
$('theme').onclick = () => { theme = (theme + 1) % 3; paint() }; dark.onchange = paint
$('first').onclick = () => go(0); $('prev').onclick = () => step(-1); $('next').onclick = () => step(1); $('last').onclick = () => go(turns.length); $('play').onclick = () => play()
$('pos').max = turns.length; $('pos').oninput = e => go(+e.target.value)
$('q').oninput = e => find(e.target.value); $('q').onkeydown = e => { if (e.key === 'Enter') hit(e.shiftKey ? -1 : 1); if (e.key === 'Escape') { e.target.value = ''; find(''); e.target.blur() } }
$('help').onclick = () => $('keys').showModal()
$('cells').onclick = e => { const b = e.target.closest('[data-find]'); if (b) search(b.dataset.find) }
$('src').onclick = e => { const b = e.target.closest('.no'); if (b) search(` LINE ${b.textContent} `) }
$('steps').onclick = e => { const b = e.target.closest('li'); if (b) go(+b.dataset.at) }
$('lanes').onclick = e => { const k = laneFrom + Math.floor((e.clientX - $('lanes').getBoundingClientRect().left - margin) / dx); if (k >= laneFrom) go(k + 1) }
$('over').onpointerdown = $('over').onpointermove = e => { if (e.buttons) { const r = $('over').getBoundingClientRect(); go(Math.round((e.clientX - r.left) / r.width * turns.length)) } }
addEventListener('keydown', e => {
  if (e.target.matches?.('input[type=search],select') || e.ctrlKey || e.metaKey || e.altKey || $('keys').open) return
  const act = {ArrowRight: () => step(1), ArrowLeft: () => step(-1), Home: () => go(0), End: () => go(turns.length), ' ': () => e.target.matches?.('button') || play(), '/': () => $('q').focus(), n: () => hit(1), N: () => hit(-1), t: () => $('theme').click(), '?': () => $('help').click()}[e.key]
  if (act && !(e.key === ' ' && e.target.matches?.('button'))) { e.preventDefault(); act() }
})
addEventListener('resize', () => { drawStrip(); go(at, true) }); addEventListener('beforeprint', () => showLanes(720)); addEventListener('hashchange', () => go(+location.hash.slice(1) || 0, true))
$('about-line').textContent = `${later ? `from entry ${first} on: ` : ''}${turns.length} steps, ${processes.length} process${processes.length === 1 ? '' : 'es'}, ${ends}`
if (later) $('h-out').textContent = `Output from entry ${first} on`
const program = unitOf[1] ?? /^ +PROGRAM +(\w+)/im.exec(source.join('\n'))?.[1] ?? 'MAIN'
$('name').textContent = program; document.title = `${program}: a run, step by step`
document.documentElement.style.setProperty('--lanes', Math.min(processes.length * row + 26, innerHeight * .3) + 'px')
document.documentElement.dataset.theme = dark.matches ? 'dark' : 'light'; drawStrip()
go(location.hash ? +location.hash.slice(1) : 0, true); paint(); play(false)
