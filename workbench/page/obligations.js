'use strict'
// The tree of components and their obligations: status, who made the proof, filters, the next open one.

import { $, el, set, oncePerFrame, speak } from './dom.js'
import { state, hear, counts, componentOf, statusOf, isOpen, STATUSES, MARKS } from './state.js'

const MOST_ROWS = 1500 // shown at once; a filter narrows what is left
const FOLD_FROM = 600 // projects with more obligations begin folded
const folded = new Map() // component -> whether the user folded it
let chosen = { name: null, po: null } // what the other panes show
let active = null // the row that has the focus when the tree gets it
let groups = new Map(), rows = new Map(), before = new Map(), keys = []
let open = { text: () => {}, proof: () => {} }
let allAnew = true
const changed = new Set()

// ---- What is shown

const SHOWS = {
  all: () => true,
  todo: name => isOpen(name),
  user: name => statusOf(name)[1] === 'user',
  prover: name => statusOf(name)[1] === 'prover'
}

function wanted () {
  const words = $('filter').value.toLowerCase().split(/\s+/).filter(Boolean)
  const kind = $('show').value
  const shows = SHOWS[kind] || (name => statusOf(name)[0] === kind)
  return { narrow: words.length > 0 || kind !== 'all', test: name => shows(name) && words.every(w => name.toLowerCase().includes(w)) }
}

const paintSoon = oncePerFrame(paint)

function paint () {
  const begun = performance.now()
  if (allAnew || wanted().narrow) paintAll()
  else paintChanged()
  allAnew = false
  changed.clear()
  paintCounts()
  performance.measure('tree painted', { start: begun })
}

function paintAll () {
  const hadFocus = $('tree').contains(document.activeElement)
  const { narrow, test } = wanted()
  gather()
  before = rows
  rows = new Map()
  keys = []
  const made = []
  let left = MOST_ROWS
  for (const component of state.components) {
    const group = groups.get(component.name) || { names: [] }
    const names = narrow ? group.names.filter(test) : group.names
    if (narrow && names.length === 0) continue
    const isFolded = narrow ? folded.get(component.name) === 'narrow' : folded.has(component.name) ? folded.get(component.name) === true : state.order.length > FOLD_FROM
    made.push(row(componentKey(component.name), fillComponent, component, isFolded))
    if (isFolded) continue
    for (const name of names.slice(0, left)) made.push(row(name, fillObligation, name))
    if (names.length > left) made.push(el('div', { class: 'more' }, `… ${names.length - left} more: filter by name, or fold components`))
    left = Math.max(0, left - names.length)
  }
  if (narrow && made.length === 0) made.push(el('div', { class: 'more' }, 'No obligation fits the filter.'))
  place($('tree'), made)
  if (!rows.has(active)) active = keys[0] || null
  stop(active)
  if (hadFocus && active) rows.get(active).focus()
}

// Puts rows into the tree; those that stand where they stood aren't touched, so that little is laid out anew.
function place (tree, made) {
  let at = tree.firstChild
  for (const row of made) {
    if (at === row) at = at.nextSibling
    else tree.insertBefore(row, at)
  }
  while (at) { const next = at.nextSibling; at.remove(); at = next }
}

// Names of obligations by component, in the order of the session.
function gather () {
  groups = new Map()
  for (const name of state.order) {
    const component = componentOf(name)
    if (!groups.has(component)) groups.set(component, { names: [] })
    groups.get(component).names.push(name)
  }
}

const componentKey = name => ` ${name}`

function row (key, fill, ...given) {
  const made = before.get(key) || el('div', { role: 'treeitem', tabindex: '-1' })
  made.rowKey = key
  rows.set(key, made)
  keys.push(key)
  fill(made, ...given)
  return made
}

function fillComponent (made, component, isFolded) {
  const names = (groups.get(component.name) || { names: [] }).names
  const done = names.filter(n => statusOf(n)[0] === 'discharged').length
  const fault = state.faults.get(component.name)
  made.component = component
  made.isFolded = isFolded
  const sign = JSON.stringify([component, isFolded, done, names.length, fault, component.name === chosen.name, unsaved(component.name)])
  if (made.sign === sign) return
  made.sign = sign
  const told = [component.kind, component.name, fault ? `fault: ${fault.text}` : names.length ? `${done} of ${names.length} discharged` : 'no obligations']
  set(made, {
    class: 'component' + (fault ? ' faulted' : ''), 'aria-level': '1', 'aria-expanded': names.length ? String(!isFolded) : null,
    'aria-selected': String(component.name === chosen.name), 'aria-label': told.join(' '), title: fault ? fault.text : `${component.kind}, ${component.file}`
  })
  made.replaceChildren(
    el('span', { class: 'fold' }, names.length ? (isFolded ? '▸' : '▾') : ''),
    el('span', { class: 'name' }, component.name),
    el('span', { class: 'quiet' }, component.kind + (unsaved(component.name) ? ' •' : '')),
    el('span', { class: 'done' }, fault ? '✗ fault' : names.length ? `${done}/${names.length}` : ''))
}

let unsaved = () => false
export const tellUnsaved = f => { unsaved = f }

function fillObligation (made, name) {
  const [status, by] = statusOf(name)
  const vain = state.tried.has(name) ? ', the prover found no proof' : ''
  const sign = `${status} ${by} ${vain} ${name === chosen.po}`
  if (made.sign === sign) return
  made.sign = sign
  const short = name.slice(name.indexOf('/') + 1)
  set(made, {
    class: `obligation ${status}`, 'aria-level': '2', 'aria-selected': String(name === chosen.po),
    'aria-label': `${short} ${status}${by ? ` by ${by}` : ''}${vain}`, title: `${name} ${status}${by ? ` (${by})` : ''}${vain}`
  })
  made.replaceChildren(
    el('span', { class: `mark ${status}` }, MARKS[status] || '?'),
    el('span', { class: 'name' }, short),
    el('span', { class: 'by' }, by || (vain && isOpen(name) ? 'tried' : '')))
}

function paintChanged () {
  const heads = new Set()
  for (const name of changed) {
    heads.add(componentOf(name))
    const made = rows.get(name)
    if (made) fillObligation(made, name)
  }
  for (const name of heads) repaintComponent(name)
}

function repaintComponent (name) {
  const made = rows.get(componentKey(name))
  if (made) fillComponent(made, made.component, made.isFolded)
}

function paintCounts () {
  const found = counts(), all = state.order.length
  const shown = STATUSES.filter(s => found[s]).reverse()
  $('counts').replaceChildren(...shown.map(s => el('span', {}, el('span', { class: `mark ${s}`, 'aria-hidden': 'true' }, MARKS[s]), ` ${found[s]} ${s}`)))
  $('progress').replaceChildren(...shown.map(s => {
    const part = el('span', { class: s })
    part.style.flexGrow = found[s]
    return part
  }))
  $('progress').setAttribute('aria-label', shown.map(s => `${found[s]} ${s}`).join(', ') || 'no obligations')
  $('progress').hidden = all === 0
  document.title = `${all ? `${found.discharged}/${all} ` : ''}${state.folder} – rodin`
}

// ---- What is chosen

export function choose (what) {
  const before = [chosen.name, chosen.po]
  chosen = { ...chosen, ...what }
  if (what.po) active = what.po
  else if (what.name) active = componentKey(what.name)
  const isShut = what.po && !rows.has(what.po)
  if (isShut && state.statuses.has(what.po)) folded.set(componentOf(what.po), false)
  if (isShut) { allAnew = true; paint() } else {
    for (const name of [before[0], chosen.name]) if (name) repaintComponent(name)
    for (const po of [before[1], chosen.po]) if (po && rows.has(po)) fillObligation(rows.get(po), po)
  }
  if (rows.has(active)) { stop(active); rows.get(active).scrollIntoView({ block: 'nearest' }) }
}

export const repaint = name => repaintComponent(name)

// The next obligation to do behind the one that is shown, round the end; those that the filter shows go first.
export function nextOpen () {
  const at = state.order.indexOf(chosen.po)
  const behind = [...state.order.slice(at + 1), ...state.order.slice(0, at + 1)]
  const { narrow, test } = wanted()
  const found = (narrow && behind.find(n => isOpen(n) && test(n))) || behind.find(isOpen)
  if (!found) return speak('Nothing is left to do.')
  if (found === chosen.po) speak('No other obligation is left to do.')
  open.proof(found)
}

export const openCount = () => state.order.filter(isOpen)

// ---- Keys and clicks

function stop (key) {
  for (const made of $('tree').querySelectorAll('[tabindex="0"]')) made.tabIndex = -1
  if (rows.has(key)) rows.get(key).tabIndex = 0
}

function go (key) {
  if (!rows.has(key)) return
  active = key
  stop(key)
  rows.get(key).focus()
}

function fold (name, isShut) {
  folded.set(name, isShut ? (wanted().narrow ? 'narrow' : true) : false)
  active = componentKey(name)
  allAnew = true
  paint()
}

function press (made) {
  active = made.rowKey
  if (made.component) open.text(made.component.name)
  else open.proof(made.rowKey)
}

function keydown (event) {
  const made = event.target.closest('[role=treeitem]')
  if (!made || event.ctrlKey || event.metaKey || event.altKey) return
  const at = keys.indexOf(made.rowKey), component = made.component && made.component.name
  const moves = {
    ArrowDown: () => go(keys[at + 1]),
    ArrowUp: () => go(keys[at - 1]),
    Home: () => go(keys[0]),
    End: () => go(keys[keys.length - 1]),
    PageDown: () => go(keys[Math.min(at + 20, keys.length - 1)]),
    PageUp: () => go(keys[Math.max(at - 20, 0)]),
    ArrowRight: () => component && made.isFolded ? fold(component, false) : component && go(keys[at + 1]),
    ArrowLeft: () => component ? !made.isFolded && fold(component, true) : go(componentKey(componentOf(made.rowKey))),
    Enter: () => press(made),
    ' ': () => press(made),
    n: nextOpen
  }
  if (!Object.hasOwn(moves, event.key)) return
  event.preventDefault()
  moves[event.key]()
}

export function begin (doors) {
  open = doors
  $('tree').addEventListener('keydown', keydown)
  $('tree').addEventListener('click', event => {
    const made = event.target.closest('[role=treeitem]')
    if (!made) return
    if (event.target.matches('.fold') && made.hasAttribute('aria-expanded')) fold(made.component.name, !made.isFolded)
    else press(made)
  })
  const anew = () => { allAnew = true; paintSoon() }
  $('filter').addEventListener('input', () => { for (const [name, how] of folded) if (how === 'narrow') folded.delete(name); anew() })
  $('filter').addEventListener('keydown', event => {
    if (event.key === 'ArrowDown' && keys.length) { event.preventDefault(); go(rows.has(active) ? active : keys[0]) }
    if (event.key === 'Escape') { $('filter').value = ''; anew() }
  })
  $('show').addEventListener('change', anew)
  $('next-open').addEventListener('click', nextOpen)
  hear('texts', anew)
  hear('statuses', names => {
    if (names === null) allAnew = true
    else names.forEach(n => changed.add(n))
    paintSoon()
  })
}
