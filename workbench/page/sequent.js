'use strict'
// The hypotheses and the goal: what shares names with the goal first, searched, hidden, chosen; and the part of a formula that is meant.

import { $, el, set, speak } from './dom.js'
import { formula, mark, step } from './formula.js'

let shown = null // the look that is shown
let showsFar = false
const marked = new Set() // numbers chosen for rules of two hypotheses, and for linear
const hidden = new Map() // obligation -> texts of hypotheses that the user put away
let doors = { offer: () => {} }

export const chosen = () => [...marked]
export function unchoose () { marked.clear() }
export function forget () { marked.clear(); showsFar = false; $('hypothesis-filter').value = '' }

const away = () => {
  if (!hidden.has(shown.po)) hidden.set(shown.po, new Set())
  return hidden.get(shown.po)
}

export function paint (look) {
  const had = $('sequent').contains(document.activeElement) ? document.activeElement.n : null
  shown = look
  const hypotheses = look.hypotheses || [], wanted = $('hypothesis-filter').value.trim().toLowerCase()
  const fits = n => !away().has(hypotheses[n - 1].text) && (!wanted || hypotheses[n - 1].text.toLowerCase().includes(wanted))
  const byNumber = $('by-number').checked
  const near = (byNumber ? hypotheses.map((h, k) => k + 1) : look.near || []).filter(fits)
  const far = (byNumber ? [] : look.far || []).filter(fits)
  const rows = near.map(n => rowOf(hypotheses[n - 1], ''))
  if (far.length) {
    const open = showsFar || wanted !== '' || near.length === 0
    const more = el('button', { type: 'button', class: 'divider', 'aria-expanded': String(open) }, `${open ? '▾' : '▸'} ${far.length} that share no name with the goal`)
    more.addEventListener('click', () => { showsFar = !showsFar; paint(shown); $('hypotheses').querySelector('.divider')?.focus() })
    rows.push(more)
    if (open) rows.push(...far.map(n => rowOf(hypotheses[n - 1], ' far')))
  }
  $('hypotheses').replaceChildren(...rows)
  $('goal-row').replaceChildren(...(look.goal ? [rowOf({ ...look.goal, n: 0 }, '')] : []))
  $('unhide').hidden = away().size === 0
  $('unhide').textContent = `Show ${away().size} hidden`
  const all = options()
  const first = all.find(row => row.n === had) || all[all.length - 1]
  if (first) first.tabIndex = 0
  if (had !== null && first) first.focus()
}

const options = () => [...$('sequent').querySelectorAll('[role=option]')]

function rowOf (given, kind) {
  const isGoal = given.n === 0
  const isNew = !isGoal && shown.base && given.n > shown.base
  const row = el('div', {
    class: 'row' + kind + (isNew ? ' new' : ''), role: 'option', tabindex: '-1', 'aria-selected': String(marked.has(given.n)),
    'aria-label': isGoal ? `goal ${given.text}` : `${given.n}: ${given.text}${isNew ? ', made by a rule' : ''}`
  })
  row.n = given.n
  const number = el('span', { class: 'number', title: isGoal ? 'the goal' : 'choose it for rules of two hypotheses, and for linear (Space)' }, isGoal ? '⊢' : `${given.n}:`)
  if (!isGoal) number.addEventListener('click', () => choose(row))
  row.append(number, el('span', { class: 'formula' }, ...formula(given, given.n)))
  if (!isGoal) {
    const hide = el('button', { type: 'button', class: 'hide', tabindex: '-1', 'aria-hidden': 'true', title: 'Hide it (x)' }, 'hide')
    hide.addEventListener('click', () => put(row))
    row.append(hide)
  }
  return row
}

function choose (row) {
  if (row.n === 0) return
  if (marked.has(row.n)) marked.delete(row.n)
  else marked.add(row.n)
  set(row, { 'aria-selected': String(marked.has(row.n)) })
}

function put (row) {
  away().add(shown.hypotheses[row.n - 1].text)
  const all = options(), k = all.indexOf(row), next = all[k + 1] || all[k - 1]
  const had = document.activeElement === row
  if (had && next) { next.tabIndex = 0; next.focus() }
  speak('hidden')
  paint(shown)
}

function offer (row, goesThere = false) {
  const at = row.querySelector('.part.at')
  doors.offer(row.n, at ? at.meant.place : '-', at ? at.meant.text : row.querySelector('.formula').textContent, goesThere)
}

function keydown (event) {
  const row = event.target.closest('[role=option]')
  if (!row || event.ctrlKey || event.altKey || event.metaKey) return
  const all = options(), k = all.indexOf(row)
  const go = to => { if (to) { mark(null); row.tabIndex = -1; to.tabIndex = 0; to.focus() } }
  const within = row.querySelector('.part.at')
  if (event.key.startsWith('Arrow')) {
    event.preventDefault()
    if (within || event.key === 'ArrowRight') {
      const found = step(row, event.key)
      if (found !== undefined) return mark(found)
    }
    if (event.key === 'ArrowDown') go(all[k + 1])
    if (event.key === 'ArrowUp') go(all[k - 1])
    return
  }
  const moves = { Home: () => go(all[0]), End: () => go(all[all.length - 1]), ' ': () => choose(row), x: () => row.n && put(row), Escape: () => mark(null) }
  if (event.key === 'Enter') {
    event.preventDefault()
    offer(row, true)
  } else if (Object.hasOwn(moves, event.key)) {
    event.preventDefault()
    moves[event.key]()
  }
}

export function begin (given) {
  doors = given
  $('sequent').addEventListener('keydown', keydown)
  $('sequent').addEventListener('click', event => {
    const row = event.target.closest('[role=option]')
    if (!row || event.target.closest('.number, .hide')) return
    const part = event.target.closest('.part')
    if (String(getSelection()) !== '') return // text is being copied
    mark(part)
    for (const other of options()) other.tabIndex = -1
    row.tabIndex = 0
    row.focus({ preventScroll: true })
    offer(row)
  })
  $('hypothesis-filter').addEventListener('input', () => shown && paint(shown))
  $('by-number').addEventListener('change', () => shown && paint(shown))
  $('unhide').addEventListener('click', () => { away().clear(); paint(shown); $('hypothesis-filter').focus() })
}
