'use strict'
// Which of the four views are shown, how the keys go between them, and light or dark.

import { $, el, isTyping } from './dom.js'

const VIEWS = ['models', 'text', 'proof', 'log']
const shown = { models: true, text: true, proof: true, log: false }

const visible = view => getComputedStyle($(view)).display !== 'none'

function paint () {
  for (const view of VIEWS) document.body.classList.toggle(`no-${view}`, !shown[view])
  for (const button of document.querySelectorAll('[data-view]')) button.setAttribute('aria-pressed', String(visible(button.dataset.view)))
}

// Makes a view visible, whatever the width of the window.
export function bring (view) {
  shown[view] = true
  document.body.dataset.pane = view
  paint()
}

function toggle (view) {
  if (!visible(view)) { bring(view); $(view).focus(); return }
  const others = VIEWS.filter(v => v !== view && visible(v))
  if (others.length === 0) return // one view is always there
  shown[view] = false
  document.body.dataset.pane = others.find(v => v === 'text' || v === 'proof') || others[0]
  paint()
}

// F6 goes round the views that are visible.
export function round (back) {
  const there = VIEWS.filter(visible)
  const at = there.findIndex(v => $(v).contains(document.activeElement))
  const to = there[(at + (back ? -1 : 1) + there.length) % there.length]
  const inner = { models: '#tree [tabindex="0"]', text: '#sheet textarea:not([hidden])', proof: '#sequent [tabindex="0"]', log: '#raw-line' }[to]
  ;($(to).querySelector(inner) || $(to)).focus()
}

const THEMES = ['system', 'light', 'dark']
let theme = 'system'
const kept = { // a browser may forbid keeping anything
  get: () => { try { return localStorage.getItem('theme') } catch { return null } },
  set: value => { try { localStorage.setItem('theme', value) } catch { /* it is forgotten, then */ } }
}

function paintTheme () {
  if (theme === 'system') delete document.documentElement.dataset.theme
  else document.documentElement.dataset.theme = theme
  $('theme').textContent = { system: '◐', light: '○', dark: '●' }[theme]
  $('theme').title = `Colours: ${theme === 'system' ? 'as the system has them' : theme}`
  $('theme').setAttribute('aria-label', $('theme').title)
}

export const KEYS = [
  ['Ctrl+S', 'save the text and build'], ['Ctrl+F', 'find in the text'], ['Ctrl+Z, Ctrl+Y', 'undo and redo in the text'], ['Tab', 'in the text: two blanks; behind Escape to the next field'],
  ['F4', 'to the next fault'], ['F6, Shift+F6', 'to the next view, or the one before'], ['F8', 'to the next obligation to do'], ['/', 'filter the obligations by name'],
  ['↑ ↓ ← →', 'in a tree: along it, fold and unfold; among hypotheses: along them, and with → into a formula, part by part'],
  ['Enter', 'open what is marked; on a hypothesis, a part or the goal: the rules offered for it'], ['Space', 'choose a hypothesis, for rules of two and for linear'], ['x', 'hide a hypothesis'],
  ['a, h', 'in the proof: the prover, on the whole obligation, or on this goal'], ['l, v', 'linear, review'], ['p, u, r', 'prune, undo, redo'], ['n', 'in the proof and the tree: the next obligation to do'], ['t', 'in the proof: to the text that it comes from'],
  ['Escape', 'leave a field, a part, the rules offered'], ['?', 'these keys']
]

export function help () {
  $('keys').replaceChildren(...KEYS.map(([key, says]) => el('tr', {}, el('td', {}, el('kbd', {}, key)), el('td', {}, says))))
  $('help-dialog').showModal()
}

export function begin (doors) {
  for (const button of document.querySelectorAll('[data-view]')) button.addEventListener('click', () => toggle(button.dataset.view))
  for (const view of VIEWS) $(view).addEventListener('focusin', () => { if (document.body.dataset.pane !== view && visible(view)) { document.body.dataset.pane = view; paint() } })
  addEventListener('resize', paint)
  theme = THEMES.includes(kept.get()) ? kept.get() : 'system'
  paintTheme()
  $('theme').addEventListener('click', () => { theme = THEMES[(THEMES.indexOf(theme) + 1) % THEMES.length]; kept.set(theme); paintTheme() })
  $('help').addEventListener('click', help)
  addEventListener('keydown', event => {
    if (document.querySelector('dialog[open]')) return
    const command = event.ctrlKey || event.metaKey
    const plain = !command && !event.altKey
    if (command && event.key === 's') { event.preventDefault(); doors.save() }
    else if (command && event.key === 'f' && $('text').contains(document.activeElement)) { event.preventDefault(); doors.find() }
    else if (plain && event.key === 'F4') { event.preventDefault(); doors.fault() }
    else if (plain && event.key === 'F6') { event.preventDefault(); round(event.shiftKey) }
    else if (plain && event.key === 'F8') { event.preventDefault(); doors.next() }
    else if (plain && !isTyping(event.target) && event.key === '?') { event.preventDefault(); help() }
    else if (plain && !isTyping(event.target) && event.key === '/') { event.preventDefault(); bring('models'); $('filter').focus(); $('filter').select() }
  })
  paint()
}
