'use strict'
// One obligation: its tree, the sequent at the marked node, and what the user does to it.

import { $, el, set, speak } from './dom.js'
import { post } from './server.js'
import { state, hear, statusOf, MARKS, isOpen } from './state.js'
import { nextOpen, openCount } from './obligations.js'
import * as sequent from './sequent.js'
import * as offers from './offers.js'

const proof = { po: null, look: null, asked: 0, acting: false, looking: null, key: '' }
let opened = () => {}, origin = () => {}
const RULE_ACTS = { auto: () => isOpen(proof.po) || statusOf(proof.po)[0] === 'gone', attempt: onLeaf, linear: onLeaf, review: onLeaf, prune: onRule, undo: () => proof.look.undo, redo: () => proof.look.redo }

export const current = () => proof.po
export const shownLook = () => proof.look
function onLeaf () { return proof.look.open }
function onRule () { return !proof.look.open && proof.look.nodes.length > 0 }

export async function openProof (name) {
  proof.po = name
  for (const id of ['proof-tools', 'proof-body']) $(id).hidden = false
  $('proof-none').hidden = true
  sequent.forget()
  proof.key = ''
  say([])
  opened(name)
  await look()
}

// Asks for the tree and a node's sequent. An answer that a later question has overtaken is left alone.
export function look (path = null) {
  if (!proof.po) return
  const asked = ++proof.asked
  proof.looking = (async () => {
    try {
      const found = await post('look', { po: proof.po, path })
      if (asked === proof.asked) paint(found)
    } catch (fault) {
      if (asked === proof.asked) say([fault.message], true)
    }
  })()
  return proof.looking
}

function paint (found, wholly = false) {
  if (found.po !== proof.po) return
  proof.look = found
  $('proof-name').textContent = found.po
  $('proof-name').title = found.po
  paintStatus()
  paintTree(found)
  $('proof-note').hidden = !found.note
  $('proof-note').textContent = found.note || ''
  const key = JSON.stringify([found.po, found.at, found.open, found.line, found.hypotheses, found.goal])
  if (key !== proof.key || wholly) { // else what is shown, clicked and typed there stays
    proof.key = key
    sequent.paint(found)
    offers.forGoal(found)
  }
  for (const button of document.querySelectorAll('[data-act]')) button.disabled = !RULE_ACTS[button.dataset.act]()
  $('copy-lines').disabled = found.nodes.length === 0
}

function paintStatus () {
  if (!proof.po) return
  const [status, by] = statusOf(proof.po)
  const vain = state.tried.has(proof.po) && isOpen(proof.po) ? ', the prover found none' : ''
  $('proof-status').replaceChildren(el('span', { class: `mark ${status}`, 'aria-hidden': 'true' }, MARKS[status] || '–'), `${status}${by ? ` (${by})` : ''}${vain}`)
  const open = openCount(), at = open.indexOf(proof.po)
  $('proof-place').textContent = at >= 0 ? `${at + 1} of ${open.length} to do` : `${open.length} to do`
}

// ---- The tree. Rules with one child stand below each other at one depth, so that long proofs stay narrow.

function paintTree (found) {
  const had = $('proof-tree').contains(document.activeElement)
  const children = new Map(), depths = new Map()
  const above = path => path === '-' ? null : path.includes('.') ? path.slice(0, path.lastIndexOf('.')) : '-'
  for (const node of found.nodes) children.set(above(node.path), (children.get(above(node.path)) || 0) + 1)
  const rows = found.nodes.map(node => {
    const up = above(node.path)
    const depth = up === null ? 0 : depths.get(up) + (children.get(up) > 1 ? 1 : 0)
    depths.set(node.path, depth)
    const isAt = node.path === found.at, misfit = found.misfits[node.path]
    const row = el('div', {
      role: 'treeitem', 'aria-level': String(depth + 1), 'aria-selected': String(isAt), tabindex: isAt ? '0' : '-1',
      class: misfit ? 'misfit' : node.rule ? '' : 'open',
      title: node.path + (node.goal ? ` ⊢ ${node.goal}` : ''), 'aria-label': node.rule ? `rule ${node.rule}${misfit ? `, does not fit: ${misfit}` : ''}` : `open goal ${node.goal}`
    })
    const begins = up !== null && children.get(up) > 1
    for (let k = 0; k < depth; k++) row.append(el('span', { class: 'step', 'aria-hidden': 'true' }, begins && k === depth - 1 ? '├' : '│'))
    row.append(node.rule ? el('span', {}, node.rule) : el('span', {}, `○ ${node.goal}`))
    const says = misfit ? `✗ ${misfit}` : node.rule && state.rules[node.rule]
    if (says) row.append(el('span', { class: 'says' }, says))
    row.path = node.path
    return row
  })
  $('proof-tree').replaceChildren(...rows)
  const at = rows.find(row => row.path === found.at)
  if (!at && rows.length) rows[0].tabIndex = 0
  if (at) at.scrollIntoView({ block: 'nearest' })
  if (had) (at || rows[0] || $('proof')).focus()
}

function treeKeys (event) {
  const row = event.target.closest('[role=treeitem]')
  if (!row || event.ctrlKey || event.altKey || event.metaKey) return
  const rows = [...$('proof-tree').children], k = rows.indexOf(row)
  const go = n => { const to = rows[Math.max(0, Math.min(rows.length - 1, n))]; row.tabIndex = -1; to.tabIndex = 0; to.focus() }
  const moves = { ArrowDown: () => go(k + 1), ArrowUp: () => go(k - 1), Home: () => go(0), End: () => go(rows.length - 1), Enter: () => look(row.path), ' ': () => look(row.path) }
  if (!Object.hasOwn(moves, event.key)) return
  event.preventDefault()
  moves[event.key]()
}

// ---- What the user does

export async function act (what, more = {}) {
  if (!proof.po || !proof.look) return
  if (proof.acting) return speak('still at work')
  proof.acting = true
  await proof.looking // the node that was clicked last is the one that is meant
  const po = proof.po, asked = ++proof.asked
  $('proof').setAttribute('aria-busy', 'true')
  if (what === 'attempt' || what === 'auto') say(['the prover is at work …'])
  try {
    const out = await post('act', { po, what, path: proof.look.at, chosen: sequent.chosen(), ...more })
    if (po === proof.po) {
      sequent.unchoose()
      if (asked === proof.asked) paint(out.look, true)
      const refused = out.reply.length > 0 && out.reply[0].startsWith('refused')
      say(out.reply, refused)
      return !refused
    }
  } catch (fault) {
    say([fault.message], true)
  } finally {
    proof.acting = false
    $('proof').removeAttribute('aria-busy')
  }
}

export function say (lines, no) {
  $('reply').textContent = lines.join('\n')
  $('reply').className = 'bar foot' + (no ? ' no' : '')
}

async function copyLines () {
  try {
    const { lines } = await post('lines', { po: proof.po })
    await navigator.clipboard.writeText(lines.join('\n') + '\n')
    say([`${lines.length} lines copied`])
  } catch (fault) { say([fault.message], true) }
}

const KEYS = { a: 'auto', h: 'attempt', l: 'linear', v: 'review', p: 'prune', u: 'undo', r: 'redo' }

function keydown (event) {
  if (event.ctrlKey || event.altKey || event.metaKey || event.target.matches('input, textarea, select')) return
  if (event.key === 'n') { event.preventDefault(); nextOpen() }
  if (event.key === 't' && proof.po) { event.preventDefault(); origin(proof.po) }
  if (!Object.hasOwn(KEYS, event.key)) return
  event.preventDefault()
  const button = document.querySelector(`[data-act=${KEYS[event.key]}]`)
  if (button.disabled) speak(`${button.textContent} is not possible here`)
  else act(KEYS[event.key])
}

export function begin (doors) {
  opened = doors.opened
  origin = doors.origin
  $('in-text').addEventListener('click', () => proof.po && origin(proof.po))
  sequent.begin({ look: shownLook, offer: offers.forPart })
  offers.begin({ look: shownLook, act, chosen: sequent.chosen })
  for (const button of document.querySelectorAll('[data-act]')) {
    button.disabled = true
    button.addEventListener('click', () => act(button.dataset.act))
  }
  $('copy-lines').disabled = true
  $('copy-lines').addEventListener('click', copyLines)
  $('proof-tree').addEventListener('click', event => { const row = event.target.closest('[role=treeitem]'); if (row) look(row.path) })
  $('proof-tree').addEventListener('keydown', treeKeys)
  $('proof').addEventListener('keydown', keydown)
  // A build may have changed the sequent; another page, or a worker, the proof.
  hear('texts', () => { if (!proof.acting) say([]); if (!proof.acting) look(proof.look && statusOf(proof.po)[0] === proof.look.status[0] ? proof.look.at : null) })
  hear('statuses', names => {
    paintStatus()
    const status = statusOf(proof.po)[0]
    if ((names === null || names.includes(proof.po)) && proof.look && status !== proof.look.status[0] && !proof.acting) look(status === 'broken' ? null : proof.look.at)
  })
  $('proof-tools').addEventListener('keydown', event => {
    const buttons = [...$('proof-tools').querySelectorAll('button:not(:disabled)')], k = buttons.indexOf(document.activeElement)
    const to = { ArrowRight: k + 1, ArrowLeft: k - 1 }[event.key]
    if (to !== undefined && buttons[to]) { event.preventDefault(); buttons[to].focus() }
  })
}
