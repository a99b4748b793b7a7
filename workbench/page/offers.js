'use strict'
// Rules offered for what is clicked, each with what it would leave. What a rule would leave is tried in a copy of the project, and told
// by a session there; a rule that doesn't fit there isn't offered. The rule itself is made by the session of the project.

import { $, el, speak } from './dom.js'
import { post } from './server.js'
import { state } from './state.js'
import { typed, finished } from './spelling.js'

let doors = { look: () => null, act: async () => {}, chosen: () => [] }
let asked = 0
let aimed = { n: 0, place: '-', text: '' }

export function forGoal (look) {
  aimed = { n: 0, place: '-', text: look.goal ? look.goal.text : '' }
  $('own').hidden = !look.open
  $('own-leaves').replaceChildren()
  if (look.open) return ask(look)
  asked++
  $('offers').replaceChildren()
  $('offers-for').textContent = look.line ? `The rule here: ${look.line}` : ''
}

// `goesThere`: the keys go to the first rule that is offered.
export async function forPart (n, place, text, goesThere) {
  aimed = { n, place, text }
  const look = doors.look()
  if (!look || !look.open) return
  await ask(look, goesThere)
}

// The rules are shown at once and whole, so that none moves under the pointer; those of an earlier sequent are gone before.
async function ask (look, goesThere = false) {
  const mine = ++asked, { n, place, text } = aimed
  const subject = n ? `hypothesis ${n}` : 'the goal'
  const whole = place === '-' ? subject : `${text}  in ${subject}`
  $('offers').replaceChildren()
  $('offers-for').textContent = `Rules for ${whole} …`
  try {
    const { offers, misfits, why } = await post('offers', { po: look.po, path: look.at, n, place, chosen: doors.chosen() })
    if (mine !== asked) return
    $('offers').replaceChildren(...offers.map(offer => row(offer, look)))
    const notes = [why && `what they would leave isn’t known: ${why}`, misfits && `${misfits} more by their shape, which don’t fit`].filter(Boolean)
    $('offers-for').textContent = `Rules for ${whole}${notes.length ? ` (${notes.join('; ')})` : ''}`
    if (goesThere) toOffers()
  } catch (fault) {
    if (mine === asked) $('offers-for').textContent = fault.message
  }
}

function row (offer, look) {
  const box = el('span', { class: 'leaves' })
  const button = el('button', { type: 'button', class: 'offer' }, el('code', {}, offer.asked), el('span', { class: 'says' }, offer.says), box)
  const item = el('li', {}, button)
  if (offer.leaves) paintLeaves(box, offer)
  button.addEventListener('click', () => {
    if (offer.asks.length === 0) doors.act('step', { words: offer.words })
    else openItems(item, button, offer, look)
  })
  return item
}

// Fields for the terms that a rule wants, with what it would leave as they are typed.
function openItems (item, button, offer, look) {
  const shown = item.querySelector('form')
  if (shown) { shown.remove(); button.setAttribute('aria-expanded', 'false'); return }
  button.setAttribute('aria-expanded', 'true')
  const fields = offer.asks.map(ask => {
    const [kind, name] = ask.split(' ')
    const label = name ? `a term for ${name}` : kind === 'p' ? 'a predicate' : 'an expression'
    const field = el('input', { 'aria-label': label, placeholder: label, spellcheck: 'false', autocomplete: 'off' })
    if (kind === 'e' && aimed.place !== '-') field.value = aimed.text
    return { kind, field }
  })
  const words = () => offer.words + fields.map(({ kind, field }, k) => (k === 0 && !offer.words.includes(' ') ? ' ' : ' ;; ') + `${kind} ${finished(field.value)}`).join('')
  const box = el('span', { class: 'leaves' })
  const form = el('form', { class: 'items' }, ...fields.map(f => f.field), el('button', {}, 'Step'), box)
  const all = () => fields.every(f => f.field.value.trim())
  const show = later(async () => { if (all()) await preview(look, words(), box) })
  for (const { field } of fields) field.addEventListener('input', event => { typed(field, event); show() })
  form.addEventListener('submit', event => {
    event.preventDefault()
    if (all()) doors.act('step', { words: words() })
    else fields.find(f => !f.field.value.trim()).field.focus()
  })
  form.addEventListener('keydown', event => { if (event.key === 'Escape') { event.stopPropagation(); form.remove(); button.setAttribute('aria-expanded', 'false'); button.focus() } })
  item.append(form)
  fields[0].field.focus()
  fields[0].field.select()
  show()
}

async function preview (look, words, box) {
  try {
    const { leaves, why } = await post('leaves', { po: look.po, path: look.at, words: [words] })
    if (why) box.replaceChildren()
    else paintLeaves(box, leaves[0])
  } catch (fault) { box.replaceChildren(el('span', { class: 'leaf no' }, fault.message)) }
}

function paintLeaves (box, found) {
  if (found.refused !== undefined) { box.replaceChildren(el('span', { class: 'leaf no' }, found.refused)); return }
  if (found.leaves.length === 0) { box.replaceChildren(el('span', { class: 'leaf closes' }, '✓ closes this goal')); return }
  box.replaceChildren(...found.leaves.map(leaf => {
    const parts = [...leaf.adds.map(a => `+ ${a}`), ...(leaf.goal === null ? [] : [`⊢ ${leaf.goal}`])]
    return el('span', { class: 'leaf' }, `○ ${parts.join('   ') || 'the same goal'}`)
  }))
}

// Signs stand in terms alone: the `-` of a place or of a number stays what it is.
const IN_TERM = /(?:;;|^\s*\w+)\s+[ep]\s(?:(?!;;).)*$/

function ownWords () {
  const words = $('words').value.trim()
  return IN_TERM.test(words) ? finished(words) : words
}

// Calls `f` once when nothing came for a moment.
function later (f) {
  let clock = null
  return () => { clearTimeout(clock); clock = setTimeout(f, 200) }
}

function toOffers () {
  const first = $('offers').querySelector('.offer')
  if (first) first.focus()
  else speak('no rule is offered')
}

export function begin (given) {
  doors = given
  $('offers').addEventListener('keydown', event => {
    if (!event.target.matches('.offer') || !['ArrowDown', 'ArrowUp', 'Escape'].includes(event.key)) return
    event.preventDefault()
    if (event.key === 'Escape') return $('sequent').querySelector('[tabindex="0"]')?.focus()
    const all = [...$('offers').querySelectorAll('.offer')], to = all[all.indexOf(event.target) + (event.key === 'ArrowDown' ? 1 : -1)]
    if (to) to.focus()
  })
  const show = later(() => {
    const look = doors.look(), words = ownWords()
    if (look && look.open && words) preview(look, words, $('own-leaves'))
    else $('own-leaves').replaceChildren()
  })
  $('words').addEventListener('input', event => {
    if (IN_TERM.test($('words').value.slice(0, $('words').selectionStart))) typed($('words'), event)
    show()
  })
  $('own').addEventListener('submit', async event => {
    event.preventDefault()
    const words = ownWords()
    if (words && await doors.act('step', { words })) $('words').value = ''
  })
}

export function kinds () {
  $('kinds').replaceChildren(...Object.entries(state.rules).map(([kind, says]) => el('option', { value: kind }, says)))
}
