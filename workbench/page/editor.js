'use strict'
// The texts: one field for each open component, so that each keeps its own undo, caret and place. Saving writes the file and builds.

import { $, el, confirmed, speak } from './dom.js'
import { post } from './server.js'
import { state, hear } from './state.js'
import { typed, insert } from './spelling.js'
import * as sheet from './sheet.js'
import * as find from './find.js'

const texts = new Map() // name -> {area, saved, mark, file}: `saved` is what stands in the file as far as the page knows
let current = null
const BLOCKED = 9 // the kind of a fault that another component's fault makes
let onOpen = () => {}, onDirty = () => {}, onSay = () => {}

export const currentName = () => current
export const isUnsaved = name => texts.has(name) && texts.get(name).area.value !== texts.get(name).saved
export const unsavedNames = () => [...texts.keys()].filter(isUnsaved)
const now = () => texts.get(current)

// ---- Opening

export async function openText (name, line, column) {
  if (!texts.has(name)) {
    const found = await post('text', { name })
    if (!texts.has(name)) texts.set(name, { area: makeArea(name, found.text), saved: found.text, mark: found.mark, file: found.file })
  }
  show(name)
  onOpen(name)
  if (line) goTo(line, column)
}

function makeArea (name, text) {
  const area = el('textarea', { spellcheck: 'false', wrap: 'off', autocomplete: 'off', autocapitalize: 'off', 'aria-label': `Text of ${name}`, 'aria-describedby': 'fault' })
  area.value = text
  area.setSelectionRange(0, 0)
  area.addEventListener('input', event => {
    typed(area, event)
    const text = now()
    if (text) text.marked = false
    repaint()
    showDirty()
    tellTyping()
  })
  area.addEventListener('scroll', () => sheet.scrollWith(area))
  area.addEventListener('keydown', keydown)
  for (const event of ['keyup', 'click', 'focus']) area.addEventListener(event, showCaret)
  $('sheet').append(area)
  return area
}

// The prover isn't sent for while a text is typed: so a save needn't wait for it.
let toldTyping = 0
function tellTyping () {
  if (performance.now() - toldTyping < 2000) return
  toldTyping = performance.now()
  post('typing').catch(() => {})
}

function show (name) {
  current = name
  for (const [other, { area }] of texts) area.hidden = other !== name
  const text = now()
  $('text-name').textContent = name || 'No component'
  $('text-file').textContent = text ? text.file : ''
  for (const button of ['save', 'drop', 'find-open']) $(button).disabled = !text
  showFault()
  showConflict()
  showDirty()
  showCaret()
  if (text) sheet.scrollWith(text.area)
}

export function goTo (line, column) {
  const { area } = now()
  const at = sheet.offset(area.value, line, column)
  area.focus()
  area.setSelectionRange(at, at)
  const height = parseFloat(getComputedStyle(area).lineHeight)
  const top = (line - 1) * height
  if (top < area.scrollTop || top > area.scrollTop + area.clientHeight - 3 * height) area.scrollTop = Math.max(0, top - area.clientHeight / 3)
  showCaret()
}

// ---- What is shown beside the text

function repaint () {
  const text = now()
  if (!text) return sheet.paint('', [])
  const marks = find.hits(text.area.value)
  const fault = state.faults.get(current)
  if (fault && text.marked !== false && fault.line > 0) {
    const start = sheet.offset(text.area.value, fault.line, fault.column)
    const size = Math.max(1, (/^([A-Za-z_]\w*'?|@[\w.'-]*|[^\s\w])/u.exec(text.area.value.slice(start)) || [' '])[0].length)
    marks.push({ start, end: start + size, kind: 'fault' })
    marks.sort((a, b) => a.start - b.start)
  }
  sheet.paint(text.area.value, marks)
  sheet.markLine(fault && text.marked !== false ? fault.line : 0)
  sheet.scrollWith(text.area)
}
find.whenChanged(repaint)

function showFault () {
  const text = now(), fault = state.faults.get(current)
  if (text) text.marked = true
  $('fault').textContent = fault ? `${fault.line ? `${fault.line}:${fault.column} ` : ''}${fault.text}` : ''
  if (text) text.area.setAttribute('aria-invalid', String(!!fault))
  repaint()
}

function showCaret () {
  const text = now()
  if (!text) { $('caret').textContent = ''; return }
  const { line, column } = sheet.place(text.area.value, text.area.selectionEnd)
  $('caret').textContent = `line ${line}, column ${column}`
}

function showDirty () {
  const dirty = current && isUnsaved(current)
  $('text-name').textContent = (current || 'No component') + (dirty ? ' •' : '')
  $('text-name').title = dirty ? 'not saved' : ''
  onDirty(current)
}

// Where an obligation comes from: its label behind the heading of its event, or the event, or the component.
export async function openOrigin (po) {
  const [component, ...parts] = po.split('/')
  if (!state.components.some(c => c.name === component)) return
  await openText(component)
  const text = now().area.value, word = w => w.replace(/[.$]/g, '\\$&')
  const find = (pattern, from) => { const found = new RegExp(pattern, 'g'); found.lastIndex = from; const m = found.exec(text); return m ? m.index : -1 }
  const label = parts.length > 1 ? parts[parts.length - 2] : null
  const event = parts.length > 2 ? find(`\\bevent\\s+${word(parts[0])}(?![\\w'])`, 0) : 0
  const next = parts.length > 2 && event >= 0 ? find('\\bevent\\s', event + 6) : -1
  let at = label ? find(`@${word(label)}(?![\\w.'-])`, Math.max(0, event)) : -1
  if (next >= 0 && at > next || at < 0) at = event > 0 ? event : label ? find(`@${word(label)}(?![\\w.'-])`, 0) : 0
  const { line, column } = sheet.place(text, Math.max(0, at))
  goTo(line, column)
}

// To the next fault: in the open text, or in the next component that has one. What is only blocked by others comes last.
export async function nextFault () {
  const faulted = state.components.map(c => c.name).filter(n => state.faults.has(n))
  if (!faulted.length) return speak('There is no fault.')
  const causes = faulted.filter(n => state.faults.get(n).kind !== BLOCKED)
  const names = causes.length ? causes : faulted
  const fault = names.includes(current) && state.faults.get(current), text = now()
  if (fault && text) {
    const { line, column } = sheet.place(text.area.value, text.area.selectionStart)
    if (line !== fault.line || column !== fault.column || document.activeElement !== text.area) return openText(current, fault.line, fault.column)
  }
  const next = names[(names.indexOf(current) + 1) % names.length]
  const found = state.faults.get(next)
  await openText(next, found.line || 1, found.column)
}

// ---- Saving

export async function save (over = false) {
  const text = now(), name = current
  if (!text) return
  const sent = text.area.value
  performance.mark('save')
  const out = await post('save', { name, text: sent, was: over ? null : text.saved })
  if (out.changed !== undefined) {
    text.theirs = out.changed
    showConflict()
    return
  }
  text.saved = sent
  text.mark = out.mark
  text.theirs = undefined
  showConflict()
  showDirty()
  shownSoon(out.saved)
}

// A save is shown when what its build told, which comes before the word `saved`, is painted. The time stands in the page's measures.
let lastSaved = 0, waitsFor = Infinity
export function saved (count) {
  lastSaved = Math.max(lastSaved, count)
  if (lastSaved >= waitsFor) measure()
}

function shownSoon (count) {
  waitsFor = count
  if (lastSaved >= count) measure()
}

function measure () {
  waitsFor = Infinity
  requestAnimationFrame(() => setTimeout(() => performance.measure('save to paint', 'save')))
}

// What the server tells of the texts: another editor, or another page, may have changed them.
async function heard () {
  for (const [name, text] of [...texts]) {
    const there = state.components.find(c => c.name === name)
    if (!there) { renamed(name, text); continue }
    text.file = there.file
    if (there.mark === text.mark) continue
    const found = await post('text', { name })
    text.mark = found.mark
    if (found.text === text.saved) continue
    if (text.area.value === text.saved) {
      text.saved = found.text
      replace(text.area, found.text)
    } else if (text.area.value === found.text) text.saved = found.text
    else text.theirs = found.text
  }
  if (current && !texts.has(current)) show(null)
  if (current) show(current)
}

// The name went: its file has another heading now, or it was deleted.
function renamed (name, text) {
  const now = state.components.find(c => c.file === text.file && !texts.has(c.name))
  if (!isUnsaved(name) || now) {
    texts.delete(name)
    if (now) { texts.set(now.name, text); text.mark = ''; if (current === name) { current = now.name; onOpen(now.name) } } else {
      text.area.remove()
      if (current === name) show(null)
    }
  } else text.theirs = null
}

// Puts a text in the place of another one, so that undo takes it back, and keeps the caret's place.
function replace (area, text) {
  const had = document.activeElement, { selectionStart, selectionEnd, scrollTop } = area
  const wasHidden = area.hidden
  area.hidden = false
  insert(area, 0, area.value.length, text)
  if (area.value !== text) area.value = text
  area.hidden = wasHidden
  area.setSelectionRange(Math.min(selectionStart, text.length), Math.min(selectionEnd, text.length))
  area.scrollTop = scrollTop
  if (had && had !== area) had.focus()
}

function showConflict () {
  const text = now()
  const open = text && text.theirs !== undefined && text.theirs !== text.area.value
  $('conflict').hidden = !open
  if (!open) { $('conflict').replaceChildren(); return }
  const gone = text.theirs === null
  const take = el('button', { type: 'button' }, 'Take the file’s text'), keep = el('button', { type: 'button' }, gone ? 'Save mine again' : 'Save mine over it')
  take.addEventListener('click', () => { text.saved = text.theirs; replace(text.area, text.theirs); text.theirs = undefined; show(current) })
  keep.addEventListener('click', () => attempt(() => save(true)))
  $('conflict').replaceChildren(el('span', {}, gone ? 'This component was deleted elsewhere, and here it has changes that are not saved.' : 'The file was changed elsewhere, too. Nothing is saved yet.'), ...(gone ? [] : [take]), keep)
}

async function drop () {
  const name = current
  if (!await confirmed(`Delete ${name}?`, `Its text is taken out of ${now().file}. Stored proofs stay until the project is purged.`, 'Delete')) return
  await post('drop', { name })
  const text = texts.get(name)
  if (text) { text.area.remove(); texts.delete(name) }
  show(null)
}

async function makeNew () {
  const dialog = $('new-dialog')
  $('new-name').value = ''
  dialog.returnValue = 'cancel'
  dialog.showModal()
  await new Promise(resolve => dialog.addEventListener('close', resolve, { once: true }))
  const name = $('new-name').value.trim()
  if (dialog.returnValue !== 'ok' || !name) return
  const kind = dialog.querySelector('[name=kind]:checked').value
  if (state.components.some(c => c.name === name)) { onSay([`there is a component ${name} already`], true); return }
  const body = kind === 'machine' ? `machine ${name}\nvariables\ninvariants\nevents\n  event INITIALISATION\n  then\n  end\nend\n` : `context ${name}\nsets\nconstants\naxioms\nend\n`
  await post('save', { name, text: body, was: '' })
  await openText(name, 2, 1)
}

// ---- Keys

let leaving = false

function keydown (event) {
  const area = event.target
  if (event.key === 'Escape') { leaving = true; if (!$('find').hidden) find.shut(); return }
  if (event.key === 'Tab' && !leaving && !event.shiftKey && !event.ctrlKey && !event.altKey) {
    event.preventDefault()
    insert(area, area.selectionStart, area.selectionEnd, '  ')
    repaint()
    showDirty()
  }
  if (event.key === 'Enter' && !event.ctrlKey && !event.shiftKey && !event.isComposing && area.selectionStart === area.selectionEnd) indent(event, area)
  if (event.key !== 'Tab') leaving = false
}

// A new line begins where the one above did. A sign that was just typed is finished by the line's end, as by a blank.
function indent (event, area) {
  const caret = area.selectionStart
  const line = area.value.slice(area.value.lastIndexOf('\n', caret - 1) + 1, caret)
  const blanks = /^[ \t]*/.exec(line)[0]
  if (!blanks) return
  event.preventDefault()
  document.execCommand('insertLineBreak')
  document.execCommand('insertText', false, blanks)
}

// Runs what may be refused, and says why.
export async function attempt (f) {
  try { await f() } catch (fault) { onSay([fault.message], true) }
}

function makeSigns () {
  const seen = new Map()
  for (const [keys, sign] of Object.entries(state.signs)) if (!seen.has(sign)) seen.set(sign, keys)
  $('signs').replaceChildren(...[...seen].map(([sign, keys]) => {
    const made = el('button', { type: 'button', title: `typed  ${keys}`, 'aria-label': `${sign}, typed ${keys}` }, sign)
    made.addEventListener('click', () => {
      const text = now()
      if (text) { insert(text.area, text.area.selectionStart, text.area.selectionEnd, sign); repaint(); showDirty() }
    })
    return made
  }))
}

export function begin (doors) {
  onOpen = doors.opened
  onDirty = doors.dirty
  onSay = doors.say
  find.begin({ area: () => now() && now().area, changed: () => { repaint(); showDirty() } })
  hear('texts', () => attempt(heard))
  hear('whole', () => { sheet.keepWords(state.words); makeSigns(); repaint() })
  $('save').addEventListener('click', () => attempt(() => save()))
  $('drop').addEventListener('click', () => attempt(drop))
  $('new').addEventListener('click', () => attempt(makeNew))
  $('find-open').addEventListener('click', () => find.open())
  $('fault').addEventListener('click', () => { const f = state.faults.get(current); if (f) goTo(f.line || 1, f.column) })
  $('signs-open').addEventListener('click', () => {
    $('signs').hidden = !$('signs').hidden
    $('signs-open').setAttribute('aria-expanded', String(!$('signs').hidden))
  })
  addEventListener('beforeunload', event => { if (unsavedNames().length) event.preventDefault() })
  show(null)
}
