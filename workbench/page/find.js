'use strict'
// Find and replace in the open text. What is typed is looked for as it stands and with its signs: `<=` finds ≤, too.

import { $ } from './dom.js'
import { insert, spelled, finished } from './spelling.js'

let doors = { area: () => null, changed: () => {} }
let at = -1
let repaint = () => {}
export const whenChanged = f => { repaint = f }

const WORD = /[A-Za-z_]\w*|[^\w\s(),[\]@]+/g

function ranges (text) {
  const typed = $('find').hidden ? '' : $('find-text').value
  if (!typed) return []
  const found = []
  for (const wanted of new Set([typed, typed.replace(WORD, spelled)].map(t => t.toLowerCase()))) {
    const low = text.toLowerCase()
    for (let k = low.indexOf(wanted); k >= 0; k = low.indexOf(wanted, k + wanted.length)) found.push([k, k + wanted.length])
  }
  return found.sort((a, b) => a[0] - b[0])
}

export const hits = text => ranges(text).map(([start, end], n) => ({ start, end, kind: n === at ? 'hit now' : 'hit' }))

function count () {
  const found = ranges(doors.area() ? doors.area().value : '')
  $('find-count').textContent = !$('find-text').value ? '' : found.length ? `${at >= 0 && at < found.length ? at + 1 : '–'} of ${found.length}` : 'not found'
  return found
}

function go (step) {
  const area = doors.area(), found = count()
  if (!area || !found.length) return repaint()
  const caret = step > 0 ? area.selectionEnd : area.selectionStart
  at = step > 0 ? found.findIndex(r => r[0] >= caret) : found.findLastIndex(r => r[1] <= caret)
  if (at < 0) at = step > 0 ? 0 : found.length - 1
  area.setSelectionRange(...found[at])
  const height = parseFloat(getComputedStyle(area).lineHeight)
  const top = (area.value.slice(0, found[at][0]).split('\n').length - 1) * height
  if (top < area.scrollTop || top > area.scrollTop + area.clientHeight - 3 * height) area.scrollTop = Math.max(0, top - area.clientHeight / 3)
  count()
  repaint()
}

export function open () {
  const area = doors.area()
  if (!area) return
  const marked = area.value.slice(area.selectionStart, area.selectionEnd)
  if (marked && !marked.includes('\n')) $('find-text').value = marked
  $('find').hidden = false
  $('find-text').focus()
  $('find-text').select()
  at = -1
  count()
  repaint()
}

export function shut () {
  $('find').hidden = true
  at = -1
  repaint()
  if (doors.area()) doors.area().focus()
}

function replaceOne () {
  const area = doors.area(), found = count()
  if (!area) return
  const here = found.find(r => r[0] === area.selectionStart && r[1] === area.selectionEnd)
  if (here) {
    insert(area, ...here, finished($('find-new').value))
    doors.changed()
  }
  go(1)
}

// All at once: one step of undo.
function replaceAll () {
  const area = doors.area(), found = count()
  if (!area || !found.length) return
  let made = '', from = 0
  for (const [start, end] of found) {
    if (start < from) continue
    made += area.value.slice(from, start) + finished($('find-new').value)
    from = end
  }
  insert(area, 0, area.value.length, made + area.value.slice(from))
  at = -1
  doors.changed()
  count()
  $('find-count').textContent = `${found.length} replaced`
}

export function begin (given) {
  doors = given
  $('find').addEventListener('submit', event => { event.preventDefault(); go(1) })
  $('find-text').addEventListener('input', () => { at = -1; count(); repaint() })
  $('find').addEventListener('keydown', event => {
    if (event.key === 'Escape') { event.preventDefault(); shut() }
    if (event.key === 'Enter' && event.shiftKey) { event.preventDefault(); go(-1) }
  })
  $('find-back').addEventListener('click', () => go(-1))
  $('find-one').addEventListener('click', replaceOne)
  $('find-all').addEventListener('click', replaceAll)
  $('find-shut').addEventListener('click', shut)
}
