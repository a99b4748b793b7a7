'use strict'
// Signs typed in ASCII become Unicode as soon as no longer spelling can follow. The browser's own undo takes it back.

import { state } from './state.js'

let busy = false

// Behind a character that was typed: replaces what stands before it.
export function typed (field, event) {
  if (busy || !['insertText', 'insertLineBreak'].includes(event.inputType) || event.isComposing) return
  const caret = field.selectionStart
  if (field.selectionEnd !== caret || caret === 0) return
  const line = field.value.slice(field.value.lastIndexOf('\n', caret - 2) + 1, caret)
  if (inRemarkOrLabel(line.slice(0, -1))) return
  const last = line.slice(-1)
  const from = spellingBefore(line.slice(0, -1), last)
  if (from === null) return
  const made = spelled(from)
  if (made !== from) insert(field, caret - 1 - from.length, caret, made + last)
}

// The last sign of a field, which nothing follows any more.
export const finished = text => {
  const run = /[A-Za-z_]\w*$|[^\w\s(),[\]@]+$/.exec(text)
  return run && !inRemarkOrLabel(text.slice(0, run.index)) ? text.slice(0, run.index) + spelled(run[0]) : text
}

// Puts text in the place of a range, as if it had been typed.
export function insert (field, from, to, text) {
  busy = true
  field.focus()
  field.setSelectionRange(from, to)
  if (text === '' ? from !== to : true) document.execCommand(text === '' ? 'delete' : 'insertText', false, text)
  busy = false
}

const inRemarkOrLabel = before => /\/\/|@[\w.'-]*$/.test(before) || before.lastIndexOf('/*') > before.lastIndexOf('*/')

function spellingBefore (before, last) {
  const word = /[A-Za-z_]\w*$/.exec(before)
  if (word) return /\w/.test(last) ? null : word[0]
  if (/[\w\s@]/.test(before.slice(-1) || ' ')) return null
  const run = /[^\w\s(),[\]@]+$/.exec(before)
  return run && !canGoOn(run[0], last) ? run[0] : null
}

const allSpellings = () => Object.keys(state.signs).concat(state.kept)

function canGoOn (run, last) {
  const all = allSpellings()
  for (let k = 0; k < run.length; k++) if (all.some(s => s.startsWith(run.slice(k) + last))) return true
  return run.endsWith('/') && (last === '/' || last === '*')
}

// The longest spelling at each place, as the program reads them. Own properties alone: `constructor` is no spelling.
export function spelled (run) {
  const sign = s => Object.hasOwn(state.signs, s) ? state.signs[s] : s
  if (/^\w/.test(run)) return sign(run)
  const all = allSpellings().filter(s => !/^\w/.test(s)).sort((a, b) => b.length - a.length)
  let made = ''
  for (let k = 0; k < run.length;) {
    const found = all.find(s => run.startsWith(s, k)) || run[k]
    made += sign(found)
    k += found.length
  }
  return made
}
