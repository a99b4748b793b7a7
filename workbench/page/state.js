'use strict'
// What the session said last, as the server tells it. Names are keys of maps, since `constructor` is a name like any other.

export const STATUSES = ['unattempted', 'pending', 'broken', 'reviewed', 'discharged']
export const MARKS = { unattempted: '○', pending: '◔', broken: '✗', reviewed: '◑', discharged: '✓' }

export const state = {
  folder: '', components: [], faults: new Map(), warnings: [], notes: [], statuses: new Map(), order: [], tried: new Set(), workers: 0,
  built: '', activity: '', ended: null, signs: {}, kept: [], rules: {}, words: []
}

const listeners = new Map()

// `hear('statuses', f)`: f is called whenever that part has changed.
export function hear (part, f) {
  if (!listeners.has(part)) listeners.set(part, [])
  listeners.get(part).push(f)
}

export function tell (part, ...details) {
  for (const f of listeners.get(part) || []) f(...details)
}

export const componentOf = name => name.slice(0, name.indexOf('/'))
export const statusOf = name => state.statuses.get(name) || ['gone', '']
export const isOpen = name => !['discharged', 'reviewed', 'gone'].includes(statusOf(name)[0])

export function counts () {
  const found = Object.fromEntries(STATUSES.map(s => [s, 0]))
  for (const [status] of state.statuses.values()) found[status]++
  return found
}

// What the server tells, event by event.

export function whole (d) {
  Object.assign(state, {
    folder: d.folder, workers: d.workers, signs: d.signs, kept: d.kept, rules: d.rules, words: d.words, built: d.built, ended: d.ended,
    statuses: new Map(Object.entries(d.statuses)), order: d.order, tried: new Set(d.tried), activity: d.idle ? 'idle' : 'proving'
  })
  texts(d)
  tell('whole')
  tell('statuses', null)
  tell('activity')
}

export function texts (d) {
  state.components = d.components
  state.faults = new Map(Object.entries(d.faults))
  state.warnings = d.warnings
  state.notes = d.notes
  tell('texts')
}

export function built (line) {
  Object.assign(state, { built: line, activity: 'proving', ended: null })
  state.tried.clear()
  tell('activity')
}

export function statuses (d) {
  const whole = d.order !== null || d.gone.length > 0
  if (d.order) state.order = d.order
  for (const name of d.gone) { state.statuses.delete(name); state.tried.delete(name) }
  for (const [name, value] of Object.entries(d.changed)) state.statuses.set(name, value)
  tell('statuses', whole ? null : Object.keys(d.changed))
}

export function tried (name) {
  state.tried.add(name)
  tell('statuses', [name])
}

export function idle () {
  state.activity = 'idle'
  tell('activity')
}

export function ended (line) {
  state.ended = line
  tell('activity')
}
