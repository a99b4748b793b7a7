'use strict'
// What goes to the server and comes from it. Each door takes JSON and gives JSON; the events come as one stream.

import { $, el } from './dom.js'

export class Refusal extends Error {}

export async function post (door, given = {}) {
  let answer, out
  try {
    answer = await fetch(door, { method: 'POST', headers: { 'Content-Type': 'application/json' }, body: JSON.stringify(given) })
    out = await answer.json()
  } catch (fault) {
    throw new Refusal('the server of this page does not answer')
  }
  if (out.error !== undefined) throw new Refusal(out.error)
  return out
}

// Calls the handler of each event. After a lost connection the browser tries again, and the stream begins anew with the whole state.
export function listen (handlers) {
  const events = new EventSource('events')
  for (const [name, handle] of Object.entries(handlers)) events.addEventListener(name, e => handle(JSON.parse(e.data)))
  events.onopen = () => banner('connection', null)
  events.onerror = () => banner('connection', 'No connection to rodin-web. What is shown is what it said last; texts can be edited, and saved when it is back.')
}

// A line over the whole page for what the user has to know: at most one for each subject.
const told = new Map()
export function banner (subject, words, button) {
  if (words === null) told.delete(subject)
  else told.set(subject, { words, button })
  const shown = [...told.values()]
  $('banner').hidden = shown.length === 0
  $('banner').replaceChildren(...shown.flatMap(({ words, button }) => {
    const parts = [el('span', {}, words)]
    if (button) {
      const made = el('button', { type: 'button' }, button.name)
      made.addEventListener('click', button.press)
      parts.push(made)
    }
    return parts
  }))
}
