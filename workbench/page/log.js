'use strict'
// The lines sent to the session and its answers, as they were.

import { $, el } from './dom.js'
import { post } from './server.js'
import { say } from './proof.js'

const MOST = 400
const FIRST = 6
let last = 0, scrolling = false

export function logged (entry) {
  if (entry.n <= last) return
  last = entry.n
  if (entry.quiet && !$('log-all').checked) return
  const row = el('li')
  fill(row, entry, false)
  $('entries').append(row)
  while ($('entries').childElementCount > MOST) $('entries').firstChild.remove()
  if (scrolling) return
  scrolling = true
  requestAnimationFrame(() => {
    scrolling = false
    if ($('entries').offsetParent && !$('entries').matches(':hover, :focus-within')) $('entries').scrollTop = $('entries').scrollHeight
  })
}

function fill (row, entry, whole) {
  const cut = !whole && (entry.cut || entry.sent.length > 200 || entry.reply.length > FIRST)
  const lines = whole ? entry.reply : entry.reply.slice(0, FIRST)
  row.replaceChildren(
    el('time', {}, `${entry.at} ${entry.seconds} s `),
    el('span', { class: 'sent' }, whole ? entry.sent : entry.sent.slice(0, 200)),
    ...lines.map(line => el('div', { class: line.startsWith('refused') || line.startsWith('fault') ? 'no' : '' }, line)))
  if (!cut) return
  const more = el('button', { type: 'button', class: 'more' }, `… all ${entry.cut || entry.reply.length} lines`)
  more.addEventListener('click', async () => {
    try {
      fill(row, entry.cut ? await post('entry', { n: entry.n }) : entry, true)
    } catch (fault) { say([fault.message], true) }
  })
  row.append(more)
}

export function begin () {
  $('raw').addEventListener('submit', async event => {
    event.preventDefault()
    const line = $('raw-line').value
    if (!line.trim()) return
    try {
      await post('raw', { line })
      $('raw-line').value = ''
    } catch (fault) { say([fault.message], true) }
  })
}
