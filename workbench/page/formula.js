'use strict'
// Formulas as nested parts: the innermost one under the pointer is meant, and keys go from part to part.

import { el, speak } from './dom.js'

// `spans` is [start, end, place, operator, parts] by characters, or null where the text can't be pointed into.
export function formula (given, n) {
  if (!given.spans) return [given.text]
  const units = [...given.text]
  const build = ([start, end, place, , parts]) => {
    const made = el('span', { class: 'part' })
    made.meant = { n, place, text: units.slice(start, end).join('') }
    let at = start
    for (const part of parts) {
      if (part[0] > at) made.append(units.slice(at, part[0]).join(''))
      made.append(build(part))
      at = part[1]
    }
    made.append(units.slice(at, end).join(''))
    return made
  }
  return [units.slice(0, given.spans[0]).join(''), build(given.spans), units.slice(given.spans[1]).join('')]
}

export function mark (part) {
  for (const other of document.querySelectorAll('.part.at')) other.classList.remove('at')
  if (part) part.classList.add('at')
}

const parts = element => [...element.children].filter(e => e.classList.contains('part'))

// The part that an arrow leads to within a row; null leads out of the formula.
export function step (row, key) {
  const at = row.querySelector('.part.at')
  const whole = row.querySelector('.part')
  if (!at) return key === 'ArrowRight' ? whole : undefined
  const outer = at.parentElement.classList.contains('part') ? at.parentElement : null
  const beside = outer ? parts(outer) : [whole]
  const k = beside.indexOf(at)
  const found = {
    ArrowRight: () => parts(at)[0] || at,
    ArrowLeft: () => outer,
    ArrowDown: () => beside[k + 1] || (outer ? at : undefined),
    ArrowUp: () => beside[k - 1] || (outer ? at : undefined)
  }[key]()
  if (found) speak(`part ${found.meant.text}`)
  else if (found === null) speak('whole formula')
  return found
}
