'use strict'
// What the program warns of, and what the workbench does: no faults, and no status changes by them.

import { $, el } from './dom.js'
import { state, hear } from './state.js'

export function begin (openText) {
  const box = $('warnings')
  hear('texts', () => {
    const all = [...state.warnings.map(([component, text]) => ({ component, text, own: false })), ...state.notes.map(note => ({ ...note, own: true }))]
    box.hidden = all.length === 0
    box.querySelector('summary').textContent = `${all.length} warning${all.length === 1 ? '' : 's'}`
    box.querySelector('ul').replaceChildren(...all.map(({ component, line, column, text, own }) => {
      const to = el('button', { type: 'button', class: 'link', title: own ? 'a warning of the workbench' : 'a warning of the program' }, `${component}${line ? ` ${line}:${column}` : ''}: ${text}`)
      to.addEventListener('click', () => openText(component, line || 1, column || 1))
      return el('li', {}, to)
    }))
  })
}
