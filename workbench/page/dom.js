'use strict'
// Helpers over the document. What comes from a model goes in as text alone: no string is ever read as markup.

export const $ = id => document.getElementById(id)

// An element with properties (`class`, `data`, `aria` and plain attributes) and what stands in it.
export function el (tag, given = {}, ...kids) {
  const made = document.createElement(tag)
  set(made, given)
  made.append(...kids)
  return made
}

export function set (element, given) {
  for (const [name, value] of Object.entries(given)) {
    if (name === 'class') element.className = value
    else if (value === null || value === false) element.removeAttribute(name)
    else element.setAttribute(name, value === true ? '' : value)
  }
}

// Says something to a screen reader that isn't shown anywhere else.
export function speak (words) {
  $('said').textContent = ''
  requestAnimationFrame(() => { $('said').textContent = words })
}

// Calls `f` once for many wishes within a frame. A page that isn't looked at has no frames, so a clock stands behind it.
export function oncePerFrame (f) {
  let due = false
  return () => {
    if (due) return
    due = true
    let done = false
    const run = () => { if (!done) { done = true; due = false; f() } }
    requestAnimationFrame(run)
    setTimeout(run, 200)
  }
}

// Asks yes or no in a dialog of the page.
export function confirmed (title, more, yes) {
  const dialog = $('ask-dialog')
  $('ask-title').textContent = title
  $('ask-more').textContent = more
  $('ask-yes').textContent = yes
  dialog.returnValue = 'cancel'
  dialog.showModal()
  return new Promise(resolve => dialog.addEventListener('close', () => resolve(dialog.returnValue === 'ok'), { once: true }))
}

export const isTyping = target => target.matches('textarea, select, input:not([type=checkbox]):not([type=radio])')
