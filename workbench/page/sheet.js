'use strict'
// The copy of a text that stands behind the one which is typed: colours, the fault's place, what was found; and the numbers of the lines.
// Only lines that changed are made anew.

import { $, el } from './dom.js'

const TOKEN = /\/\/.*|\/\*.*?(?:\*\/|$)|@[\w.'-]+|[A-Za-z_]\w*'?/g
let words = new Set()
let shown = [] // of each line its key: the text with its marks, and whether it begins within a remark
let numbered = 0, badLine = 0

export const keepWords = list => { words = new Set(list) }

// `marks` are {start, end, kind}, by offset in the whole text, in order.
export function paint (text, marks) {
  const lines = text.split('\n'), keys = [], given = []
  let at = 0, inRemark = false, m = 0
  for (const line of lines) {
    const end = at + line.length
    while (m < marks.length && marks[m].end < at) m++
    const mine = []
    for (let k = m; k < marks.length && marks[k].start <= end; k++) {
      const mark = marks[k]
      if (mark.end >= at && mark.start <= end) mine.push([Math.max(0, mark.start - at), Math.min(line.length, mark.end - at), mark.kind])
    }
    keys.push(`${inRemark}${mine.length ? JSON.stringify(mine) : ''}|${line}`)
    given.push([line, mine, inRemark])
    inRemark = remarkGoesOn(line, inRemark)
    at = end + 1
  }
  let head = 0
  while (head < keys.length && head < shown.length && keys[head] === shown[head]) head++
  let tail = 0
  while (tail < keys.length - head && tail < shown.length - head && keys[keys.length - 1 - tail] === shown[shown.length - 1 - tail]) tail++
  const box = $('behind')
  for (let k = shown.length - tail - 1; k >= head; k--) box.children[k].remove()
  const before = box.children[head] || null
  for (let k = head; k < keys.length - tail; k++) box.insertBefore(lineOf(...given[k]), before)
  shown = keys
  number(lines.length)
}

function remarkGoesOn (line, inside) {
  let at = 0
  while (true) {
    if (inside) {
      at = line.indexOf('*/', at)
      if (at < 0) return true
      at += 2
      inside = false
    } else {
      const rest = line.slice(at), open = rest.indexOf('/*'), short = rest.indexOf('//')
      if (open < 0 || short >= 0 && short < open) return false
      at += open + 2
      inside = true
    }
  }
}

function lineOf (line, marks, inRemark) {
  const pieces = [] // [start, end, class]
  let from = 0
  if (inRemark) {
    const end = line.indexOf('*/')
    from = end < 0 ? line.length : end + 2
    pieces.push([0, from, 'c'])
  }
  TOKEN.lastIndex = from
  for (let m; (m = TOKEN.exec(line)) !== null;) {
    const kind = m[0].startsWith('//') || m[0].startsWith('/*') ? 'c' : m[0].startsWith('@') ? 'l' : words.has(m[0]) ? 'k' : ''
    if (kind) pieces.push([m.index, m.index + m[0].length, kind])
  }
  const made = el('div')
  const cuts = [...new Set([0, line.length, ...pieces.flatMap(p => [p[0], p[1]]), ...marks.flatMap(p => [p[0], p[1]])])].sort((a, b) => a - b)
  let p = 0
  for (let k = 0; k + 1 < cuts.length; k++) {
    const [start, end] = [cuts[k], cuts[k + 1]]
    while (p < pieces.length && pieces[p][1] <= start) p++
    const kinds = marks.filter(m => m[0] <= start && end <= m[1]).map(m => m[2])
    if (p < pieces.length && pieces[p][0] <= start) kinds.push(pieces[p][2])
    made.append(kinds.length ? el('span', { class: kinds.join(' ') }, line.slice(start, end)) : line.slice(start, end))
  }
  const atEnd = marks.find(m => m[0] >= line.length)
  if (atEnd) made.append(el('span', { class: atEnd[2] }, ' '))
  if (!made.hasChildNodes()) made.append('\u200b')
  return made
}

function number (count) {
  const box = $('lines')
  while (numbered < count) { numbered++; box.append(el('div', {}, String(numbered))) }
  while (numbered > count) { numbered--; box.lastChild.remove() }
}

// Marks the number of a faulted line; 0 marks none.
export function markLine (line) {
  const box = $('lines')
  if (box.children[badLine - 1]) box.children[badLine - 1].className = ''
  badLine = line
  if (box.children[line - 1]) box.children[line - 1].className = 'bad'
}

export function scrollWith (area) {
  $('behind').scrollTop = $('lines').scrollTop = area.scrollTop
  $('behind').scrollLeft = area.scrollLeft
}

// Columns are told in characters; a text of the page counts UTF-16 units.
export function offset (text, line, column) {
  let at = 0
  for (let k = 1; k < line; k++) {
    const end = text.indexOf('\n', at)
    if (end < 0) return text.length
    at = end + 1
  }
  for (const c of text.slice(at)) {
    if (--column < 1 || c === '\n') break
    at += c.length
  }
  return at
}

export function place (text, at) {
  const before = text.slice(0, at), start = before.lastIndexOf('\n') + 1
  return { line: before.split('\n').length, column: [...before.slice(start)].length + 1 }
}
