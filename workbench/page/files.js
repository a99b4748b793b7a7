'use strict'
// Projects brought in from files, and texts and proofs taken out.

import { $, el, confirmed } from './dom.js'
import { post } from './server.js'
import { attempt } from './editor.js'
import { say } from './proof.js'

const LARGEST = 20 * 1024 * 1024

const read = file => new Promise((resolve, reject) => {
  const reader = new FileReader()
  reader.onload = () => resolve(reader.result.slice(reader.result.indexOf(',') + 1))
  reader.onerror = () => reject(new Error(`${file.name} could not be read`))
  reader.readAsDataURL(file)
})

async function bring () {
  const files = [...$('import-file').files]
  $('import-file').value = ''
  if (!files.length) return
  const large = files.find(f => f.size > LARGEST)
  if (large) throw new Error(`${large.name} has more than 20 MB`)
  const given = { files: await Promise.all(files.map(async f => ({ name: f.name, data: f.size ? await read(f) : '' }))) }
  let out = await post('bring', given)
  if (out.there.length) {
    if (!await confirmed('Replace what is there?', out.there.join('\n'), 'Replace')) return
    out = await post('bring', { ...given, over: true })
  }
  say([`${out.brought.length} components: ${out.brought.join(', ')}`, ...out.notes])
  if (out.notes.length) confirmed('What was changed on the way', out.notes.join('\n'), 'Good')
}

function download (name, data) {
  const bytes = Uint8Array.from(atob(data), c => c.charCodeAt(0))
  const link = el('a', { href: URL.createObjectURL(new Blob([bytes], { type: 'application/zip' })), download: name })
  link.click()
  setTimeout(() => URL.revokeObjectURL(link.href), 10000)
}

async function take () {
  const out = await post('export')
  download(out.name, out.data)
  say([`${out.name}: ${out.texts} texts and ${out.proofs} lines of proofs`])
}

export function begin () {
  $('import').addEventListener('click', () => $('import-file').click())
  $('import-file').addEventListener('change', () => attempt(bring))
  $('export').addEventListener('click', () => attempt(take))
}
