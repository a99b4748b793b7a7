'use strict'
// Ties the parts together: what the server tells goes to the state, and each part hears what concerns it.

import { $ } from './dom.js'
import { post, listen, banner } from './server.js'
import * as state from './state.js'
import * as editor from './editor.js'
import * as find from './find.js'
import * as obligations from './obligations.js'
import * as offers from './offers.js'
import * as panes from './panes.js'
import * as proof from './proof.js'
import * as log from './log.js'
import * as files from './files.js'
import * as warnings from './warnings.js'

const openText = (name, line, column) => editor.attempt(() => editor.openText(name, line, column))
const openProof = name => editor.attempt(() => proof.openProof(name))

obligations.begin({ text: openText, proof: openProof })
obligations.tellUnsaved(editor.isUnsaved)
editor.begin({
  opened: name => { panes.bring('text'); obligations.choose({ name }) },
  dirty: name => { if (name) obligations.repaint(name) },
  say: proof.say
})
proof.begin({ opened: po => { panes.bring('proof'); obligations.choose({ po }) }, origin: po => editor.attempt(() => editor.openOrigin(po)) })
panes.begin({ save: () => editor.attempt(() => editor.save()), find: find.open, fault: () => editor.attempt(editor.nextFault), next: obligations.nextOpen })
log.begin()
warnings.begin(openText)
files.begin()

state.hear('activity', () => {
  const { activity, workers, ended, built } = state.state
  $('activity').textContent = ended !== null ? 'stopped' : activity === 'idle' ? 'idle' : workers ? 'proving …' : 'at work …'
  $('activity').title = built
  banner('session', ended === null ? null : `The session ended: ${ended}. Nothing that was answered is lost; texts can be edited meanwhile.`, {
    name: 'Begin it again', press: () => editor.attempt(() => post('again'))
  })
})
state.hear('whole', () => {
  $('project').textContent = state.state.folder
  offers.kinds()
  if (!editor.currentName()) begin()
})
state.hear('texts', () => banner('trouble', null))

// At the start the first component with a fault is opened, or the first one; the view of the models stays in front of a narrow window.
let begun = false
async function begin () {
  const { components, faults } = state.state
  if (begun || !components.length) return
  begun = true
  await openText((components.find(c => faults.has(c.name)) || components[0]).name)
  panes.bring('models')
}

listen({
  state: state.whole, texts: state.texts, built: state.built, statuses: state.statuses, tried: state.tried, idle: state.idle, ended: state.ended, log: log.logged, saved: editor.saved,
  silent: ({ seconds, at }) => banner('silent', seconds ? `The session has not answered for ${seconds} s (${at}). It goes on when it is let; what is typed is kept.` : null),
  trouble: words => banner('trouble', `${words}. It is tried again.`),
  bye: () => banner('connection', 'rodin-web has ended. Start it again and open its new address.')
})
