"""The script of the page that report makes. Each line of a sort key, a count or a filter is of the columns of `data`."""
SCRIPT = r"""
"use strict"
const data = JSON.parse(document.getElementById("data").textContent)
const [MARK, MSG, CLASS, PRIORITY, TEXT, WHERE] = [0, 1, 2, 3, 4, 5]
const MOST_SHOWN = 300000  // a browser's page has a greatest height
const FIRST_ROWS = 5, MOST_ROWS = 200  // of a count: how many are there, and how many more may be opened
const at = id => document.getElementById(id)
const count = data.time.length, every = Array.from({length: count}, (_, n) => n)
let found = every, active = -1, clocks = null, sorted = ""  // by a column, with - in front where it goes down

const iso = ms => new Date(ms).toISOString().slice(0, -1)
const micros = n => String(data.time[n] % 1000).padStart(3, "0")
const clock = n => iso(data.first + Math.floor(data.time[n] / 1000)).replace("T", " ") + micros(n)
const end = (n, side, port) => data.addresses[data[side][n]] + (data[port][n] < 0 ? "" : ":" + data[port][n])
const cells = n => {
  const rule = data.rules[data.rule[n]]
  return {time: clock(n), rule: "[" + rule[MARK] + "]", msg: rule[MSG], class: rule[CLASS], priority: rule[PRIORITY],
          protocol: data.protocols[data.protocol[n]], from: end(n, "from", "sport"), to: end(n, "to", "dport")}
}

// --- Addresses and networks: how many bits they have, the bits that they fix, and how many they leave open

function address(text) {
  const number = (parts, base) => parts.reduce((sum, it) => sum * base + BigInt(it), 0n)
  if (/^\d{1,3}(\.\d{1,3}){3}$/.test(text)) {
    const parts = text.split(".").map(Number)
    return parts.every(it => it < 256) ? {size: 32, value: number(parts, 256n)} : null
  }
  const [head, tail, ...more] = text.split("::").map(it => it ? it.split(":") : [])
  const lack = tail ? 8 - head.length - tail.length : 0
  if (!text.includes(":") || more.length || lack < (tail ? 1 : 0)) return null
  const groups = [...head, ...Array(lack).fill("0"), ...(tail || [])]
  if (groups.length !== 8 || !groups.every(it => /^[0-9a-f]{1,4}$/.test(it))) return null
  return {size: 128, value: number(groups.map(it => "0x" + it), 65536n)}
}
function network(text) {
  const [base, length, ...more] = text.split("/"), it = address(base)
  if (!it || more.length || length !== undefined && !(/^\d{1,3}$/.test(length) && Number(length) <= it.size)) return null
  const open = BigInt(it.size - Number(length ?? it.size))
  return {size: it.size, open, value: it.value >> open}
}
const isIn = (it, net) => it.size === net.size && it.value >> net.open === net.value
const values = data.addresses.map(address)

// --- The filter: words with blanks between. A word may name a field, and - in front turns it round. Words of one field are
// alternatives, but those of a moment; of all others each must hold.

const WORD = /(?:"[^"]*(?:"|$)|[^\s"])+/g
const plain = text => String(text).replaceAll('"', "").toLowerCase()
const words = text => text.match(WORD) || []
const by = (column, list, holds) => { const hits = list.map(holds); return n => hits[data[column][n]] }
const fields = {
  rule: value => by("rule", data.rules, it => {
    const parts = it[MARK].split(":"), asked = value.split(":")
    return asked.length === 1 ? parts[1] === value : asked.every((part, place) => parts[place] === part)
  }),
  class: value => by("rule", data.rules, it => plain(it[CLASS]) === value),
  priority: value => by("rule", data.rules, it => String(it[PRIORITY]) === value),
  protocol: value => by("protocol", data.protocols, it => plain(it) === value || plain(it).split(" ")[0] === value),
  from: value => atEnd("from", value),
  to: value => atEnd("to", value),
  host: value => { const [from, to] = [fields.from(value), fields.to(value)]; return n => from(n) || to(n) },
  pair: value => {
    const [from, to, ...more] = value.split(">")
    if (to === undefined || more.length) throw "two addresses with > between them"
    const tests = [fields.from(from), fields.to(to)]
    return n => tests.every(test => test(n))
  },
  sport: value => { const port = number(value); return n => data.sport[n] === port },
  dport: value => { const port = number(value); return n => data.dport[n] === port },
  port: value => { const port = number(value); return n => data.sport[n] === port || data.dport[n] === port },
  after: value => { const from = moment(value); return n => data.time[n] >= from },
  before: value => { const to = moment(value); return n => data.time[n] < to },
}
const NAMES = Object.keys(fields), EACH = ["after", "before"]
function atEnd(column, value) {
  const net = network(value)
  if (!net) throw "an address, or a network as 10.0.0.0/8"
  return by(column, values, it => it !== null && isIn(it, net))
}
function number(value) {
  if (!/^\d{1,5}$/.test(value)) throw "a number"
  return Number(value)
}
function moment(text) {
  const ms = Date.parse(text.toUpperCase() + (text.includes("t") ? "Z" : ""))
  if (Number.isNaN(ms) || !/^\d{4}-\d\d-\d\d(t|$)/.test(text)) throw "a moment as 2026-01-31 or 2026-01-31T12:00:00"
  return 1000 * (ms - data.first)
}
// Whether a cell of the row has this text: what is there once for many rows is looked at once.
function inCell(text) {
  const has = it => it.toLowerCase().includes(text)
  const tests = [by("rule", data.rules, it => has("[" + it[MARK] + "]") || has(it[MSG]) || has(it[CLASS])),
                 by("protocol", data.protocols, has), by("from", data.addresses, has), by("to", data.addresses, has)]
  if (/^[0-9a-f:.]+$/.test(text)) {
    tests.push(n => data.sport[n] >= 0 && has(end(n, "from", "sport")), n => data.dport[n] >= 0 && has(end(n, "to", "dport")))
  }
  if (/^[0-9 :.-]+$/.test(text)) {
    clocks ||= every.map(clock)
    tests.push(n => clocks[n].includes(text))
  }
  return n => tests.some(test => test(n))
}
// What a word asks: its field, if it names one, a test, and what is to be told of it.
function asks(word) {
  const isNot = word.startsWith("-") && word.length > 1, said = isNot ? word.slice(1) : word, bare = plain(said)
  const name = bare.slice(0, bare.indexOf(":")), value = bare.slice(name.length + 1)
  const turned = test => isNot ? n => !test(n) : test
  try {
    if (Object.hasOwn(fields, name) && (value !== "" || name === "class")) {
      return {field: isNot || EACH.includes(name) ? null : name, test: turned(fields[name](value))}
    }
    if (/^[^"]+\/\d+$/.test(said) && network(bare)) return {field: null, test: turned(fields.host(bare))}
  } catch (wants) {
    return {field: null, test: () => false, told: `${name}: wants ${wants}.`}
  }
  const told = /^[a-z]+:(?!\/\/)./i.test(said) && !address(bare) && !Object.hasOwn(fields, name)
    ? `No field ${name}: looked for as text. Fields are ${NAMES.join(", ")}.` : undefined
  return {field: null, test: turned(inCell(bare)), told}
}
function filter() {
  const asked = words(at("filter").value).map(asks), groups = []
  for (const it of asked) {
    const group = it.field && groups.find(group => group.field === it.field)
    if (group) group.tests.push(it.test)
    else groups.push({field: it.field, tests: [it.test]})
  }
  // An alert that fails the words of one field alone is counted where this field is: the alternatives.
  const isLacking = ({tests}) => tests.length === 1 ? n => !tests[0](n) : n => !tests.some(test => test(n))
  const lacks = groups.map(isLacking), others = {}
  found = []
  for (const n of every) {
    let lacking = -1, count = 0
    for (let place = 0; place < lacks.length && count < 2; place++) if (lacks[place](n)) [lacking, count] = [place, count + 1]
    if (!count) found.push(n)
    else if (count === 1 && groups[lacking].field) (others[groups[lacking].field] ||= []).push(n)
  }
  inOrder()
  at("found").textContent = `${found.length.toLocaleString("en")} of ${count.toLocaleString("en")}` +
    (found.length > MOST_SHOWN ? `, the first ${MOST_SHOWN.toLocaleString("en")} in the table` : "")
  at("told").textContent = asked.map(it => it.told).filter(it => it).join(" ")
  at("clear").hidden = !asked.length
  for (const kind of KINDS) drawCounts(kind, others[kind.name] || [])
  drawBars()
  at("list").setAttribute("aria-rowcount", found.length + 1)
  at("list").scrollTop = 0
  select(found.length ? 0 : -1)
  keepAddress()
}

// --- The filter and the order are in the page's address

let waiting = null
function keepAddress() {
  clearTimeout(waiting)
  waiting = setTimeout(writeAddress, 200)
}
function writeAddress() {
  const parts = [["find", at("filter").value.trim()], ["sort", sorted]].filter(it => it[1])
  const hash = "#" + parts.map(([name, value]) => `${name}=${encodeURIComponent(value)}`).join("&")
  if (hash === (location.hash || "#")) return
  try { history.replaceState(null, "", hash) } catch { /* a browser may forbid it here, or so often */ }
}
function readAddress() {
  const asked = new URLSearchParams(location.hash.slice(1).replaceAll("+", "%2B"))
  sorted = Object.hasOwn(KEYS, (asked.get("sort") || "").replace("-", "")) ? asked.get("sort") : ""
  at("filter").value = asked.get("find") || ""
  filter()
}

// --- The order: of each column a number of each alert

function ranked(list, key) {  // the place of each value in the order of their keys, alike where these are
  const keys = list.map(key), order = keys.map((_, place) => place).sort((a, b) => compared(keys[a], keys[b])), ranks = []
  order.forEach((place, at) => { ranks[place] = at && !compared(keys[order[at - 1]], keys[place]) ? ranks[order[at - 1]] : at })
  return ranks
}
const compared = (a, b) => {
  for (let place = 0; place < a.length; place++) if (a[place] !== b[place]) return a[place] < b[place] ? -1 : 1
  return 0
}
const ofRule = key => () => { const ranks = ranked(data.rules, key); return n => ranks[data.rule[n]] }
const ofEnd = (side, port) => () => {
  const ranks = ranked(values, it => [it.size, it.value])
  return n => ranks[data[side][n]] * 65537 + data[port][n]
}
const KEYS = {
  time: () => n => data.time[n], rule: ofRule(it => it[MARK].split(":").map(Number)), msg: ofRule(it => [it[MSG].toLowerCase()]),
  class: ofRule(it => [it[CLASS].toLowerCase()]), priority: ofRule(it => [it[PRIORITY]]),
  protocol: () => { const ranks = ranked(data.protocols, it => [it]); return n => ranks[data.protocol[n]] },
  from: ofEnd("from", "sport"), to: ofEnd("to", "dport"),
}
const kept = {}
function inOrder() {
  const name = sorted.replace("-", ""), way = sorted.startsWith("-") ? -1 : 1
  for (const head of document.querySelectorAll("[data-sort]")) {
    const order = head.dataset.sort !== name ? "none" : way > 0 ? "ascending" : "descending"
    head.parentNode.setAttribute("aria-sort", order)
  }
  if (!name) return
  const key = kept[name] ||= every.map(KEYS[name]())
  found.sort((a, b) => way * (key[a] - key[b]))
}
function sortBy(name) {
  sorted = sorted === name ? "-" + name : sorted === "-" + name ? "" : name
  filter()
}

// --- Counts of what is found

const joined = (...parts) => parts.join(" → ")
const KINDS = [
  {name: "rule", of: n => data.rule[n], label: it => [["span", "mark", `[${data.rules[it][MARK]}]`], ["bdi", "", data.rules[it][MSG]]],
   word: it => "rule:" + data.rules[it][MARK]},
  {name: "from", of: n => data.from[n], label: it => [["span", "", data.addresses[it]]], word: it => "from:" + data.addresses[it]},
  {name: "to", of: n => data.to[n], label: it => [["span", "", data.addresses[it]]], word: it => "to:" + data.addresses[it]},
  {name: "dport", of: n => data.dport[n], label: it => [["span", "", it]], word: it => "dport:" + it},
  {name: "pair", of: n => data.from[n] * data.addresses.length + data.to[n],
   label: it => [["span", "", joined(...endsOf(it))]], word: it => "pair:" + endsOf(it).join(">")},
  {name: "class", of: n => data.rules[data.rule[n]][CLASS], label: it => it ? [["bdi", "", it]] : [["em", "", "no class"]],
   word: it => fieldWord("class", it)},
  {name: "priority", of: n => data.rules[data.rule[n]][PRIORITY], label: it => [["span", "", it]], word: it => "priority:" + it},
]
const endsOf = it => [Math.floor(it / data.addresses.length), it % data.addresses.length].map(place => data.addresses[place])
const plural = (count, name) => `${count.toLocaleString("en")} ${name}${count === 1 ? "" : "s"}`
function drawCounts(kind, others) {
  const section = document.querySelector(`[data-kind=${kind.name}]`), counts = new Map()
  for (const some of [found, others]) for (const n of some) {
    const value = kind.of(n)
    counts.set(value, (counts.get(value) || 0) + 1)
  }
  counts.delete(-1)
  const rows = [...counts].sort(kind.name === "priority" ? (a, b) => a[0] - b[0] : (a, b) => b[1] - a[1])
  const most = rows.reduce((sum, it) => Math.max(sum, it[1]), 1), table = list => {
    const it = made("table", "", ""), body = made("tbody", "", "")
    it.append(...[...section.querySelector("table").children].slice(0, 2).map(part => part.cloneNode(true)), body)
    body.append(...list.map(([value, count]) => countRow(kind, value, count, most)))
    return it
  }
  const parts = [section.querySelector("h2"), table(rows.slice(0, FIRST_ROWS))]
  const more = rows.slice(FIRST_ROWS, MOST_ROWS), left = rows.slice(MOST_ROWS)
  if (more.length) {
    const it = made("details", "", "")
    it.open = section.querySelector("details")?.open || false
    it.append(made("summary", "", `${more.length.toLocaleString("en")} more`), table(more))
    parts.push(it)
  }
  if (left.length) {
    const sum = left.reduce((sum, it) => sum + it[1], 0)
    parts.push(made("p", "note", `${left.length.toLocaleString("en")} others have ${plural(sum, "alert")}.`))
  }
  section.replaceChildren(...parts)
}
function countRow(kind, value, count, most) {
  const row = made("tr", "", ""), bar = made("td", "bar", ""), fill = made("i", "", ""), head = made("th", "", "")
  const button = made("button", "", ""), word = kind.word(value)
  fill.style.width = (100 * count / most).toFixed(1) + "%"
  bar.append(fill)
  button.append(...kind.label(value).flatMap((it, place) => place ? [" ", made(...it)] : [made(...it)]))
  button.dataset.word = word
  button.setAttribute("aria-pressed", hasWords(word))
  button.onclick = () => {
    toggle(word)
    document.querySelector(`[data-kind=${kind.name}] [data-word="${CSS.escape(word)}"]`)?.focus()
  }
  head.scope = "row"
  head.append(button)
  row.append(made("td", "n", count.toLocaleString("en")), bar, head)
  return row
}
const hasWords = asked => words(asked).every(it => words(at("filter").value).includes(it))
function setFilter(list) { at("filter").value = list.join(" "); filter() }
function toggle(asked) {
  const others = words(at("filter").value).filter(it => !words(asked).includes(it))
  setFilter(hasWords(asked) ? others : [...others, ...words(asked)])
}
const fieldWord = (name, value) => {
  const bare = value.replaceAll('"', "")
  return /^$|\s/.test(bare) ? `${name}:"${bare}"` : `${name}:${bare}`
}

// --- The table: of its rows those alone are there that one sees

const height = () => parseInt(getComputedStyle(document.documentElement).getPropertyValue("--row"))
function made(name, kind, text) {
  const it = document.createElement(name)
  it.className = kind
  it.textContent = text
  return it
}
function draw() {
  const list = at("list"), row = height(), most = Math.min(found.length, MOST_SHOWN)
  const first = Math.max(0, Math.floor(list.scrollTop / row) - 4)
  const last = Math.min(most, first + Math.ceil(list.clientHeight / row) + 8), rows = []
  for (let place = first; place < last; place++) {
    const it = made("div", "row", "")
    it.id = "row" + place
    it.setAttribute("role", "row")
    it.setAttribute("aria-rowindex", place + 2)
    it.setAttribute("aria-selected", place === active)
    for (const [name, text] of Object.entries(cells(found[place]))) {
      const cell = made("span", name, text)
      cell.setAttribute("role", "gridcell")
      cell.title = text
      it.append(cell)
    }
    it.onclick = () => { select(place); list.focus() }
    rows.push(it)
  }
  at("space").style.height = most * row + "px"
  at("rows").style.transform = `translateY(${first * row}px)`
  at("rows").replaceChildren(...rows)
}
function select(place) {
  active = place
  const list = at("list"), row = height(), head = list.querySelector(".head").offsetHeight
  if (place >= 0) {
    list.scrollTop = Math.min(list.scrollTop, place * row)
    list.scrollTop = Math.max(list.scrollTop, head + (place + 1) * row - list.clientHeight)
    list.setAttribute("aria-activedescendant", "row" + place)
  } else list.removeAttribute("aria-activedescendant")
  draw()
  tell(place < 0 ? null : found[place])
}
function tell(n) {
  if (n === null) return at("alert").replaceChildren(made("p", "note", "No alert has all of these words."))
  const it = cells(n), rule = data.rules[data.rule[n]]
  const lack = data.configured ? "The configuration has no such rule." : "Made with -c CONF, the page has the rule here."
  const text = rule[TEXT] ? made("pre", "", rule[TEXT]) : made("p", "note", lack)
  const where = rule[WHERE] ? " · " + rule[WHERE] : ""
  const only = made("div", "only", ""), payload = payloadOf(n)
  const asked = {"Only this rule": "rule:" + rule[MARK], "Without this rule": "-rule:" + rule[MARK],
                 "Only this class": fieldWord("class", rule[CLASS]), "Only this source": "from:" + data.addresses[data.from[n]],
                 "Only this destination": "to:" + data.addresses[data.to[n]]}
  for (const [name, word] of Object.entries(asked)) {
    const button = made("button", "", name)
    button.type = "button"
    button.onclick = () => { setFilter([...words(at("filter").value).filter(it => !isReplaced(it, word)), word]); at("filter").focus() }
    only.append(button)
  }
  at("alert").replaceChildren(made("h3", "", it.msg || "(no message)"),
    made("p", "", `${it.time} UTC · ${it.protocol} · ${it.from} → ${it.to}`),
    made("p", "note", `${it.rule} · ${it.class || "no class"} · priority ${it.priority}${where}`),
    text, ...payload, only)
}
// The payload of an alert's packet, in hex and as text, as tools/carve shows it.
function payloadOf(n) {
  const place = data.payload[n]
  if (place === -1) return []
  if (place === -2) return [made("p", "note", "The page has no room for its payload: tools/carve --dump shows it.")]
  const [size, text] = data.payloads[place], bytes = [...atob(text)].map(it => it.charCodeAt(0)), rows = []
  for (let row = 0; row < bytes.length; row += 16) {
    const some = bytes.slice(row, row + 16), hex = some.map(it => it.toString(16).padStart(2, "0"))
    const shown = String.fromCharCode(...some.map(it => it >= 32 && it < 127 ? it : 46))
    rows.push([row.toString(16).padStart(4, "0"), hex.slice(0, 8).join(" ").padEnd(23), hex.slice(8).join(" ").padEnd(23), shown].join("  "))
  }
  const cut = bytes.length < size ? `, the first ${bytes.length.toLocaleString("en")}` : ""
  const head = made("p", "note", size ? `Payload, ${plural(size, "byte")}${cut}` : "No payload")
  return size ? [head, made("pre", "payload", rows.join("\n"))] : [head]
}
// Whether a word of the filter goes where an alert's button adds one: all of its field, and it itself.
const isReplaced = (it, word) => it === word || !word.startsWith("-") && it.startsWith(word.slice(0, word.indexOf(":") + 1))
const moves = {ArrowDown: 1, ArrowUp: -1, PageDown: 10, PageUp: -10, Home: -Infinity, End: Infinity}
function onKey(event) {
  if (!(event.key in moves) || !found.length) return
  event.preventDefault()
  select(Math.max(0, Math.min(Math.min(found.length, MOST_SHOWN) - 1, active + moves[event.key])))
}

// --- The time line

const totals = [], bars = at("bars")
const barOf = n => Math.floor(data.time[n] / data.step)
let picked = null, begun = null  // the first and the last bar that are looked at; where a pointer went down
function drawBars() {
  if (!totals.length) for (const n of every) totals[barOf(n)] = (totals[barOf(n)] || 0) + 1
  const counts = [], most = totals.reduce((a, b) => Math.max(a, b || 0), 1)
  for (const n of found) counts[barOf(n)] = (counts[barOf(n)] || 0) + 1
  bars.querySelectorAll(".some").forEach((it, place) => {
    const tall = counts[place] ? Math.max(100 * counts[place] / most, 2) : 0
    it.setAttribute("y", 100 - tall)
    it.setAttribute("height", tall)
  })
  bars.counts = counts
}
const barTime = place => iso(data.first + place * data.step / 1000).replace(/\.000$/, "")
function pick(first, last) {
  const most = bars.viewBox.baseVal.width - 1, within = place => Math.max(0, Math.min(most, place))
  picked = [within(first), within(last)]
  const [low, high] = [Math.min(...picked), Math.max(...picked)]
  let sum = 0
  for (let place = low; place <= high; place++) sum += bars.counts[place] || 0
  at("picked").setAttribute("x", low)
  at("picked").setAttribute("width", high - low + 1)
  const times = [barTime(low), barTime(high + 1)].map(it => it.replace("T", " ")).join(" to ")
  const text = `${times}: ${sum.toLocaleString("en")} alert${sum === 1 ? "" : "s"}`
  at("bar").textContent = text
  bars.setAttribute("aria-valuenow", picked[1])
  bars.setAttribute("aria-valuetext", text)
}
const withoutTime = () => words(at("filter").value).filter(it => !/^(after|before):/.test(it))
function takeTime() {
  const asked = [`after:${barTime(Math.min(...picked))}`, `before:${barTime(Math.max(...picked) + 1)}`]
  setFilter(hasWords(asked.join(" ")) ? withoutTime() : [...withoutTime(), ...asked])
}
function leaveBars() {
  if (begun !== null) return
  at("picked").setAttribute("width", 0)
  at("bar").textContent = bars.note
}
function listenToBars() {
  const place = event => Math.floor((event.offsetX ?? 0) / bars.clientWidth * bars.viewBox.baseVal.width)
  bars.note = at("bar").textContent
  bars.setAttribute("role", "slider")
  bars.setAttribute("tabindex", 0)
  bars.setAttribute("aria-valuemin", 0)
  bars.setAttribute("aria-valuemax", bars.viewBox.baseVal.width - 1)
  bars.setAttribute("aria-valuenow", 0)
  bars.onpointerdown = event => { begun = place(event); bars.setPointerCapture(event.pointerId); pick(begun, begun) }
  bars.onpointermove = event => pick(begun ?? place(event), place(event))
  bars.onpointerup = () => { if (begun !== null) takeTime(); begun = null }
  bars.onpointercancel = () => { begun = null; leaveBars() }
  bars.onpointerleave = leaveBars
  bars.onblur = leaveBars
  bars.onkeydown = event => {
    const step = {ArrowRight: 1, ArrowLeft: -1, Home: -Infinity, End: Infinity}[event.key]
    const next = (picked ? picked[1] : -1) + step  // the first key takes the first bar
    if (step) pick(event.shiftKey && picked ? picked[0] : next, next)
    else if (event.key === "Enter" && picked) takeTime()
    else if (event.key === "Escape") setFilter(withoutTime())
    else return
    event.preventDefault()
  }
}

// --- What one does

let waits = false
at("filter").oninput = () => {
  if (!waits) requestAnimationFrame(() => { waits = false; filter() })
  waits = true
}
at("filter").onkeydown = event => {
  if (event.key === "Escape") setFilter([])
  if (event.key === "ArrowDown") { event.preventDefault(); at("list").focus() }
}
at("clear").onclick = () => { setFilter([]); at("filter").focus() }
at("list").onkeydown = onKey
at("list").onscroll = () => requestAnimationFrame(draw)
addEventListener("resize", draw)
addEventListener("keydown", event => {
  if (event.key === "/" && document.activeElement !== at("filter")) { event.preventDefault(); at("filter").focus() }
})
for (const head of document.querySelectorAll("[data-sort]")) head.onclick = () => sortBy(head.dataset.sort)
addEventListener("hashchange", readAddress)
document.documentElement.classList.add("scripted")
at("list").style.setProperty("--count", count)
listenToBars()
readAddress()
"""

