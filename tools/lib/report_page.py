"""The style and the frame of the page that report makes. What is between @ is put in by report."""
STYLE = r"""
@light@
@media (prefers-color-scheme:dark){@dark@}
:root{color-scheme:light dark;--mono:ui-monospace,SFMono-Regular,Menlo,Consolas,"DejaVu Sans Mono",monospace;--row:30px}
*{box-sizing:border-box}
body{margin:0 auto;max-width:1440px;padding:18px 32px 40px;background:var(--paper);color:var(--ink);
 font:14px/1.5 system-ui,-apple-system,"Segoe UI",Helvetica,Arial,sans-serif;font-variant-numeric:tabular-nums}
h1{font-size:22px;line-height:1.3;font-weight:600;margin:0;overflow-wrap:anywhere}
h2{font-size:14px;font-weight:600;margin:0 0 6px}
header{display:flex;flex-wrap:wrap;justify-content:space-between;align-items:baseline;gap:4px 40px}
dl.facts{display:flex;flex-wrap:wrap;gap:2px 28px;margin:0}
dl.facts div{display:flex;gap:8px;align-items:baseline}
dl.facts dt,.note,.arrow,.mark,em{color:var(--faint);font-size:13px}
dl.facts dd{margin:0;font-size:14px}
em{font-style:normal}
.note{margin:0}
section{margin-top:14px;min-width:0}
.counts{display:grid;grid-template-columns:minmax(0,5fr) minmax(0,3fr) minmax(0,3fr) minmax(0,2fr);gap:0 28px;font-size:13px}
.others .counts{grid-template-columns:minmax(0,5fr) minmax(0,4fr) minmax(0,2fr)}
.counts section h2{margin-bottom:2px}
.others{margin-top:4px}
table{border-collapse:collapse;width:100%;table-layout:fixed}
col.n{width:52px}col.bar{width:36px}
td.n{text-align:right;padding:0 8px 0 0}
td.bar i{display:block;height:8px;border-radius:2px;background:var(--s0);min-width:1px}
th{font-weight:400;text-align:left;padding:0 0 0 4px}
th button{font:inherit;color:inherit;background:none;border:0;border-radius:4px;padding:1px 6px;max-width:100%;text-align:left;
 cursor:pointer;overflow-wrap:anywhere}
th button:hover{background:var(--none)}
th button[aria-pressed=true]{background:var(--s0);color:var(--on)}
th button[aria-pressed=true] *{color:inherit}
details table{margin-top:2px}
summary{cursor:pointer;color:var(--faint);font-size:13px;padding:4px 0;width:max-content}
:focus-visible{outline:2px solid var(--s0);outline-offset:1px}
#bars{display:block;width:100%;height:76px;margin-top:4px;border-bottom:1px solid var(--line);overflow:visible;
 touch-action:pan-y}
#bars .all{fill:var(--s0);opacity:.25}
#bars .some{fill:var(--s0)}
#picked{fill:var(--ink);opacity:.1}
.scripted #bars{cursor:pointer}
.labels{position:relative;height:20px;font-size:12px;color:var(--faint)}
.labels span{position:absolute;top:0;padding:3px 0 0 4px;border-left:1px solid var(--line);white-space:nowrap;line-height:1}
.find{display:flex;flex-wrap:wrap;align-items:center;gap:8px 14px;margin-bottom:8px}
.find label{font-weight:600}
input{flex:1 1 320px;min-width:0;font:inherit;color:inherit;background:var(--paper);border:1px solid var(--faint);
 border-radius:6px;padding:6px 10px}
.find button,.only button{font:inherit;font-size:13px;color:var(--ink);background:var(--none);border:1px solid var(--line);
 border-radius:6px;padding:4px 10px;cursor:pointer}
.find button:hover,.only button:hover{border-color:var(--faint)}
#told{margin:0 0 4px;color:var(--s1)}
#told:empty{display:none}
.help{margin-bottom:4px}
.help table{width:auto;table-layout:auto;font-size:13px;margin:2px 0 6px}
.help td{padding:1px 18px 1px 0;vertical-align:top}
code,pre{font-family:var(--mono);font-size:12.5px}
#list{height:min(max(100vh - 640px,260px),620px,calc(var(--count)*var(--row) + 34px));min-height:130px;overflow:auto;contain:strict;
 border:1px solid var(--line);border-radius:6px}
.row{display:grid;grid-template-columns:198px 118px minmax(0,34fr) minmax(0,18fr) 30px 74px minmax(152px,15fr) minmax(152px,15fr);
 gap:0 12px;height:var(--row);line-height:var(--row);padding:0 12px;font-size:13px;cursor:default}
.row>*{overflow:hidden;text-overflow:ellipsis;white-space:nowrap;unicode-bidi:isolate}
.row .priority{text-align:right}
.row.head{position:sticky;top:0;z-index:1;background:var(--none);border-bottom:1px solid var(--line);color:var(--faint);
 font-size:12px}
.row.head button{font:inherit;color:inherit;background:none;border:0;padding:0;cursor:pointer}
.row.head [aria-sort=ascending] button::after{content:" ↑"}
.row.head [aria-sort=descending] button::after{content:" ↓"}
#rows{position:absolute;left:0;right:0;top:0;will-change:transform}
#rows .row:hover{background:var(--none)}
#rows .row[aria-selected=true]{background:color-mix(in srgb,var(--s0) 18%,transparent);box-shadow:inset 3px 0 var(--s0)}
#space{position:relative}
#alert{margin-top:12px;border:1px solid var(--line);border-radius:6px;padding:12px 16px;min-height:150px}
#alert h3{font-size:15px;font-weight:600;margin:0 0 2px;overflow-wrap:anywhere;unicode-bidi:isolate}
#alert p{margin:0;overflow-wrap:anywhere}
#alert pre{margin:8px 0 0;padding:10px 12px;background:var(--none);border-radius:6px;white-space:pre-wrap;overflow-wrap:anywhere}
#alert pre.payload{white-space:pre;overflow:auto;max-height:240px}
.only{display:flex;flex-wrap:wrap;gap:8px;margin-top:10px}
.unseen{position:absolute;width:1px;height:1px;overflow:hidden;clip-path:inset(50%);white-space:nowrap}
html:not(.scripted) .table{display:none}
.scripted .still{display:none}
@media (max-width:1180px){.row{grid-template-columns:198px minmax(0,1fr) 30px 156px 156px}
 .row .rule,.row .class,.row .protocol{display:none}}
@media (max-width:760px){body{padding:20px 16px 32px}:root{--row:70px}
 .counts,.others .counts{display:block}col.bar{width:48px}.labels span:nth-child(even){display:none}
 .row{grid-template-columns:minmax(0,1fr) minmax(0,1fr);grid-template-rows:24px 20px 20px;line-height:20px;padding:3px 12px}
 .row .priority{display:none}
 .row .msg{order:-2;grid-column:1/3;line-height:24px}
 .row .time{order:-1;grid-column:1/3;color:var(--faint);font-size:12px}
 .row .from{font-size:12px}.row .to{font-size:12px;text-align:right}
 .row.head{display:none}}
@media print{.table{display:none}}
"""

HEAD = """<!DOCTYPE html>
<html lang="en">
<meta charset="utf-8">
<meta name="viewport" content="width=device-width">
<meta http-equiv="Content-Security-Policy" content="default-src 'none'; style-src 'unsafe-inline'; script-src '@hash@'; \
base-uri 'none'; form-action 'none'">
<title>@title@</title>
<style>@style@</style>
<header><h1>@title@</h1><dl class="facts">@facts@</dl></header>
<main>
"""
EMPTY = """<p>No alert.</p>
</main>
"""
BODY = """<section><h2 class="unseen">Over time, in UTC</h2>@timeline@</section>
@counts@
<p class="still note">The table of alerts wants a browser that runs scripts.</p>
<section class="table" aria-label="Alerts">
<div class="find"><label for="filter">Find</label><input id="filter" type="search" autocomplete="off" spellcheck="false"
 aria-describedby="found"><button id="clear" type="button" hidden>Show all</button><span id="found" role="status"></span></div>
<p id="told" role="status"></p>
<details class="help"><summary>What to type</summary><table>
<tr><td><code>admin 10.0.0.1:80</code><td>alerts whose row has both
<tr><td><code>"login failed"</code><td>words with the blank between them
<tr><td><code>-admin</code><td>alerts that don't have it
<tr><td><code>rule:1000001 class:"Misc activity" priority:1 protocol:udp</code><td>a field that is exactly this
<tr><td><code>rule:1000001 rule:1000002</code><td>either: words of one field are alternatives
<tr><td><code>from:10.0.0.1 to:10.0.0.0/24 host:2001:db8::/32 dport:80</code><td>an end, an address or a network;
 <code>host</code> and <code>port</code> are either end, <code>sport</code> the source's port
<tr><td><code>pair:10.0.0.1&gt;10.0.0.2</code><td>from the one to the other
<tr><td><code>10.0.0.0/8</code><td>either end is in this network
<tr><td><code>after:2026-01-31T12:00:00 before:2026-02-01</code><td>from this moment on; up to that one
<tr><td>the address<td>has the filter and the order: who opens it sees the same
<tr><td>keys<td><kbd>/</kbd> goes to this field, <kbd>↓</kbd> from it to the table, and <kbd>Esc</kbd> empties it;
 on the time line <kbd>←</kbd> <kbd>→</kbd> choose, with <kbd>Shift</kbd> several bars, and <kbd>Enter</kbd> takes them
</table></details>
<div id="list" role="grid" tabindex="0" aria-label="Alerts">
<div class="row head" role="row" aria-rowindex="1"><span role="columnheader" class="time"><button type="button" data-sort="time">Time</button></span>
<span role="columnheader" class="rule"><button type="button" data-sort="rule">Rule</button></span>
<span role="columnheader" class="msg"><button type="button" data-sort="msg">Message</button></span>
<span role="columnheader" class="class"><button type="button" data-sort="class">Class</button></span>
<span role="columnheader" class="priority"><button type="button" data-sort="priority" title="Priority">Prio</button></span>
<span role="columnheader" class="protocol"><button type="button" data-sort="protocol">Protocol</button></span>
<span role="columnheader" class="from"><button type="button" data-sort="from">From</button></span>
<span role="columnheader" class="to"><button type="button" data-sort="to">To</button></span></div>
<div id="space"><div id="rows" role="rowgroup"></div></div></div>
<div id="alert" role="region" aria-label="The chosen alert"></div>
</section>
</main>
<script type="application/json" id="data">@data@</script>
<script>@script@</script>
"""
