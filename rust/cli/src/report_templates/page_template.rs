// Made by tools/erase from crates/report_templates/src/page_template.rt. Do not edit.
//! The template of the page.

/// The page after its first line. It is one element of HTML that is also well-formed XML, and it loads nothing from
/// elsewhere: the policy in its head allows only its own style sheet. A value can be between tags and in a quoted
/// attribute, and not in the style sheet. The bars are hidden from screen readers, which read the numbers in words. If
/// a server blocks the style sheet, a bar is its numbers, so there is a space after each. The list `open` has at most one
/// item, because a second one would repeat an attribute.
///
/// A text of a test is a list of pieces, plain or coloured. A coloured piece has classes: `c0` to `c15` for its colour,
/// `g0` to `g15` for its background, and `b`, `d`, `i` and `u` for bold, dim, italic and underlined. Each colour can be
/// read on each background: on a light page, for example, white characters are dark.
pub const PAGE: &str = r#"<html lang="en">
<head>
<meta charset="utf-8"/>
<meta http-equiv="Content-Security-Policy" content="default-src 'none'; style-src 'unsafe-inline'; base-uri 'none'; form-action 'none'"/>
<meta name="viewport" content="width=device-width, initial-scale=1"/>
<meta name="color-scheme" content="light dark"/>
<title>Test report: {{outcome}}</title>
<style>
:root { color-scheme: light dark; --page: #ffffff; --text: #1f2328; --muted: #57606a; --line: #d0d7de; --box: #f6f8fa;
  --good: #1a6b33; --bad: #b3201c; --warn: #8a4b00;
  --passed: #2da44e; --failed: #d1242f; --skipped: #868f99; --rest: #bf8700; --slow: #5b7fb5;
  --red: #a0111f; --green: #0f5323; --yellow: #6f4400; --blue: #0a4a9e; --magenta: #7a2a96; --cyan: #0b5563;
  --on-black: #d8dee4; --on-red: #ffdcd8; --on-green: #d2f3d8; --on-yellow: #fbeab0; --on-blue: #d3e7fd;
  --on-magenta: #f2dff7; --on-cyan: #cdf0f3; --on-white: #ffffff; }
@media (prefers-color-scheme: dark) {
  :root { --page: #0f1419; --text: #e6e9ec; --muted: #9aa4af; --line: #38404a; --box: #182028;
    --good: #6fd08c; --bad: #ff938a; --warn: #e9b55f;
    --passed: #3fb950; --failed: #f85149; --skipped: #6a737d; --rest: #d29922; --slow: #7d9fd1;
    --red: #ffa198; --green: #7ee29a; --yellow: #f0c86a; --blue: #9ecbff; --magenta: #e0b0f2; --cyan: #7fdce6;
    --on-black: #05080b; --on-red: #5c1f1f; --on-green: #164a2a; --on-yellow: #4a3a0c; --on-blue: #15406e;
    --on-magenta: #4d2a5c; --on-cyan: #0f4750; --on-white: #39424c; }
}
* { box-sizing: border-box; }
body { margin: 0; background: var(--page); color: var(--text); font: 1rem/1.5 system-ui, sans-serif; }
header, main { max-width: 76rem; margin: 0 auto; padding: 0 clamp(0.75rem, 3vw, 2rem); }
header { padding-top: 1.5rem; }
main { padding-bottom: 2rem; }
h1, h2, h3, p { margin: 0; }
h1 { font-size: clamp(1.4rem, 4vw, 2rem); line-height: 1.25; }
h2 { margin: 1.5rem 0 0.5rem; font-size: 1.2rem; }
h3 { display: inline; font-size: 1rem; font-weight: 600; }
h1, h3, th, li, .reason, .short { overflow-wrap: anywhere; }
.summary { margin: 0.25rem 0 0.75rem; color: var(--muted); font-variant-numeric: tabular-nums; }
.word { padding: 0 0.5rem; border-radius: 0.3rem; background: var(--warn); color: var(--page); }
.word.success { background: var(--good); }
.word.failed { background: var(--bad); }
.bar { display: flex; gap: 2px; height: 0.6rem; border-radius: 0.3rem; overflow: hidden; background: var(--box);
  font-size: 0; }
.bar span { flex: 0 1 0%; min-width: 3px; background: var(--slow); }
.bar .passed { background: var(--passed); }
.bar .failed { background: var(--failed); }
.bar .skipped { background: var(--skipped); }
.bar .rest { background: repeating-linear-gradient(45deg, var(--rest) 0 4px, var(--box) 4px 6px); }
.words { color: var(--muted); font-size: 0.875rem; }
.causes { margin: 0; padding: 0.75rem 1rem 0.75rem 2rem; border: 1px solid var(--line); border-left: 0.3rem solid var(--rest);
  border-radius: 0.3rem; background: var(--box); }
.causes pre { padding: 0.25rem 0; border-top: 0; }
details { margin: 0 0 0.75rem; border: 1px solid var(--line); border-left: 0.3rem solid var(--failed); border-radius: 0.3rem; }
details details { margin: 0; border: 0; border-top: 1px solid var(--line); border-radius: 0; }
summary { padding: 0.5rem 0.75rem; cursor: pointer; }
summary:focus-visible { outline: 2px solid var(--slow); outline-offset: 2px; }
.status { padding: 0 0.4rem; border-radius: 0.3rem; background: var(--bad); color: var(--page); font-size: 0.8125rem; }
.new { padding: 0 0.4rem; border: 1px solid var(--warn); border-radius: 0.3rem; color: var(--warn); font-size: 0.8125rem; }
.short { display: block; white-space: pre-wrap; }
.tests { margin: 0; padding: 0.5rem 0.75rem 0.5rem 2rem; border-top: 1px solid var(--line); }
.tests details { border-top: 0; }
.tests summary { padding: 0; color: var(--muted); }
p + .fixed { margin-top: 0.5rem; border-left-color: var(--passed); }
.suite, .note { color: var(--muted); font-weight: 400; }
pre { margin: 0; padding: 0.75rem; border-top: 1px solid var(--line); background: var(--box); white-space: pre-wrap;
  overflow-wrap: anywhere; font: 0.875rem/1.45 ui-monospace, Menlo, Consolas, monospace; }
code { font: inherit; }
.d, .c8 { color: var(--muted); }
.c0, .c7, .c15 { color: var(--text); }
.c1, .c9 { color: var(--red); }
.c2, .c10 { color: var(--green); }
.c3, .c11 { color: var(--yellow); }
.c4, .c12 { color: var(--blue); }
.c5, .c13 { color: var(--magenta); }
.c6, .c14 { color: var(--cyan); }
.g0, .g8 { background: var(--on-black); }
.g1, .g9 { background: var(--on-red); }
.g2, .g10 { background: var(--on-green); }
.g3, .g11 { background: var(--on-yellow); }
.g4, .g12 { background: var(--on-blue); }
.g5, .g13 { background: var(--on-magenta); }
.g6, .g14 { background: var(--on-cyan); }
.g7, .g15 { background: var(--on-white); }
.b { font-weight: 700; }
.i { font-style: italic; }
.u { text-decoration: underline; }
table { width: 100%; border-collapse: collapse; }
th, td { padding: 0.4rem 0.75rem 0.4rem 0; border-bottom: 1px solid var(--line); text-align: left; vertical-align: top; }
th { width: 45%; font-weight: 600; }
thead th { color: var(--muted); font-size: 0.875rem; }
tbody th { font-weight: 400; }
td .bar { margin-top: 0.45rem; }
td details { margin: 0; border-left-color: var(--rest); }
.reason { white-space: pre-wrap; }
.time { width: 6.5rem; padding-right: 0; text-align: right; white-space: nowrap; font-variant-numeric: tabular-nums; }
@media (max-width: 40rem) {
  th { width: 40%; }
  .time { width: 5rem; }
}
@media print {
  body { font-size: 10pt; }
  details, tr { break-inside: avoid; }
  .bar, .word, .status { print-color-adjust: exact; -webkit-print-color-adjust: exact; }
}
</style>
</head>
<body>
<header>
<h1>Test report: <span class="word {{outcome}}">{{outcome}}</span></h1>
<p class="summary">{{finished}} tests run: {{passed}} passed ({{flaky}} flaky{{#slow}}, {{count}} slow{{/slow}}), {{failed}} failed ({{timed_out}} timed out, {{crashed}} crashed), {{skipped}} skipped, {{not_run}} not run{{#time}}, in {{seconds}}s{{/time}}</p>
{{#bar}}<div class="bar" aria-hidden="true">{{#part}}<span class="{{class}}" style="flex-grow: {{number}}">{{number}}</span> {{/part}}</div>
{{/bar}}</header>
<main>
{{#comparison}}<section>
<h2>Since the earlier run</h2>
<p>{{line}}</p>
{{#fixed}}<details class="fixed"{{#open}} open="open"{{/open}}>
<summary>fixed: {{count}}</summary>
<ul class="tests">
{{#test}}<li>{{#suite}}<span class="suite">{{name}}</span> {{/suite}}<span>{{name}}</span></li>
{{/test}}</ul>
</details>
{{/fixed}}</section>
{{/comparison}}{{#problems}}<section>
<h2>Problems of the run</h2>
<ul class="causes">
{{#problem}}<li>{{line}}{{#why}}<pre><code>{{text}}</code></pre>{{/why}}</li>
{{/problem}}</ul>
</section>
{{/problems}}{{#failures}}<section>
<h2>Failed tests</h2>
{{#failed}}<details class="failed"{{#open}} open="open"{{/open}}>
<summary>{{#one}}<h3><span class="status">{{status}}</span> {{#new}}<span class="new">{{words}}</span> {{/new}}{{#suite}}<span class="suite">{{name}}</span> {{/suite}}<span>{{name}}</span>{{#note}}<span class="note">{{#attempts}} ({{count}} attempts){{/attempts}}{{#time}} {{seconds}}s{{/time}}</span>{{/note}}</h3> <span class="short">{{short}}</span>{{/one}}{{#group}}<h3><span class="status">{{status}}</span> {{#new}}<span class="new">{{words}}</span> {{/new}}<span>{{count}} tests: {{short}}</span></h3>{{/group}}</summary>
{{#tests}}<ul class="tests">
{{#test}}<li><span class="status">{{status}}</span> {{#new}}<span class="new">{{words}}</span> {{/new}}{{#suite}}<span class="suite">{{name}}</span> {{/suite}}<span>{{name}}</span>{{#note}}<span class="note">{{#attempts}} ({{count}} attempts){{/attempts}}{{#time}} {{seconds}}s{{/time}}</span>{{/note}}{{#output}}<details>
<summary>{{what}}, {{lines}} lines</summary>
<pre><code>{{#piece}}{{plain}}{{#coloured}}<span class="{{class}}">{{text}}</span>{{/coloured}}{{/piece}}</code></pre>
</details>{{/output}}</li>
{{/test}}</ul>
{{/tests}}<pre><code>{{#piece}}{{plain}}{{#coloured}}<span class="{{class}}">{{text}}</span>{{/coloured}}{{/piece}}</code></pre>
{{#output}}<details>
<summary>{{what}}, {{lines}} lines</summary>
<pre><code>{{#piece}}{{plain}}{{#coloured}}<span class="{{class}}">{{text}}</span>{{/coloured}}{{/piece}}</code></pre>
</details>
{{/output}}</details>
{{/failed}}</section>
{{/failures}}{{#flaky_tests}}<section>
<h2>Flaky tests</h2>
<table>
<thead><tr><th scope="col">Test</th><th scope="col">Attempts</th><th scope="col" class="time">Time</th></tr></thead>
<tbody>
{{#test}}<tr><th scope="row">{{name}}</th><td>{{attempts}}</td><td class="time">{{#time}}{{seconds}}s{{/time}}{{^time}}–{{/time}}</td></tr>
{{#attempt}}<tr><td colspan="3"><details>
<summary>attempt {{number}} failed: <span class="reason">{{short}}</span></summary>
<pre><code>{{#piece}}{{plain}}{{#coloured}}<span class="{{class}}">{{text}}</span>{{/coloured}}{{/piece}}</code></pre>
</details></td></tr>
{{/attempt}}{{/test}}</tbody>
</table>
</section>
{{/flaky_tests}}{{#suites}}<section>
<h2>Suites</h2>
<table>
<thead><tr><th scope="col">Suite</th><th scope="col">Tests</th><th scope="col" class="time">Time</th></tr></thead>
<tbody>
{{#suite}}<tr><th scope="row">{{name}}</th><td>{{#bar}}<div class="bar" aria-hidden="true">{{#part}}<span class="{{class}}" style="flex-grow: {{number}}">{{number}}</span> {{/part}}</div>{{/bar}}<div class="words">{{words}}</div></td><td class="time">{{#time}}{{seconds}}s{{/time}}{{^time}}–{{/time}}</td></tr>
{{/suite}}</tbody>
</table>
</section>
{{/suites}}{{#slowest}}<section>
<h2>Slowest tests</h2>
<table>
<thead><tr><th scope="col">Test</th><th scope="col">Share of the slowest</th><th scope="col" class="time">Time</th></tr></thead>
<tbody>
{{#slow}}<tr><th scope="row">{{name}}</th><td><div class="bar"><span style="flex-basis: {{share}}%">{{share}} %</span></div></td><td class="time">{{seconds}}s</td></tr>
{{/slow}}</tbody>
</table>
</section>
{{/slowest}}{{#skips}}<section>
<h2>Skipped tests</h2>
<table>
<thead><tr><th scope="col">Test</th><th scope="col">Reason</th></tr></thead>
<tbody>
{{#skip}}<tr><th scope="row">{{name}}</th><td class="reason">{{reason}}</td></tr>
{{/skip}}</tbody>
</table>
</section>
{{/skips}}</main>
</body>
</html>"#;
