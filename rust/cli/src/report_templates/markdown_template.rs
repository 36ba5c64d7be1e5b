// Made by tools/erase from crates/report_templates/src/markdown_template.rt. Do not edit.
//! The template of the summary of a workflow.

/// The summary of a workflow on GitHub. A value outside of `<pre>` has `*` before its name, so that it stays on its line
/// and in its cell. A text of the input with an `@` is in `<code>` there, so that GitHub takes nothing in it for the name
/// of a user. A reader drops the line feed after `<pre>`.
pub const MARKDOWN: &str = r#"## Test report: {{#ran}}{{*outcome}}{{/ran}}{{#no_tests}}no-tests-run{{/no_tests}}

{{*finished}} tests run: {{*passed}} passed ({{*flaky}} flaky{{#slow}}, {{*count}} slow{{/slow}}), {{*failed}} failed ({{*timed_out}} timed out, {{*crashed}} crashed), {{*skipped}} skipped, {{*not_run}} not run{{#time}}, in {{*seconds}}s{{/time}}

{{#comparison}}new failures {{*new}}, still failing {{*still}}, fixed {{*fixed}}

{{#tests}}<details><summary>fixed: {{*count}}</summary>
{{#test}}
- {{#suite}}{{#name_code}}<code>{{/name_code}}{{*name}}{{#name_code}}</code>{{/name_code}} {{/suite}}{{#name_code}}<code>{{/name_code}}{{*name}}{{#name_code}}</code>{{/name_code}}{{/test}}{{#more}}
- ({{*count}} more tests){{/more}}

</details>

{{/tests}}{{/comparison}}{{#problems}}{{#problem}}- {{#line_code}}<code>{{/line_code}}{{*line}}{{#line_code}}</code>{{/line_code}}{{#why}}

<pre>
{{text}}</pre>
{{/why}}
{{/problem}}
{{/problems}}{{#failures}}| Result | Test | Time | Why |
| --- | --- | ---: | --- |
{{#failed}}| {{#one}}{{*status}}{{#new}} ({{*words}}){{/new}} | {{#suite}}{{#name_code}}<code>{{/name_code}}{{*name}}{{#name_code}}</code>{{/name_code}} {{/suite}}{{#name_code}}<code>{{/name_code}}{{*name}}{{#name_code}}</code>{{/name_code}} | {{#note}}{{#time}}{{*seconds}}s{{/time}}{{/note}} | {{#short_code}}<code>{{/short_code}}{{*short}}{{#short_code}}</code>{{/short_code}}{{/one}}{{#group}}{{*status}}{{#new}} ({{*words}}){{/new}} | {{*count}} tests |  | {{#short_code}}<code>{{/short_code}}{{*short}}{{#short_code}}</code>{{/short_code}}{{/group}} |
{{/failed}}
{{#failed}}<details><summary>{{#one}}{{*status}}{{#new}} ({{*words}}){{/new}} {{#suite}}{{#name_code}}<code>{{/name_code}}{{*name}}{{#name_code}}</code>{{/name_code}} {{/suite}}{{#name_code}}<code>{{/name_code}}{{*name}}{{#name_code}}</code>{{/name_code}}{{#note}}{{#attempts}} ({{*count}} attempts){{/attempts}}{{/note}}{{/one}}{{#group}}{{*status}}{{#new}} ({{*words}}){{/new}} {{*count}} tests: {{#short_code}}<code>{{/short_code}}{{*short}}{{#short_code}}</code>{{/short_code}}{{/group}}</summary>{{#tests}}
{{#test}}
- {{*status}}{{#new}} ({{*words}}){{/new}} {{#suite}}{{#name_code}}<code>{{/name_code}}{{*name}}{{#name_code}}</code>{{/name_code}} {{/suite}}{{#name_code}}<code>{{/name_code}}{{*name}}{{#name_code}}</code>{{/name_code}}{{#note}}{{#attempts}} ({{*count}} attempts){{/attempts}}{{#time}} {{*seconds}}s{{/time}}{{/note}}{{/test}}{{#more}}
- ({{*count}} more tests){{/more}}{{/tests}}

<pre>
{{why}}</pre>

{{#output}}<details><summary>output, {{*lines}} lines</summary>

<pre>
{{text}}</pre>

</details>

{{/output}}{{#others}}{{#test}}- {{#suite}}{{#name_code}}<code>{{/name_code}}{{*name}}{{#name_code}}</code>{{/name_code}} {{/suite}}{{#name_code}}<code>{{/name_code}}{{*name}}{{#name_code}}</code>{{/name_code}}

<pre>
{{why}}</pre>

{{/test}}{{/others}}</details>

{{/failed}}{{/failures}}{{#more}}({{*count}} more failed tests: a summary on GitHub holds 1 MiB)
{{/more}}"#;

/// What the summary has of one failed test, or of a group of them: its row and its details, the two sections `failed` of
/// `MARKDOWN`. Render it to learn how many bytes it takes.
pub const FAILED: &str = r#"| {{#one}}{{*status}}{{#new}} ({{*words}}){{/new}} | {{#suite}}{{#name_code}}<code>{{/name_code}}{{*name}}{{#name_code}}</code>{{/name_code}} {{/suite}}{{#name_code}}<code>{{/name_code}}{{*name}}{{#name_code}}</code>{{/name_code}} | {{#note}}{{#time}}{{*seconds}}s{{/time}}{{/note}} | {{#short_code}}<code>{{/short_code}}{{*short}}{{#short_code}}</code>{{/short_code}}{{/one}}{{#group}}{{*status}}{{#new}} ({{*words}}){{/new}} | {{*count}} tests |  | {{#short_code}}<code>{{/short_code}}{{*short}}{{#short_code}}</code>{{/short_code}}{{/group}} |
<details><summary>{{#one}}{{*status}}{{#new}} ({{*words}}){{/new}} {{#suite}}{{#name_code}}<code>{{/name_code}}{{*name}}{{#name_code}}</code>{{/name_code}} {{/suite}}{{#name_code}}<code>{{/name_code}}{{*name}}{{#name_code}}</code>{{/name_code}}{{#note}}{{#attempts}} ({{*count}} attempts){{/attempts}}{{/note}}{{/one}}{{#group}}{{*status}}{{#new}} ({{*words}}){{/new}} {{*count}} tests: {{#short_code}}<code>{{/short_code}}{{*short}}{{#short_code}}</code>{{/short_code}}{{/group}}</summary>{{#tests}}
{{#test}}
- {{*status}}{{#new}} ({{*words}}){{/new}} {{#suite}}{{#name_code}}<code>{{/name_code}}{{*name}}{{#name_code}}</code>{{/name_code}} {{/suite}}{{#name_code}}<code>{{/name_code}}{{*name}}{{#name_code}}</code>{{/name_code}}{{#note}}{{#attempts}} ({{*count}} attempts){{/attempts}}{{#time}} {{*seconds}}s{{/time}}{{/note}}{{/test}}{{#more}}
- ({{*count}} more tests){{/more}}{{/tests}}

<pre>
{{why}}</pre>

{{#output}}<details><summary>output, {{*lines}} lines</summary>

<pre>
{{text}}</pre>

</details>

{{/output}}{{#others}}{{#test}}- {{#suite}}{{#name_code}}<code>{{/name_code}}{{*name}}{{#name_code}}</code>{{/name_code}} {{/suite}}{{#name_code}}<code>{{/name_code}}{{*name}}{{#name_code}}</code>{{/name_code}}

<pre>
{{why}}</pre>

{{/test}}{{/others}}</details>

"#;
