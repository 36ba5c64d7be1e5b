//! Templates, and what they render.

use deodarsieve_cli::template::{
    Value, parse_template, push_item, push_section, push_text, render,
};

/// Returns what a template renders.
fn rendered(template: &str, values: &[Value]) -> String {
    let parts = parse_template(template).expect("the text is a template");
    let mut text = String::new();
    render(&mut text, &parts, values);
    text
}

/// Returns values with one text.
fn one_text(name: &'static str, text: &str) -> Vec<Value> {
    let mut values = Vec::new();
    push_text(&mut values, name, text.to_owned());
    values
}

#[test]
fn a_value_is_escaped_for_its_hole() {
    let values = one_text("v", "a&<b>\"'\t\n\r\u{1b}\u{202e}\u{ffff}é  |");
    let cases = [
        (
            "<p>{{v}}</p>",
            "<p>a&amp;&lt;b&gt;\"'\t\n\\u{d}\\u{1b}\\u{202e}\u{fffd}é  |</p>",
        ),
        (
            "<p title=\"{{v}}\"></p>",
            "<p title=\"a&amp;&lt;b&gt;&quot;'&#9;&#10;\\u{d}\\u{1b}\\u{202e}\u{fffd}é  |\"></p>",
        ),
        (
            "| {{*v}} |",
            "| a&#38;&#60;b&#62;\"'&#9;&#10;&#92;u&#123;d&#125;&#92;u&#123;1b&#125;\
             &#92;u&#123;202e&#125;\u{fffd}é &#32;&#124; |",
        ),
    ];
    for (template, wanted) in cases {
        assert_eq!(rendered(template, &values), wanted, "{template}");
    }
}

#[test]
fn a_text_without_markup_stays_as_it_is() {
    let values = one_text("v", "tests::reads_the_rates (7 s)");
    assert_eq!(rendered("{{v}}", &values), "tests::reads_the_rates (7 s)");
    assert_eq!(
        rendered("<p title=\"{{v}}", &values),
        "<p title=\"tests::reads_the_rates (7 s)"
    );
    assert_eq!(rendered("{{*v}}", &one_text("v", " a  b")), "&#32;a &#32;b");
}

#[test]
fn a_section_has_its_parts_for_each_item() {
    let template = "{{#suite}}{{name}}:{{#test}} {{name}}{{/test}}{{^test}} none{{/test}};{{/suite}}\
                    {{^suite}}no suites{{/suite}}";
    let mut values = Vec::new();
    assert_eq!(rendered(template, &values), "no suites");
    let mut first = one_text("name", "a");
    push_item(&mut first, "test", one_text("name", "x"));
    push_item(&mut first, "test", one_text("other", "not shown"));
    push_item(&mut first, "test", one_text("name", "z"));
    push_item(&mut values, "suite", first);
    push_section(&mut values, "suite", Vec::new());
    push_section(&mut values, "suite", one_text("name", "b"));
    assert_eq!(rendered(template, &values), "a: x  z;b: none;");
}

#[test]
fn the_first_text_with_a_name_is_rendered() {
    let mut values = one_text("v", "first");
    push_text(&mut values, "v", "second".to_owned());
    push_item(&mut values, "w", Vec::new());
    assert_eq!(rendered("{{v}} {{w}}{{x}}", &values), "first ");
}

#[test]
fn braces_that_name_nothing_are_text() {
    let text = "a { b } c }} {d} p{color:red}\n";
    assert_eq!(rendered(text, &[]), text);
}

#[test]
fn some_texts_are_no_templates() {
    let texts = [
        "{{#a}}",
        "{{/a}}",
        "{{#a}}{{/b}}",
        "{{#a}}{{#b}}{{/a}}{{/b}}",
        "{{^a}}",
        "{{a",
        "{{a}",
        "{{a} }",
        "{{",
        "a{",
        "{{{a}}}",
        "{{}}}",
    ];
    for text in texts {
        assert!(parse_template(text).is_none(), "{text}");
    }
}
