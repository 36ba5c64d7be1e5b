//! A strict reader of XML without namespaces, comments, processing instructions and `CDATA`: what a document has that
//! it does not know is refused.

/// An element.
#[derive(Clone, Debug, Default, PartialEq, Eq)]
pub struct Element {
    pub name: String,
    pub attributes: Vec<(String, String)>,
    pub children: Vec<Node>,
}

/// What is in an element.
#[derive(Clone, Debug, PartialEq, Eq)]
pub enum Node {
    Element(Element),
    Text(String),
}

impl Element {
    /// Returns an element without attributes.
    pub fn new(name: &str) -> Element {
        Element {
            name: name.to_string(),
            ..Element::default()
        }
    }

    /// Adds an attribute.
    pub fn with(mut self, name: &str, value: impl ToString) -> Element {
        self.attributes.push((name.to_string(), value.to_string()));
        self
    }

    /// Adds a text, unless it is empty.
    pub fn text(mut self, text: &str) -> Element {
        if !text.is_empty() {
            self.children.push(Node::Text(text.to_string()));
        }
        self
    }

    /// Adds elements.
    pub fn elements(mut self, elements: impl IntoIterator<Item = Element>) -> Element {
        self.children
            .extend(elements.into_iter().map(Node::Element));
        self
    }

    /// Returns the elements in this one.
    pub fn inner(&self) -> impl Iterator<Item = &Element> {
        self.children.iter().filter_map(|node| match node {
            Node::Element(element) => Some(element),
            Node::Text(_) => None,
        })
    }

    /// Returns this element and all that are in it, at any depth, in their order.
    pub fn all(&self) -> Vec<&Element> {
        let mut all = vec![self];
        all.extend(self.inner().flat_map(Element::all));
        all
    }

    /// Returns the texts in this element, at any depth.
    pub fn content(&self) -> String {
        let of_node = |node: &Node| match node {
            Node::Element(element) => element.content(),
            Node::Text(text) => text.clone(),
        };
        self.children.iter().map(of_node).collect()
    }

    /// Returns an attribute.
    pub fn attribute(&self, name: &str) -> Option<&str> {
        let found = self.attributes.iter().find(|(found, _)| found == name);
        found.map(|(_, value)| value.as_str())
    }

    /// Leaves out the white space in elements that have these names.
    pub fn without_spaces(mut self, names: &[&str]) -> Element {
        if names.contains(&self.name.as_str()) {
            self.children
                .retain(|node| !matches!(node, Node::Text(text) if text.trim().is_empty()));
        }
        for node in &mut self.children {
            if let Node::Element(element) = node {
                *element = std::mem::take(element).without_spaces(names);
            }
        }
        self
    }
}

/// Reads a document of one element.
///
/// Panics if it is not well-formed.
pub fn read(document: &str) -> Element {
    let mut reader = Reader { rest: document };
    let element = reader.element();
    assert_eq!(reader.rest.trim(), "", "something is after the element");
    element
}

/// What of a document was not read yet.
struct Reader<'a> {
    rest: &'a str,
}

impl<'a> Reader<'a> {
    /// Reads an element.
    fn element(&mut self) -> Element {
        self.expect("<");
        let mut element = Element::new(self.name());
        while self.skips(" ") {
            let name = self.name();
            assert_eq!(element.attribute(name), None, "an attribute twice: {name}");
            self.expect("=\"");
            let value = self.until('"');
            assert!(!value.contains(['<', '\t', '\n', '\r']), "{value}");
            element = element.with(name, resolved(value));
            self.expect("\"");
        }
        if self.skips("/>") {
            return element;
        }
        self.expect(">");
        self.children(&mut element);
        assert_eq!(self.name(), element.name, "another element ends");
        self.expect(">");
        element
    }

    /// Reads what is in an element, and `</`.
    fn children(&mut self, element: &mut Element) {
        loop {
            let text = self.until('<');
            assert!(!text.contains("]]>") && !text.contains('\r'), "{text}");
            if !text.is_empty() {
                element.children.push(Node::Text(resolved(text)));
            }
            if self.skips("</") {
                return;
            }
            let inner = self.element();
            element.children.push(Node::Element(inner));
        }
    }

    /// Reads a name.
    fn name(&mut self) -> &'a str {
        let is_name = |c: char| c.is_ascii_alphanumeric() || c == '-';
        let end = self.rest.find(|c| !is_name(c)).unwrap_or(0);
        assert!(end > 0, "no name: {:.40}", self.rest);
        self.take(end)
    }

    /// Reads the text before a character, which must come.
    fn until(&mut self, c: char) -> &'a str {
        let end = self.rest.find(c);
        let end = end.unwrap_or_else(|| panic!("no {c}: {:.40}", self.rest));
        self.take(end)
    }

    /// Reads this number of bytes.
    fn take(&mut self, size: usize) -> &'a str {
        let (taken, rest) = self.rest.split_at(size);
        self.rest = rest;
        taken
    }

    /// Reads a text if it comes next, and returns true if it does.
    fn skips(&mut self, text: &str) -> bool {
        let rest = self.rest.strip_prefix(text);
        self.rest = rest.unwrap_or(self.rest);
        rest.is_some()
    }

    /// Reads a text, which must come next.
    fn expect(&mut self, text: &str) {
        assert!(self.skips(text), "no {text}: {:.40}", self.rest);
    }
}

/// Returns a text with the characters that its references name.
///
/// Panics if it has a character that XML does not allow, a `>`, or an `&` that begins no reference.
pub fn resolved(text: &str) -> String {
    let is_allowed = |c: char| match c {
        '\t' | '\n' => true,
        '>' | '\u{fffe}' | '\u{ffff}' => false,
        _ => !c.is_control(),
    };
    assert!(text.chars().all(is_allowed), "{text:?}");
    let mut parts = text.split('&');
    let mut resolved = parts.next().unwrap_or("").to_string();
    for part in parts {
        let (reference, rest) = part.split_once(';').expect("a reference ends");
        resolved.push(character(reference));
        resolved.push_str(rest);
    }
    resolved
}

/// Returns the character that a reference names.
fn character(reference: &str) -> char {
    match reference {
        "amp" => '&',
        "lt" => '<',
        "gt" => '>',
        "quot" => '"',
        _ => {
            let code = reference
                .strip_prefix('#')
                .and_then(|code| code.parse().ok());
            let c = code.and_then(char::from_u32);
            c.unwrap_or_else(|| panic!("no reference: {reference}"))
        }
    }
}
