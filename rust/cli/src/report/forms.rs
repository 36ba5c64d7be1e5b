//! The forms of a report, and the documents that are made of it.

use crate::report::junit;
use crate::report::model::ReportModel;
use crate::report::options::Options;
use crate::report::output::{Document, FailedNames, Json};
use crate::report::page::page;
use crate::report::summary::summary;

/// The form of a report on standard output.
#[derive(Clone, Copy, Debug, PartialEq, Eq)]
pub enum Format {
    /// Text for people.
    Text,

    /// Text for people, with annotations of GitHub: of problems after the texts of a line of the run, and at the end of
    /// failed tests.
    Annotated {
        /// The options of the annotations. Only their `limit` and `output` are used.
        annotations: Options,
    },

    /// Annotations of GitHub.
    Github {
        /// Their options. Only `limit` and `output` are used.
        annotations: Options,
    },

    /// The names of failed tests.
    Names,

    /// JUnit's XML.
    Junit,

    /// A page of HTML.
    Html,

    /// A summary in Markdown.
    Markdown,

    /// One line of JSON.
    Json,
}

impl Format {
    /// Returns the options of the annotations, if the form has some.
    pub(super) fn annotations(self) -> Option<Options> {
        match self {
            Format::Annotated { annotations } | Format::Github { annotations } => Some(annotations),
            Format::Text
            | Format::Names
            | Format::Junit
            | Format::Html
            | Format::Markdown
            | Format::Json => None,
        }
    }
}

/// Which documents are made.
#[derive(Clone, Copy, Debug, Default, PartialEq, Eq)]
pub struct Files {
    pub junit: bool,
    pub html: bool,
    pub markdown: bool,
    pub json: bool,
    pub names: bool,
}

impl Files {
    /// Returns these documents and the one of standard output.
    pub(super) fn with(self, format: Format) -> Files {
        Files {
            junit: self.junit || format == Format::Junit,
            html: self.html || format == Format::Html,
            markdown: self.markdown || format == Format::Markdown,
            json: self.json || format == Format::Json,
            names: self.names,
        }
    }

    /// Returns true if one of these documents is made of the model.
    pub(super) fn have_model(self) -> bool {
        self.junit || self.html || self.markdown || self.json
    }

    /// Returns true if all tests are listed with their whole outputs.
    pub(crate) fn have_all_tests(self) -> bool {
        self.junit || self.json
    }
}

/// The texts of the documents. A text is absent if its document is not made.
#[derive(Default)]
pub struct FileTexts {
    pub junit: Option<Document>,
    pub html: Option<Document>,
    pub markdown: Option<Document>,
    pub json: Option<Json>,
    pub names: Option<FailedNames>,
}

impl FileTexts {
    /// Returns the texts of documents.
    pub(super) fn of(mut model: ReportModel, documents: Files, options: Options) -> FileTexts {
        let (markdown, junit) = (documents.markdown, documents.junit);
        FileTexts {
            json: documents.json.then(|| Json::of(&model)),
            html: (documents.html).then(|| page(&mut model, !(markdown || junit))),
            markdown: markdown.then(|| summary(&mut model, !junit)),
            junit: junit.then(|| junit::junit(model, options.no_tests_pass)),
            names: None,
        }
    }

    /// Returns the document of standard output, or an empty text if there is none.
    pub(super) fn of_output(&self, format: Format) -> &str {
        let document = match format {
            Format::Junit => self.junit.as_ref(),
            Format::Html => self.html.as_ref(),
            Format::Markdown => self.markdown.as_ref(),
            Format::Json => return self.json.as_ref().map_or("", Json::as_str),
            Format::Text | Format::Annotated { .. } | Format::Github { .. } | Format::Names => None,
        };
        document.map_or("", Document::as_str)
    }
}
