//! A filter with its text.

use crate::ip_filter::{Filter, ParseError};
use alloc::string::String;
use core::fmt;
use core::str::FromStr;

/// A filter with the text that it was parsed from, which `Display` writes.
#[derive(Clone, Debug, PartialEq, Eq)]
pub struct TextFilter {
    text: String,
    filter: Filter,
}

impl TextFilter {
    /// Parses the text as `Filter::parse` does, and keeps it.
    pub fn parse(text: String) -> Result<TextFilter, ParseError> {
        let filter = Filter::parse(text.as_bytes())?;
        Ok(TextFilter { text, filter })
    }

    /// Returns the text.
    pub fn text(&self) -> &str {
        &self.text
    }

    /// Returns the filter.
    pub fn filter(&self) -> &Filter {
        &self.filter
    }
}

impl FromStr for TextFilter {
    type Err = ParseError;

    fn from_str(text: &str) -> Result<TextFilter, ParseError> {
        TextFilter::parse(text.into())
    }
}

impl fmt::Display for TextFilter {
    fn fmt(&self, f: &mut fmt::Formatter<'_>) -> fmt::Result {
        f.pad(&self.text)
    }
}
