//! Files that are lists of numbers.

/// The numbers of a text, which are separated by white space.
pub fn numbers(text: &str) -> Result<Vec<u64>, String> {
    text.split_ascii_whitespace()
        .map(|word| word.parse().map_err(|_| format!("{word} is not a number")))
        .collect()
}

/// A list of numbers that is read from its front.
pub struct Numbers {
    left: std::vec::IntoIter<u64>,
}

impl Numbers {
    /// The numbers of a text.
    pub fn of(text: &str) -> Result<Numbers, String> {
        Ok(Numbers {
            left: numbers(text)?.into_iter(),
        })
    }

    /// The next number, which is at most the limit.
    pub fn next(&mut self, limit: u64) -> Result<u64, String> {
        match self.left.next() {
            None => Err("the file ends early".into()),
            Some(number) if number > limit => Err(format!("{number} is past {limit}")),
            Some(number) => Ok(number),
        }
    }

    /// Nothing is left.
    pub fn end(&mut self) -> Result<(), String> {
        match self.left.next() {
            None => Ok(()),
            Some(number) => Err(format!("{number} is surplus")),
        }
    }
}
