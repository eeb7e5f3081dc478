//! How large a floor is.

/// Bays each way.
#[derive(Clone, Copy)]
pub struct Size(pub usize);

impl Size {
    pub fn panels(self) -> usize {
        self.0 * self.0
    }

    /// Of the table: "(ny+1)nx+(nx+1)ny".
    pub fn records(self) -> usize {
        2 * self.0 * (self.0 + 1)
    }

    /// Of the floor file.
    pub fn file_records(self) -> usize {
        let lines = self.0 + 1;
        4 + 2 * self.0 + 2 * lines + lines * lines
    }
}
