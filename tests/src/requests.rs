//! Requests to the programs of tests/c, as tests/c/rows.h reads them.

use std::fmt::Display;

/// Puts numbers into a request.
pub fn put<T: Display>(request: &mut String, numbers: &[T]) {
    for number in numbers {
        request.push_str(&format!(" {number}"));
    }
}

/// Puts a row into a request: its length, then its entries.
pub fn put_row<T: Display>(request: &mut String, row: &[T]) {
    put(request, &[row.len()]);
    put(request, row);
}
