// Tests from crates/tz_examples/src/queries.rt by bindings/erase. Change that file instead.
//! Lines of queries and their answers, as the program `tzq` reads and writes them.

use crate::kit::Vec;
use crate::proved::tz_query::query;
use tz::proved::tz::TzError;
use tz::shim::alloc::Global;

/// The answers of query lines over the zone of a TZif file whose bytes are at hand.
pub fn answer_lines(alloc: Global, file: &[u8], lines: &[u8]) -> Result<Vec<u8>, TzError> {
    query::answer_tzif(alloc, file, lines)
}
