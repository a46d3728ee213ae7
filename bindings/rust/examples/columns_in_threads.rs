//! A column of ten million instants, answered by one thread and by several: each has a part of the column, and all have the same zone.

use std::num::NonZero;
use std::thread;
use std::time::Instant;
use tz::error::ColumnError;
use tz::{TimeZone, TimeZoneRef};

/// The offsets at instants, of which each thread answers a part. An error has its place in the whole column.
fn offsets_in_threads(
    zone: TimeZoneRef<'_>,
    instants: &[i64],
    offsets: &mut [i32],
    threads: NonZero<usize>,
) -> Result<(), ColumnError> {
    if instants.len() != offsets.len() {
        return Err(ColumnError::UnequalLengths);
    }
    let part = instants.len().div_ceil(threads.get()).max(1);
    thread::scope(|scope| {
        let parts = instants.chunks(part).zip(offsets.chunks_mut(part));
        let threads: Vec<_> = parts
            .map(|(instants, offsets)| scope.spawn(move || zone.offsets_at(instants, offsets)))
            .collect();
        let mut first = Ok(());
        for (number, thread) in threads.into_iter().enumerate() {
            let answer = thread.join().expect("the calls of a column do not panic");
            first = first.and(answer.map_err(|error| match error {
                ColumnError::UnequalLengths => ColumnError::UnequalLengths,
                ColumnError::At { place, error } => ColumnError::At {
                    place: number * part + place,
                    error,
                },
            }));
        }
        first
    })
}

fn main() -> Result<(), Box<dyn std::error::Error>> {
    let zone = TimeZone::from_posix_tz("CET-1CEST,M3.5.0,M10.5.0/3")?;
    let instants: Vec<i64> = (0..10_000_000)
        .map(|place| 946_684_800 + 60 * place)
        .collect();
    let mut wanted = vec![0; instants.len()];
    for threads in [1, 2, 4] {
        let threads = NonZero::new(threads).expect("a number above 0");
        let mut offsets = vec![0; instants.len()];
        let start = Instant::now();
        offsets_in_threads(zone.as_ref(), &instants, &mut offsets, threads)?;
        println!("{threads} threads: {:?}", start.elapsed());
        if threads.get() == 1 {
            wanted = offsets;
        } else {
            assert!(offsets == wanted);
        }
    }
    Ok(())
}
