//! Measures takes through the archive: the records of one chain, first with a wait for each answer, then with many in flight.
//!
//!     takes [HOW MANY]

use std::env;
use std::time::Instant;
use yieldcleat::{Calls, Error, Node, Patch, Record, Taken};

type Failed = Box<dyn std::error::Error>;

const PAGES: u64 = 400;

/// Returns record `number` of a chain over `PAGES` pages.
fn record(number: u64) -> Record {
    let patches = vec![Patch::write(0, &[number as u8])];
    let block_back = number.saturating_sub(PAGES);
    Record { epoch: 0, number, back: number - 1, page: (number % PAGES) as u16, block_back, begins_anew: false, patches }
}

/// Takes the facts into a new node by a call, and prints how many it takes a second.
fn measure(name: &str, facts: &[Vec<u8>], take: impl Fn(&mut Node, &[Vec<u8>]) -> Result<bool, Error>) -> Result<(), Failed> {
    let mut node = Node::open(1)?;
    let begun = Instant::now();
    let is_well = take(&mut node, facts)?;
    let seconds = begun.elapsed().as_secs_f64();
    if !is_well || node.front()?.complete != facts.len() as u64 {
        return Err("a record was not taken".into());
    }
    println!("{name}: {} takes in {seconds:.3} s, {:.0} a second", facts.len(), facts.len() as f64 / seconds);
    Ok(())
}

fn main() -> Result<(), Failed> {
    let count = env::args().nth(1).map_or(Ok(100_000), |word| word.parse())?;
    let facts: Vec<_> = (1..=count).map(|number| record(number).encode()).collect::<Result<_, _>>()?;
    measure("each waited for", &facts, |node, facts| {
        for fact in facts {
            if node.take(fact)? != Taken::Changed {
                return Ok(false);
            }
        }
        Ok(true)
    })?;
    measure("many at once", &facts, |node, facts| {
        let taken = node.take_all(facts.iter().map(Vec::as_slice))?;
        Ok(taken.iter().all(|it| matches!(it, Ok(Taken::Changed))))
    })
}
