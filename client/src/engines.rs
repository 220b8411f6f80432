//! The calls of an engine among several. A member node answers the engine of one generation only.

use crate::answers::{self, error_of, Front};
use crate::calls::Calls;
use crate::errors::Error;
use crate::facts::Truncation;
use crate::frames;
use std::{fmt, io};

/// A truncation that a node has accepted, and the generation that proposed it.
#[derive(Debug, Clone, Copy, PartialEq, Eq)]
pub struct Accepted {
    pub generation: u64,
    pub cut: Truncation,
}

/// The status of a node: its generation, birth, membership, front and accepted truncation.
#[derive(Debug, Clone, Copy, PartialEq, Eq)]
pub struct Membership {
    pub generation: u64,
    /// The number that identifies this life of the node.
    pub birth: u64,
    pub is_member: bool,
    pub front: Front,
    pub accepted: Option<Accepted>,
}

/// The answer of a node that serves this generation only.
#[derive(Debug, Clone, Copy, PartialEq, Eq)]
pub struct Fenced {
    pub generation: u64,
    pub birth: u64,
    pub accepted: Option<Accepted>,
}

/// The generation and birth under which a request is carried out: the node must have both.
#[derive(Debug, Clone, Copy, PartialEq, Eq)]
pub struct Name {
    pub generation: u64,
    pub birth: u64,
}

/// The conditions of an admission: the generation that the node gets, the birth that it must have, and the front that it must have reached.
#[derive(Debug, Clone, Copy, PartialEq, Eq)]
pub struct Admission {
    pub name: Name,
    /// The complete epoch that the node must have.
    pub epoch: u16,
    /// The least complete point that the node must have.
    pub complete: u64,
    /// The accepted truncation that the node gets.
    pub accepted: Option<Accepted>,
}

/// Why a node declined an engine's request. Nothing has changed.
#[derive(Debug, Clone, Copy, PartialEq, Eq)]
pub enum Declined {
    /// The node is a member of this generation. It serves no other generation, no other birth, and no proposal older than one that it
    /// accepted.
    Stale { generation: u64 },
    /// The node is not a member, and has this birth.
    Fresh { birth: u64 },
    /// The request cannot be sent under a generation.
    Unguarded,
    /// The node is a member: it is not admitted again, and its segment is not replaced.
    Member,
    /// The admission names another birth than the node has, which is this one.
    Stranger { birth: u64 },
    /// The node's front is of another epoch than the admission requires, or its complete point is too low. These are the node's.
    Behind { epoch: u16, complete: u64 },
}

impl fmt::Display for Declined {
    fn fmt(&self, f: &mut fmt::Formatter<'_>) -> fmt::Result {
        match self {
            Declined::Stale { generation } => write!(f, "the node serves generation {generation}"),
            Declined::Fresh { birth } => write!(f, "the node is not a member, and has birth {birth}"),
            Declined::Unguarded => f.write_str("an engine cannot send this request under its generation"),
            Declined::Member => f.write_str("the node is a member already"),
            Declined::Stranger { birth } => write!(f, "the node has birth {birth}"),
            Declined::Behind { epoch, complete } => write!(f, "the node's front has epoch {epoch} and complete point {complete}"),
        }
    }
}

// ---- Requests

/// Requests the status of a node.
pub const STATUS: &[u8] = b"status";

fn pair(accepted: Option<Accepted>) -> String {
    accepted.map_or_else(String::new, |it| format!(" {} {} {} {}", it.generation, it.cut.epoch, it.cut.lo, it.cut.hi))
}

/// Encodes the request to serve this generation, if it is above the node's own.
pub fn fence(generation: u64) -> Vec<u8> {
    format!("fence {generation}").into_bytes()
}

/// Returns the prefix of a request that is carried out for one engine only.
pub fn heading(name: Name) -> Vec<u8> {
    format!("as {} {} ", name.generation, name.birth).into_bytes()
}

/// Encodes a request that is carried out for one engine only.
pub fn under(name: Name, request: &[u8]) -> Vec<u8> {
    [heading(name).as_slice(), request].concat()
}

/// Encodes the request to accept a truncation.
pub fn propose(name: Name, cut: &Truncation) -> Vec<u8> {
    format!("propose {} {} {} {} {}", name.generation, name.birth, cut.epoch, cut.lo, cut.hi).into_bytes()
}

/// Encodes the request to become a member.
pub fn admit(admission: &Admission) -> Vec<u8> {
    let Admission { name, epoch, complete, accepted } = *admission;
    format!("admit {} {} {epoch} {complete}{}", name.generation, name.birth, pair(accepted)).into_bytes()
}

/// Encodes many requests as one, each carried out for one engine only.
///
/// Errors: a request of 2^32 bytes or more.
pub fn many_under<'a>(name: Name, requests: impl IntoIterator<Item = &'a [u8]>) -> io::Result<Vec<u8>> {
    let (heading, mut request) = (heading(name), b"many ".to_vec());
    requests.into_iter().try_for_each(|it| frames::append(&mut request, &[&heading, it]))?;
    Ok(request)
}

// ---- Answers

/// Parses the numbers after a word. `None` if one is not a number of 64 bits.
fn numbers(answer: &[u8], word: &str) -> Option<Vec<u64>> {
    let rest = std::str::from_utf8(answer).ok()?.strip_prefix(word)?.strip_prefix(' ')?;
    rest.split(' ').map(|it| it.parse().ok()).collect()
}

/// Parses an accepted truncation from four numbers, or none from no numbers.
fn accepted(numbers: &[u64]) -> Option<Option<Accepted>> {
    match *numbers {
        [] => Some(None),
        [generation, epoch, lo, hi] => {
            let cut = Truncation { epoch: epoch.try_into().ok()?, lo, hi };
            Some(Some(Accepted { generation, cut }))
        }
        _ => None,
    }
}

/// Decodes why a node declined an engine's request, or another request because it is a member.
pub(crate) fn declined(answer: &[u8]) -> Option<Declined> {
    match answer {
        b"unguarded" => return Some(Declined::Unguarded),
        b"member" => return Some(Declined::Member),
        _ => {}
    }
    let one = |word| numbers(answer, word).and_then(|it| <[u64; 1]>::try_from(it).ok()).map(|[number]| number);
    if let Some(generation) = one("stale") {
        return Some(Declined::Stale { generation });
    }
    if let Some(birth) = one("fresh") {
        return Some(Declined::Fresh { birth });
    }
    if let Some(birth) = one("stranger") {
        return Some(Declined::Stranger { birth });
    }
    let [epoch, complete] = numbers(answer, "behind")?.try_into().ok()?;
    Some(Declined::Behind { epoch: epoch.try_into().ok()?, complete })
}

pub fn membership(answer: &[u8]) -> Result<Membership, Error> {
    let membership = || {
        let numbers = numbers(answer, "status")?;
        let (&[generation, birth, member @ 0..=1, epoch, complete, min], pair) = numbers.split_first_chunk()? else {
            return None;
        };
        let front = Front { epoch: epoch.try_into().ok()?, complete, min };
        Some(Membership { generation, birth, is_member: member == 1, front, accepted: accepted(pair)? })
    };
    membership().ok_or_else(|| error_of(answer))
}

pub fn fenced(answer: &[u8]) -> Result<Fenced, Error> {
    let fenced = || {
        let numbers = numbers(answer, "fenced")?;
        let (&[generation, birth], pair) = numbers.split_first_chunk()?;
        Some(Fenced { generation, birth, accepted: accepted(pair)? })
    };
    fenced().ok_or_else(|| error_of(answer))
}

/// Returns the answer of the segment to a request under this name. An answer under another generation or birth is `Strange`.
pub fn headed(answer: &[u8], name: Name) -> Result<&[u8], Error> {
    answer.strip_prefix(heading(name).as_slice()).ok_or_else(|| error_of(answer))
}

/// Checks that the node accepted the truncation of this epoch from this engine.
pub fn proposed(answer: &[u8], name: Name, epoch: u16) -> Result<(), Error> {
    answers::done(answer, &format!("accepted {} {} {epoch}", name.generation, name.birth))
}

pub fn admitted(answer: &[u8], name: Name) -> Result<(), Error> {
    answers::done(answer, &format!("admitted {} {}", name.generation, name.birth))
}

// ---- Calls

/// The calls of one of several engines. Each may return `Declined`, besides the errors of `Calls`.
pub trait EngineCalls: Calls {
    /// Returns the status of the node.
    fn membership(&mut self) -> Result<Membership, Error> {
        membership(self.ask(STATUS)?)
    }

    /// Makes the node serve this generation, if it is above the node's own.
    fn fence(&mut self, generation: u64) -> Result<Fenced, Error> {
        fenced(self.ask(&fence(generation))?)
    }

    /// Sends a request that the node carries out for this engine only, and returns its answer.
    fn ask_under(&mut self, name: Name, request: &[u8]) -> Result<Vec<u8>, Error> {
        headed(self.ask_parts(&[&heading(name), request])?, name).map(<[u8]>::to_vec)
    }

    /// Returns the front of a node that serves this engine.
    fn front_under(&mut self, name: Name) -> Result<Front, Error> {
        answers::front(&self.ask_under(name, b"front")?)
    }

    /// Proposes a truncation. The node accepts it unless it has accepted one of a later epoch from this engine.
    fn propose(&mut self, name: Name, cut: &Truncation) -> Result<(), Error> {
        proposed(self.ask(&propose(name, cut))?, name, cut.epoch)
    }

    /// Makes a fresh node a member.
    fn admit(&mut self, admission: &Admission) -> Result<(), Error> {
        admitted(self.ask(&admit(admission))?, admission.name)
    }
}

impl<C: Calls + ?Sized> EngineCalls for C {}

#[cfg(test)]
mod tests {
    use super::*;

    const NAME: Name = Name { generation: 3, birth: u64::MAX };
    const PAIR: Accepted = Accepted { generation: 2, cut: Truncation { epoch: 1, lo: 5, hi: 9 } };

    #[test]
    fn each_request_has_its_bytes() {
        assert_eq!(fence(3), b"fence 3");
        assert_eq!(under(NAME, b"take \0\n"), b"as 3 18446744073709551615 take \0\n");
        assert_eq!(propose(NAME, &PAIR.cut), b"propose 3 18446744073709551615 1 5 9");
        let admission = Admission { name: NAME, epoch: 1, complete: 7, accepted: None };
        assert_eq!(admit(&admission), b"admit 3 18446744073709551615 1 7");
        assert_eq!(admit(&Admission { accepted: Some(PAIR), ..admission }), b"admit 3 18446744073709551615 1 7 2 1 5 9");
        let name = Name { generation: 1, birth: 2 };
        assert_eq!(many_under(name, [&b"gap"[..]]).unwrap(), b"many \0\0\0\x0aas 1 2 gap");
    }

    #[test]
    fn each_answer_has_its_value() {
        let front = Front { epoch: 4, complete: 5, min: 6 };
        let told = Membership { generation: 1, birth: 2, is_member: true, front, accepted: None };
        assert_eq!(membership(b"status 1 2 1 4 5 6"), Ok(told));
        assert_eq!(membership(b"status 1 2 0 4 5 6 2 1 5 9"), Ok(Membership { is_member: false, accepted: Some(PAIR), ..told }));
        assert_eq!(fenced(b"fenced 3 2"), Ok(Fenced { generation: 3, birth: 2, accepted: None }));
        assert_eq!(fenced(b"fenced 3 2 2 1 5 9"), Ok(Fenced { generation: 3, birth: 2, accepted: Some(PAIR) }));
        assert_eq!(headed(b"as 3 18446744073709551615 page \n", NAME), Ok(&b"page \n"[..]));
        assert_eq!(proposed(b"accepted 3 18446744073709551615 1", NAME, 1), Ok(()));
        assert_eq!(admitted(b"admitted 3 18446744073709551615", NAME), Ok(()));
    }

    #[test]
    fn each_refusal_has_its_error() {
        let refusals: [(&[u8], Declined); 6] = [
            (b"stale 4", Declined::Stale { generation: 4 }),
            (b"fresh 18446744073709551615", Declined::Fresh { birth: u64::MAX }),
            (b"unguarded", Declined::Unguarded),
            (b"member", Declined::Member),
            (b"stranger 7", Declined::Stranger { birth: 7 }),
            (b"behind 1 2", Declined::Behind { epoch: 1, complete: 2 }),
        ];
        for (answer, declined) in refusals {
            assert_eq!(headed(answer, NAME), Err(Error::Declined(declined)));
            assert_eq!(fenced(answer), Err(Error::Declined(declined)));
        }
        for answer in
            [&b"status 1 2 2 4 5 6"[..], b"status 1 2 1 4 5", b"status 1 2 1 70000 5 6", b"status 1 2 1 4 5 6 7", b"stale", b"stale 1 2"]
        {
            assert_eq!(membership(answer), Err(Error::Strange(answer.to_vec())));
        }
        assert_eq!(headed(b"as 4 1 front 0 0 0", NAME), Err(Error::Strange(b"as 4 1 front 0 0 0".to_vec())));
        assert_eq!(headed(b"memory", NAME), Err(Error::Memory));
        assert_eq!(
            proposed(b"accepted 3 18446744073709551615 2", NAME, 1),
            Err(Error::Strange(b"accepted 3 18446744073709551615 2".to_vec()))
        );
    }
}
