//! Reads from nodes that are silent, slow, or answer with another length than the requested one.

use std::io::Write;
use std::net::{TcpListener, TcpStream};
use std::thread;
use std::time::{Duration, Instant};
use yieldcleat_client::{frames, Address};
use yieldcleat_volume::{Options, Reader, VolumeError};

const POINT: u64 = 10;

/// How a node answers a read of page 1; it answers all other requests.
#[derive(Clone, Copy)]
enum Manner {
    Answers,
    IsSilent,
    /// It sends one byte every 100 milliseconds.
    Dribbles,
    /// It sends a page of this many bytes, whatever the request.
    Sends(usize),
}

/// The answer with a page of the bytes 7; page 0 is that of a commit at `POINT`, by generation 3 in epoch 1.
fn page(number: &str, length: usize) -> Vec<u8> {
    let mut page = vec![7; length];
    if number == "0" {
        page.fill(0);
        (page[7], page[9], page[4095]) = (3, 1, POINT as u8);
    }
    [b"page ", page.as_slice()].concat()
}

fn answer(request: &[u8], manner: Manner) -> Vec<u8> {
    if let Some(inside) = request.strip_prefix(b"many ") {
        let mut answers = Vec::new();
        let each = frames::inside(inside).unwrap().into_iter().map(|it| answer(it, manner));
        each.for_each(|it| frames::append(&mut answers, &[&it]).unwrap());
        return answers;
    }
    let text = String::from_utf8_lossy(request);
    let words: Vec<_> = text.split(' ').collect();
    match (words[0], manner) {
        ("status", _) => b"status 3 7 1 1 10 0".to_vec(),
        ("front", _) => b"front 1 10 0".to_vec(),
        ("read", Manner::Sends(length)) if words[1] != "0" => page(words[1], length),
        _ => page(words[1], words[4].parse().unwrap()),
    }
}

fn serve(mut stream: TcpStream, manner: Manner) {
    let mut request = Vec::new();
    while frames::read(&mut stream, &mut request).unwrap_or(false) {
        let mut frame = Vec::new();
        frames::write(&mut frame, &answer(&request, manner)).unwrap();
        let is_of_page = request.starts_with(b"many ");
        let is_sent = match manner {
            Manner::IsSilent if is_of_page => true,
            Manner::Dribbles if is_of_page => frame.iter().all(|byte| {
                thread::sleep(Duration::from_millis(100));
                stream.write_all(&[*byte]).is_ok()
            }),
            _ => stream.write_all(&frame).is_ok(),
        };
        if !is_sent {
            return;
        }
    }
}

fn start(manner: Manner) -> Address {
    let listener = TcpListener::bind("127.0.0.1:0").unwrap();
    let address = Address::Tcp(listener.local_addr().unwrap().to_string());
    thread::spawn(move || {
        for stream in listener.incoming() {
            let stream = stream.unwrap();
            thread::spawn(move || serve(stream, manner));
        }
    });
    address
}

/// Opens a reader of such nodes, which then knows `POINT`.
fn reader(manners: &[Manner], patience: Duration) -> Reader {
    let nodes = manners.iter().map(|manner| start(*manner)).collect();
    let reader = Reader::open(Options { patience, ..Options::new(nodes) }).unwrap();
    assert_eq!(reader.newest(), Ok(POINT));
    reader
}

#[test]
fn a_read_ends_in_time() {
    for manner in [Manner::IsSilent, Manner::Dribbles] {
        let reader = reader(&[manner; 6], Duration::from_millis(600));
        for _ in 0..2 {
            let begun = Instant::now();
            assert_eq!(reader.read(1, POINT, 0, 100), Err(VolumeError::NotRead { page: 1, point: POINT }));
            assert!(begun.elapsed() < Duration::from_millis(1200), "{:?}", begun.elapsed());
        }
    }
}

#[test]
fn another_node_answers_in_place_of_one_that_does_not() {
    for manner in [Manner::IsSilent, Manner::Dribbles, Manner::Sends(99), Manner::Sends(101), Manner::Sends(0)] {
        let reader = reader(&[manner, manner, Manner::Answers], Duration::from_millis(900));
        assert_eq!(reader.read(1, POINT, 0, 100), Ok(vec![7; 100]));
    }
}
