//! The printing program on an input that goes on after its end, as a terminal does. A socket of datagrams is such an
//! input: each datagram is what one read gets, an empty one is an end, and the next read waits for more.

use std::io::Read;
use std::os::fd::OwnedFd;
use std::os::unix::net::UnixDatagram;
use std::process::{Child, Command, Stdio};
use std::thread::sleep;
use std::time::{Duration, Instant};

/// The program ends at once; only a very busy machine takes long.
const LONG: Duration = Duration::from_secs(20);

const END: &[u8] = b"";

/// What the program prints when its reads get these pieces and then have to wait, if it ends without waiting.
fn printed(pieces: &[&[u8]]) -> Option<String> {
    printed_within(LONG, pieces)
}

fn printed_within(time: Duration, pieces: &[&[u8]]) -> Option<String> {
    let (sender, input) = UnixDatagram::pair().unwrap();
    for piece in pieces {
        assert_eq!(sender.send(piece).unwrap(), piece.len());
    }
    let mut program = Command::new(compare::printing::program())
        .stdin(Stdio::from(OwnedFd::from(input)))
        .stdout(Stdio::piped())
        .spawn()
        .unwrap();
    if !has_ended(&mut program, time) {
        program.kill().unwrap();
        program.wait().unwrap();
        return None;
    }
    let mut printed = String::new();
    program.stdout.take().unwrap().read_to_string(&mut printed).unwrap();
    // Until here the input was open.
    drop(sender);
    Some(printed)
}

fn has_ended(program: &mut Child, time: Duration) -> bool {
    let start = Instant::now();
    while start.elapsed() < time {
        if program.try_wait().unwrap().is_some() {
            return true;
        }
        sleep(Duration::from_millis(5));
    }
    false
}

#[test]
fn the_first_end_is_the_end() {
    assert_eq!(printed(&[b"PR\x01\x01\x02TH\x00", END]).as_deref(), Some("RB 1\n"));
    assert_eq!(printed(&[END]).as_deref(), Some("NO 1\n"));
}

#[test]
fn an_input_may_come_in_pieces() {
    let pieces: [&[u8]; 7] = [b"P", b"R\x01", b"\x01\x02T", b"H\x00", END, END, END];
    assert_eq!(printed(&pieces).as_deref(), Some("RB 1\n"));
}

#[test]
fn without_an_end_the_program_waits() {
    let short = Duration::from_millis(300);
    assert_eq!(printed_within(short, &[b"PR\x01\x01\x02TH\x00"]), None);
    assert_eq!(printed_within(short, &[]), None);
}
