//! The program, over the call of the library:
//!
//! ```text
//! report [--tally] [--list] [--sizes] [--notation] [--most N] [--room N] <GAME
//! ```
use std::io::{Read, Write};
use std::process::exit;

/// The words of the options: size, most, visits, states, tally, list, sizes, notation.
const WORDS: usize = 8;

extern "C" {
    fn council_report_raw(game: *const u8, game_length: usize, options: *const u64, words: usize, text: *mut u8, room: usize, length: *mut u64) -> u32;
}

/// The status and the text.
fn report(game: &[u8], options: &[u64], mut room: usize) -> (u32, Vec<u8>) {
    loop {
        let mut text = vec![0; room];
        let mut length = 0;
        // each pointer comes from a reference, and the lengths are theirs
        let status =
            unsafe { council_report_raw(game.as_ptr(), game.len(), options.as_ptr(), options.len(), text.as_mut_ptr(), room, &mut length) };
        if length as usize <= room {
            text.truncate(length as usize);
            return (status, text);
        }
        room = length as usize;
    }
}

fn main() {
    let (mut options, mut room) = ([0; WORDS], 4096);
    options[0] = 8 * WORDS as u64;
    let mut words = std::env::args().skip(1);
    while let Some(word) = words.next() {
        match word.as_str() {
            "--most" => options[1] = words.next().unwrap().parse().unwrap(),
            "--tally" => options[4] = 1,
            "--list" => options[5] = 1,
            "--sizes" => options[6] = 1,
            "--notation" => options[7] = 1,
            "--room" => room = words.next().unwrap().parse().unwrap(),
            _ => exit(97),
        }
    }
    let mut game = Vec::new();
    std::io::stdin().read_to_end(&mut game).unwrap();
    let (status, text) = report(&game, &options, room);
    if status == 0 {
        std::io::stdout().write_all(&text).unwrap();
    } else {
        std::io::stderr().write_all(&[b"council: ", text.as_slice(), b"\n"].concat()).unwrap();
    }
    exit(status as i32);
}
