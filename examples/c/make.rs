//! Makes a certificate of a module, and checks the module against it, by the library.
//!
//!     make MODULE [SHAPES]
//!
//! It prints how long the certificate is and the verdict, and ends with the status of the last call.

use std::process::ExitCode;
use std::{env, fs, ptr};

/// The calls of include/dgc.h that are made here.
mod dgc {
    #[repr(C)]
    #[derive(Clone, Copy, Default)]
    pub struct Place {
        pub letter: u32,
        pub number: u32,
        pub function: usize,
        pub block: usize,
        pub instruction: usize,
        pub line: usize,
        pub column: usize,
    }

    #[repr(C)]
    #[derive(Clone, Copy, Default)]
    pub struct Answer {
        pub status: u32,
        pub unused: u32,
        pub place: Place,
        pub rechecked: u64,
        pub length: usize,
    }

    pub const INTERFACE: u32 = 1;

    #[link(name = "dgc", kind = "static")]
    extern "C" {
        pub fn dgc_interface() -> u32;
        pub fn dgc_check(
            wide: bool,
            module: *const u8,
            module_length: usize,
            certificate: *const u8,
            certificate_length: usize,
            room: *mut u8,
            room_length: usize,
            answer: *mut Answer,
        ) -> u32;
        pub fn dgc_make(
            wide: bool,
            module: *const u8,
            module_length: usize,
            shapes: *const u8,
            shapes_length: usize,
            room: *mut u8,
            room_length: usize,
            answer: *mut Answer,
        ) -> u32;
    }
}

/// The answer to a call and its whole text: the call is made again where the text is longer than the room.
fn told(mut call: impl FnMut(*mut u8, usize, *mut dgc::Answer)) -> (dgc::Answer, Vec<u8>) {
    let mut answer = dgc::Answer::default();
    call(ptr::null_mut(), 0, &mut answer);
    let mut text = vec![0; answer.length];
    call(text.as_mut_ptr(), text.len(), &mut answer);
    text.truncate(answer.length);
    (answer, text)
}

fn check(module: &[u8], certificate: &[u8]) -> (dgc::Answer, Vec<u8>) {
    told(|room, length, answer| unsafe {
        dgc::dgc_check(
            false,
            module.as_ptr(),
            module.len(),
            certificate.as_ptr(),
            certificate.len(),
            room,
            length,
            answer,
        );
    })
}

fn make(module: &[u8], shapes: &[u8]) -> (dgc::Answer, Vec<u8>) {
    told(|room, length, answer| unsafe {
        dgc::dgc_make(
            false,
            module.as_ptr(),
            module.len(),
            shapes.as_ptr(),
            shapes.len(),
            room,
            length,
            answer,
        );
    })
}

fn answer(words: &[String]) -> Result<u32, std::io::Error> {
    let module = fs::read(&words[0])?;
    let shapes = words.get(1).map_or(Ok(Vec::new()), fs::read)?;
    let (made, certificate) = make(&module, &shapes);
    if made.status != 0 {
        print!("{}", String::from_utf8_lossy(&certificate));
        return Ok(made.status);
    }
    println!("certificate: {} lines", certificate.split(|byte| *byte == b'\n').count() - 1);
    let (checked, line) = check(&module, &certificate);
    print!("{}", String::from_utf8_lossy(&line));
    Ok(checked.status)
}

fn main() -> ExitCode {
    let words: Vec<String> = env::args().skip(1).collect();
    if !(1..=2).contains(&words.len()) || unsafe { dgc::dgc_interface() } != dgc::INTERFACE {
        eprintln!("make MODULE [SHAPES]");
        return ExitCode::from(4);
    }
    match answer(&words) {
        Ok(status) => ExitCode::from(status as u8),
        Err(fault) => {
            eprintln!("{fault}");
            ExitCode::from(4)
        }
    }
}
