//! The calls of `pigale.h`, as they are in C. Their contracts stand in that header: what the caller must ensure is that each
//! pointer is to as many elements as the number after it says.
#![allow(non_camel_case_types)]

pub type pigale_status = u8;

include!(concat!(env!("OUT_DIR"), "/calls.rs"));

/// Runs the program's `words` over an input, and returns its status and its text.
pub fn run(words: &str, input: &[u8]) -> (pigale_status, Vec<u8>) {
    let mut text = vec![0; 65536 + 32 * input.len()];
    loop {
        let mut length = 0;
        let status = unsafe {
            pigale_run(words.as_ptr(), words.len(), input.as_ptr(), input.len(), text.as_mut_ptr(), text.len(), &mut length)
        };
        if length <= text.len() {
            text.truncate(length);
            return (status, text);
        }
        text.resize(length, 0);
    }
}
