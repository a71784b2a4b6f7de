//! What is said of texts and of replies. RSP_EXPLAINED may name a table of them, with what the program says; what isn't a number is in hex.

use rsp::{explain_reply, explain_text, RspError, Status};

fn bytes(hex: &str) -> Vec<u8> {
    (0..hex.len()).step_by(2).map(|at| u8::from_str_radix(&hex[at..at + 2], 16).unwrap()).collect()
}

#[test]
fn it_is_what_the_program_says() -> Result<(), RspError> {
    let table = std::env::var_os("RSP_EXPLAINED").map_or(String::new(), |it| std::fs::read_to_string(it).unwrap());
    for line in table.lines() {
        let row: Vec<&str> = line.split('\t').collect();
        let (number, given, reply) = (row[0].parse::<u32>().unwrap(), bytes(row[1]), bytes(row[2]));
        let said = match reply.is_empty() {
            true => explain_text(std::str::from_utf8(&given).unwrap(), number)?,
            false => explain_reply(&given, &reply, number as usize)?,
        };
        assert_eq!(said.into_bytes(), bytes(row[3]));
    }
    Ok(())
}

#[test]
fn another_origin_is_refused() {
    let error = explain_text("nop", 4100).unwrap_err();
    assert_eq!(error.status(), Status::OutOfRange);
    assert_eq!(error.to_string(), "explain_text: origin is 4100, not a multiple of 4 up to 4096");
}
