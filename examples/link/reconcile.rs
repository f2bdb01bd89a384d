//! Reconciles the pass from day 100 to day 101 of the worked example; prints the number and the
//! instance in hex, or why the call refuses.

use std::process::ExitCode;

const SCHEMA: &[u8] = b"SH\x03SN\x01\x02\x01\x02\0SN\x01\0\x01\0\0\0\0\x01\0\0\0\x0aSN\x01\0\0";
const POLICIES: &[u8] = b"PH\0\x64\0\x64\x01PN\0\0\x05\
    PH\0\x65\0\xc8\x02PN\0\x01\0PN\x01\0\0\0\x04\0\0\0\x08";

fn main() -> ExitCode {
    if !neulenta::compatible() {
        eprintln!("the library is not of this wrapper's version");
        return ExitCode::FAILURE;
    }
    let mut out = [0; neulenta::LONGEST];
    match neulenta::reconcile(SCHEMA, POLICIES, 100, 101, &mut out) {
        Ok(length) => {
            let hex: String = out[..length]
                .iter()
                .map(|byte| format!("{byte:02x}"))
                .collect();
            println!("0 {hex}");
            ExitCode::SUCCESS
        }
        Err(refused) => {
            eprintln!("{refused}");
            ExitCode::FAILURE
        }
    }
}
