//! `dead [ROOT]`: names the declarations that nothing reaches, of the repository in
//! the folder ROOT, or of the one that this package is in. The status is 0 only
//! where there are none.

use std::process::ExitCode;

fn main() -> ExitCode {
    match claims::root().and_then(|root| claims::dead(&root)) {
        Ok((dead, all)) => {
            dead.iter().for_each(|name| println!("dead: {name}"));
            println!("dead: {} of {all} declarations", dead.len());
            ExitCode::from(u8::from(!dead.is_empty()))
        }
        Err(error) => {
            println!("dead: {error}");
            ExitCode::FAILURE
        }
    }
}
