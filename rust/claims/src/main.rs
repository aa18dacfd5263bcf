//! `claims [ROOT]`: checks docs/CLAIMS.md of the repository in the folder ROOT,
//! or of the one that this package is in. The status is 0 only without errors.

use std::process::ExitCode;

fn main() -> ExitCode {
    let verdict = claims::root().and_then(|root| claims::check(&root));
    match &verdict {
        Ok(report) => print!("{report}"),
        Err(error) => println!("claims: {error}\nclaims: FAILED"),
    }
    let good = verdict.is_ok_and(|report| report.errors.is_empty());
    ExitCode::from(u8::from(!good))
}
