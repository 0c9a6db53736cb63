//! The example of examples/c/session.c in Rust, over the wrapper of aquiledru.rs. It prints the same.
//! `tools/build archive` makes the library, and `examples/run rust` compiles this program with it and runs it.
mod aquiledru;

use aquiledru::{Call, Counts, Refusal, Session};
use std::process::ExitCode;

/// Prints a call's number, and returns whether it is the expected one.
fn expect(call: &str, answer: Result<(), Refusal>, wanted: Result<(), Refusal>) -> bool {
    println!("{}: {}", call, answer.map_or_else(Refusal::number, |()| 0));
    answer == wanted
}

fn print_session(session: &Session) {
    println!("  SEQ {}", String::from_utf8_lossy(session.seq()));
    println!("  MM {}", String::from_utf8_lossy(session.mm()));
    if let Some(ml) = session.ml() {
        let values: Vec<String> = ml.iter().map(u8::to_string).collect();
        println!("  ML {}", values.join(" "));
    }
}

fn mask_drop_and_cut() -> Result<(Session, bool), Refusal> {
    let (mut session, counts) = Session::open(b"ACCGTCC".to_vec(), b"C+m?,0,1,0;".to_vec(), Some(vec![200, 90, 30]))?;
    println!("open: 0");
    println!("  {} group, {} calls", counts.groups, counts.calls);
    let mut good = counts == Counts { groups: 1, calls: 3 };
    print_session(&session);

    // The base at 1 becomes N: its call is removed, and the base counts in no later skip.
    good &= expect("mask 1", session.mask(&[1]), Ok(()));
    print_session(&session);

    // The call at 5 is removed, but its base stays: the base still counts in the next skip.
    good &= expect("drop 5", session.drop_calls(&[5]), Ok(()));
    print_session(&session);

    good &= expect("cut 3 off the front", session.cut(3, 0), Ok(()));
    print_session(&session);

    good &= expect("cut 3 off the front and 2 off the back", session.cut(3, 2), Err(Refusal::NoWindow));
    good &= expect("cut nothing", session.cut(0, 0), Err(Refusal::Unchanged));
    print_session(&session);
    Ok((session, good))
}

/// With the mark '.' an unlisted C means unmodified, so no call can be dropped. This tag has no ML.
fn refused_drop() -> Result<bool, Refusal> {
    let (mut session, _) = Session::open(b"ACCGT".to_vec(), b"C+m.,0,0;".to_vec(), None)?;
    let before = session.clone();
    let good = expect("drop 1 under '.'", session.drop_calls(&[1]), Err(Refusal::DropWithoutMark));
    print_session(&session);
    Ok(good && session == before)
}

fn list_calls(session: &Session) -> Result<bool, Refusal> {
    let calls = session.calls()?;
    println!("read the calls: 0");
    let ml = session.ml().unwrap_or_default();
    for Call { group, place, start } in &calls {
        println!("  group {}, place {}, value {}", group, place, ml[*start as usize]);
    }
    Ok(calls.len() == 1)
}

fn run() -> Result<bool, Refusal> {
    let (session, edited) = mask_drop_and_cut()?;
    let kept = refused_drop()?;
    let listed = list_calls(&session)?;
    Ok(edited && kept && listed)
}

fn main() -> ExitCode {
    match run() {
        Ok(true) => ExitCode::SUCCESS,
        Ok(false) => ExitCode::FAILURE,
        Err(refusal) => {
            println!("refused: {} ({:?})", refusal.number(), refusal);
            ExitCode::FAILURE
        }
    }
}
