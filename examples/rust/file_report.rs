//! Files the report of README.md's example into its set of folders and prints the listing.
use std::io::Write;
use std::process::ExitCode;

const SET: &[u8] = b"(folders
(folder 3 (//clock/drift) (/lock/*/drift))
(folder 8 (//*/lock))
)
";
const REPORT: &[u8] = b"<lock><clock><drift/></clock></lock>";

// As include/rannvoul.h has them.
const AUTOMATON_SIZE: usize = 65536;
const RUN_SIZE: usize = 65536;
const LISTING_SIZE: usize = 16406;

#[repr(C)]
#[derive(Default)]
struct Counters {
    opens: usize,
    closes: usize,
    moves: usize,
}

#[link(name = "exports", kind = "static")]
extern "C" {
    fn rannvoul_build(
        text: *const u8,
        text_size: usize,
        automaton: *mut u8,
        automaton_size: usize,
    ) -> u8;
    fn rannvoul_file(
        automaton: *const u8,
        automaton_size: usize,
        run: *mut u8,
        run_size: usize,
        report: *const u8,
        report_size: usize,
        counters: *mut Counters,
    ) -> u8;
    fn rannvoul_list(
        automaton: *const u8,
        automaton_size: usize,
        run: *const u8,
        run_size: usize,
        counters: *const Counters,
        out: *mut u8,
        out_size: usize,
        length: *mut usize,
    ) -> u8;
}

/// The refusal's number as an error.
fn accepted(refusal: u8) -> Result<(), u8> {
    if refusal == 0 {
        Ok(())
    } else {
        Err(refusal)
    }
}

fn build(set: &[u8]) -> Result<Vec<u8>, u8> {
    let mut a = vec![0; AUTOMATON_SIZE];
    accepted(unsafe { rannvoul_build(set.as_ptr(), set.len(), a.as_mut_ptr(), a.len()) })?;
    Ok(a)
}

fn file(a: &[u8], run: &mut [u8], report: &[u8]) -> Result<Counters, u8> {
    let mut c = Counters::default();
    accepted(unsafe {
        rannvoul_file(
            a.as_ptr(),
            a.len(),
            run.as_mut_ptr(),
            run.len(),
            report.as_ptr(),
            report.len(),
            &mut c,
        )
    })?;
    Ok(c)
}

fn list(a: &[u8], run: &[u8], c: &Counters) -> Result<Vec<u8>, u8> {
    let mut out = vec![0; LISTING_SIZE];
    let mut length = 0;
    accepted(unsafe {
        rannvoul_list(
            a.as_ptr(),
            a.len(),
            run.as_ptr(),
            run.len(),
            c,
            out.as_mut_ptr(),
            out.len(),
            &mut length,
        )
    })?;
    out.truncate(length);
    Ok(out)
}

fn listing() -> Result<Vec<u8>, u8> {
    let a = build(SET)?;
    let mut run = vec![0; RUN_SIZE];
    let c = file(&a, &mut run, REPORT)?;
    list(&a, &run, &c)
}

fn main() -> ExitCode {
    match listing() {
        Ok(text) if std::io::stdout().write_all(&text).is_ok() => ExitCode::SUCCESS,
        Ok(_) => ExitCode::FAILURE,
        Err(refusal) => {
            eprintln!("refused {refusal}");
            ExitCode::FAILURE
        }
    }
}
