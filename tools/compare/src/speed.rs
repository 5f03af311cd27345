//! Times: the archives, the Rust, the hand-tuned Rust, one driver.

mod calls;
mod driver;
mod entries;
mod growth;
mod job;
mod plot;
mod report;
mod rows;
mod texts;

use report::Report;
use std::arch::global_asm;
use std::fs;
use std::io;
use std::path::Path;

// So many bytes of padding move all code that is linked behind them. Functions are
// linked at multiples of 16 bytes, and some loops take longer at one of the four
// places within a line of the cache than at another.
global_asm!(
    ".section .text.pad,\"axR\",@progbits",
    ".p2align 6",
    concat!(".skip 64 + ", env!("CODE_PAD"), ", 0x90"),
    ".text"
);

/// Measures what the words say: nothing for everything; calls, of them those rows
/// whose names contain a word; entries; growth; or everything for the pages in a folder.
pub fn run(words: &[&str]) -> io::Result<()> {
    let mut report = Report::default();
    match words {
        [] => everything(&mut report),
        ["calls"] => rows::run("", &mut report),
        ["calls", part] => rows::run(part, &mut report),
        ["entries"] => entries::run(&mut report),
        ["growth"] => growth::run(&mut report),
        ["docs", folder] => {
            let folder = Path::new(folder);
            report::check_page(folder)?;
            everything(&mut report);
            report.write(folder)?;
        }
        _ => {
            return Err(io::Error::new(
                io::ErrorKind::InvalidInput,
                "usage: compare speed [calls [PART] | entries | growth | docs FOLDER]",
            ))
        }
    }
    report.print();
    Ok(())
}

fn everything(report: &mut Report) {
    if let Some(name) = processor() {
        report.sum_up(&format!("- Processor: {name}."));
    }
    rows::run("", report);
    entries::run(report);
    growth::run(report);
}

/// What Linux calls the processor.
fn processor() -> Option<String> {
    let all = fs::read_to_string("/proc/cpuinfo").ok()?;
    let line = all.lines().find(|line| line.starts_with("model name"))?;
    line.split_once(':').map(|(_, name)| name.trim().to_string())
}
