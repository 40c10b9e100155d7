//! Compacts a capture file by shares, `compact IN OUT BUDGET`: each share writes at most BUDGET bytes. They go into OUT.part, which takes the name OUT only
//! when all of it is on disk and was read back: OUT may be IN itself, and only then is the original replaced. Whatever fails is told, with status 2, and
//! leaves IN and OUT as they were. Through the safe wrapper in aveluafi.rs. examples/run builds and runs it; compact.c does the same in C and prints the
//! same text.

#[allow(dead_code)]
mod aveluafi;
use aveluafi::{judge, next_record, shares, Refusal, Share, Verdict, MOST_RECORD, RECORD_HEAD};
use std::fs::{remove_file, rename, File, OpenOptions};
use std::io::{self, Read, Seek, Write};
use std::os::unix::fs::{MetadataExt, OpenOptionsExt};
use std::path::{Path, PathBuf};
use std::process::ExitCode;

/// A failure in words: what failed, and why.
fn at<'a>(path: &'a Path) -> impl Fn(io::Error) -> String + 'a {
    move |why| format!("{}: {}", path.display(), why)
}

/// Compaction strips dirty padding quietly: so it is looked for first.
fn judged(data: &[u8]) -> Result<(), String> {
    let mut start = 0;
    while let Some(r) = next_record(data, start).map_err(|refusal| refusal.to_string())?.record {
        if judge(r.packet, false) == Ok(Verdict::Dirty) {
            return Err(format!("the record at {} has dirty padding: ask what its bytes are before they are stripped", r.place));
        }
        start = r.place + RECORD_HEAD + r.packet.len();
    }
    Ok(())
}

/// Goes through the shares of a capture, and has something done with each and its bytes.
fn each_share(data: &[u8], budget: usize, mut done: impl FnMut(Share, &[u8]) -> Result<(), String>) -> Result<(), String> {
    let (mut buffer, mut start) = (vec![0; budget], 0);
    let mut nights = shares(data, 0, &mut buffer);
    while let Some(night) = nights.next_share() {
        let (share, bytes) = night.map_err(|refusal| match (refusal, next_record(data, start).map(|next| next.record)) {
            (Refusal::OverBudget, Ok(Some(r))) => {
                format!("the record at {} is longer than the budget of {} bytes: give more, {} is enough for any", r.place, budget, MOST_RECORD)
            }
            _ => refusal.to_string(),
        })?;
        done(share, bytes)?;
        start = share.resume;
    }
    Ok(())
}

/// Fills the new file, reads it back, and gives it its name.
fn fill(data: &[u8], budget: usize, mut file: File, part: &Path, out: &Path) -> Result<(), String> {
    let told = |why| format!("standard output: {why}");
    let mut text = io::stdout().lock();
    let (mut count, mut all) = (0, Share { resume: 0, records: 0, written: 0, reclaimed: 0, passed: 0 });
    each_share(data, budget, |s, bytes| {
        file.write_all(bytes).map_err(at(part))?;
        count += 1;
        all.records += s.records;
        all.written += s.written;
        all.reclaimed += s.reclaimed;
        all.passed += s.passed;
        let Share { resume, records, written, reclaimed, passed } = s;
        writeln!(text, "share {count}: records {records}, written {written}, reclaimed {reclaimed}, passed {passed}, resume {resume}").map_err(told)
    })?;
    file.sync_all().map_err(at(part))?;

    // the same shares once more, held against what is read back; nothing stands behind the last
    file.rewind().map_err(at(part))?;
    let other = || format!("{}: not read back as it was written", part.display());
    let (mut again, mut back) = (vec![0; budget], vec![0; budget]);
    for night in shares(data, 0, &mut again) {
        let (share, bytes) = night.map_err(|refusal| refusal.to_string())?;
        file.read_exact(&mut back[..share.written]).map_err(at(part))?;
        if back[..share.written] != bytes {
            return Err(other());
        }
    }
    if file.read(&mut [0]).map_err(at(part))? != 0 {
        return Err(other());
    }

    let Share { records, written, reclaimed, passed, .. } = all;
    writeln!(text, "in all: records {records}, written {written}, reclaimed {reclaimed}, passed {passed}, of {} bytes", data.len()).map_err(told)?;
    text.flush().map_err(told)?;
    rename(part, out).map_err(at(out))
}

fn compacted(input: &Path, out: &Path, budget: usize) -> Result<(), String> {
    let mut data = Vec::new();
    let mut file = File::open(input).map_err(at(input))?;
    file.read_to_end(&mut data).map_err(at(input))?;
    let mode = file.metadata().map_err(at(input))?.mode() & 0o777;
    judged(&data)?;

    let parent = out.parent().filter(|path| *path != Path::new("")).unwrap_or(Path::new("."));
    let folder = File::open(parent).map_err(at(parent))?;
    // a new file that no more people can read than IN; if there is one, another run is making it, or was killed: then remove it
    let mut part = out.as_os_str().to_owned();
    part.push(".part");
    let part = PathBuf::from(part);
    let made = OpenOptions::new().read(true).write(true).create_new(true).mode(mode).open(&part).map_err(at(&part))?;
    // a compacted capture is never longer, so a budget above its length is as good as its length
    if let Err(why) = fill(&data, budget.min(data.len()), made, &part, out) {
        let _ = remove_file(&part);
        return Err(why);
    }
    let old = |why| format!("{}: {why}; {} is whole and compacted, but after a power cut it may be the old one", parent.display(), out.display());
    folder.sync_all().map_err(old)
}

fn main() -> ExitCode {
    let words: Vec<_> = std::env::args_os().skip(1).map(PathBuf::from).collect();
    let budget = words.get(2).and_then(|word| word.to_str()).and_then(|word| word.parse().ok());
    let done = match (&words[..], budget) {
        _ if aveluafi::version() != aveluafi::VERSION => {
            Err(format!("the archive is of version {}, the wrapper of {}", aveluafi::version(), aveluafi::VERSION))
        }
        ([input, out, _], Some(budget)) => compacted(input, out, budget),
        _ => Err("give IN, OUT and BUDGET, a number of bytes".to_string()),
    };
    if let Err(why) = done {
        let _ = writeln!(io::stderr(), "compact: {why}");
        return ExitCode::from(2);
    }
    ExitCode::SUCCESS
}
