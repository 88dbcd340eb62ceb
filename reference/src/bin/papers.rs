//! `papers DIRECTORY` writes the timed papers there, NAME.card and NAME.slip, and prints how many calls of each sort each has.

use std::collections::BTreeMap;
use std::path::Path;

use reference::page::{Run, Seen};
use reference::papers::papers;

const CALLS: [&str; 9] = ["tick", "enter", "propose", "echo", "finish", "commit", "deliver", "forge", "seal"];

fn main() {
    let Some(directory) = std::env::args().nth(1) else {
        eprintln!("usage: papers DIRECTORY");
        std::process::exit(2);
    };
    std::fs::create_dir_all(&directory).expect("the directory can be made");
    for paper in papers() {
        let file = format!("{}.{}", paper.name, paper.sort.name());
        std::fs::write(Path::new(&directory).join(&file), &paper.text).expect("the paper can be written");
        let mut sorts: BTreeMap<u8, usize> = BTreeMap::new();
        let run = Run::of(paper.sort, None, &paper.text, &mut |seen| {
            if let Seen::Call(_, call, Ok(())) = seen {
                *sorts.entry(call.frame()[0]).or_default() += 1;
            }
        });
        let done = run.hall.is_some_and(|hall| hall.all_done());
        print!("{file}: {} bytes, {} calls, {} accepted{}:", paper.text.len(), run.calls, run.accepted, if done { ", all done" } else { "" });
        for (i, name) in CALLS.iter().enumerate() {
            print!(" {name} {}", sorts.get(&(0x10 + i as u8)).unwrap_or(&0));
        }
        println!();
    }
}
