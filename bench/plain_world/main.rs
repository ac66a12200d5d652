//! A world of replicas in plain Rust, without a proof: what bench/world.py compares the program with. It reads a run file of one
//! crontab in UTC, of whose fields only minutes and hours are given, and of the commands round, campaign, stop and restart; any
//! other ends it. It writes the report, and to standard error how many turns there were. Replicas take the steps that
//! docs/SCRIPTS.md tells, write letters and records as docs/WIRE.md has them, and all turns and letters are kept.
mod disk;
mod replica;
mod run;
mod table;
mod wire;
mod world;

use std::io::{self, Read, Write};

use run::{Run, basic_stamp};
use world::World;

/// Writes the report of a world.
fn report(world: &World, out: &mut impl Write) -> io::Result<()> {
    let (run, jobs) = (&world.run, world.run.dues.len());
    let mut counts = vec![[0; 2]; jobs];
    for ((job, _), held) in &world.held {
        counts[*job as usize][held.launched as usize] += 1;
    }
    write!(out, "cron report 1\n{}\nreplicas {}\njobs {jobs}\n", run.window, run.members)?;
    for (job, [voided, launched]) in counts.iter().enumerate() {
        writeln!(out, "job {}:{} launched {launched} void {voided}", run.label, job + 1)?;
    }
    for ((job, at), held) in &world.held {
        let kind = if held.launched { "launch" } else { "void" };
        writeln!(out, "{kind} {}:{}@{}", run.label, job + 1, basic_stamp(*at))?;
    }
    writeln!(out, "end")
}

fn main() -> io::Result<()> {
    let mut text = String::new();
    io::stdin().read_to_string(&mut text)?;
    let mut world = World::new(Run::read(&text));
    world.play();
    report(&world, &mut io::BufWriter::new(io::stdout().lock()))?;
    eprintln!("{}", world.turns.len());
    Ok(())
}
