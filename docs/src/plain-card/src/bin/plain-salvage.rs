//! Salvages a damaged list of parts by the plain functions:
//! `plain-salvage SETUP MEMBER <damaged >list 2>report`. SETUP is a file.

use std::error::Error;
use std::io::{self, Read, Write};
use std::process::ExitCode;

use plain_card::part::{inventory, Part};
use plain_card::salvage::{salvage, Salvaged};
use plain_card::setups;

fn main() -> ExitCode {
    match run() {
        Ok(()) => ExitCode::SUCCESS,
        Err(error) => {
            eprintln!("plain-salvage: {error}");
            ExitCode::FAILURE
        }
    }
}

fn run() -> Result<(), Box<dyn Error>> {
    let arguments: Vec<String> = std::env::args().skip(1).collect();
    let [file, member] = &arguments[..] else { return Err("takes SETUP MEMBER".into()) };
    let setup = setups::read(&std::fs::read(file)?).map_err(|_| "the setup is refused")?;
    let member = member.parse()?;
    let mut damaged = vec![];
    io::stdin().read_to_end(&mut damaged)?;
    let salvaged = salvage(&setup, member, &damaged).ok_or("refused")?;
    io::stdout().write_all(&salvaged.list)?;
    report(&salvaged, setup.queues_of(member).unwrap_or(0));
    Ok(())
}

fn report(salvaged: &Salvaged, queues: u8) {
    for (part, kept) in inventory(queues).zip(&salvaged.kept) {
        eprintln!("{}: {}", name(part), if *kept { "kept" } else { "filled" });
    }
    let causes = ["unknown", "copy of a kept part", "wrong length", "wrong value"];
    for (cause, count) in causes.iter().zip(salvaged.dropped) {
        eprintln!("dropped, {cause}: {count}");
    }
    eprintln!("bytes left over: {}", salvaged.left);
}

fn name(part: Part) -> String {
    match part {
        Part::DeviceFeatures => "device features".into(),
        Part::DriverFeatures => "driver features".into(),
        Part::PciCommon(_) => format!("PCI common field at {}", part.selector()[0]),
        Part::DeviceStatus => "device status".into(),
        Part::Queue(index) => format!("queue {index}"),
        Part::QueueNotify(index) => format!("queue notify {index}"),
    }
}
