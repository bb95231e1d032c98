//! judge lists SEED CRATES     writes the fixed lists into the folder of crates
//! judge solve                 answers the problem on standard input
//! judge card FILE             answers a card file
//! judge survey SEED COUNT     draws problems and counts their endings

use std::io::{read_to_string, stdin};
use std::path::Path;
use std::process::ExitCode;

use judge::{card, lists, survey, text};

fn main() -> ExitCode {
    let arguments: Vec<String> = std::env::args().skip(1).collect();
    let arguments: Vec<&str> = arguments.iter().map(String::as_str).collect();
    match run(&arguments) {
        Ok(()) => ExitCode::SUCCESS,
        Err(why) => {
            eprintln!("judge: {why}");
            ExitCode::FAILURE
        }
    }
}

fn run(arguments: &[&str]) -> Result<(), String> {
    match arguments {
        ["lists", seed, crates] => {
            lists::make(number(seed)?, Path::new(crates)).map_err(|e| e.to_string())
        }
        ["solve"] => {
            let problem = text::read(&read_to_string(stdin()).map_err(|e| e.to_string())?)?;
            print!("{}", text::write(&problem, &problem.solve()));
            Ok(())
        }
        ["card", file] => {
            let bytes = std::fs::read(file).map_err(|e| e.to_string())?;
            print!("{}", card::told(&bytes).text());
            Ok(())
        }
        ["survey", seed, count] => {
            survey::survey(number(seed)?, number(count)? as usize);
            Ok(())
        }
        _ => Err("lists SEED CRATES | solve | card FILE | survey SEED COUNT".into()),
    }
}

fn number(word: &str) -> Result<u64, String> {
    word.parse().map_err(|_| format!("not a number: {word}"))
}
