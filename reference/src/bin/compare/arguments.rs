//! The arguments of the command.

use std::env;
use std::path::PathBuf;

pub const USAGE: &str = "\
usage: compare --quote PATH [--calls PATH] [--seed N] [--cases N] [--sort NAME [--case N]]
       compare --show --sort NAME --case N [--seed N]
--quote, --calls   the built programs
--seed             what the random cases come from; 1 if left out
--cases            how many random cases for each program; 10000 if left out
--sort, --case     this sort, this case alone
--show             prints the case's input
";

/// How a command begins that runs the driver: in its folder, which the programs' paths start from.
const DRIVER: &str = "(cd reference && cargo run --release --bin compare --";

pub struct Arguments {
    pub quote: Option<PathBuf>,
    pub calls: Option<PathBuf>,
    pub seed: u64,
    pub cases: usize,
    pub case: Option<usize>,
    pub show: bool,
    sort: Option<String>,
}

impl Arguments {
    /// Nothing if they are not of the form.
    pub fn read() -> Option<Self> {
        let mut arguments = Arguments {
            quote: None,
            calls: None,
            seed: 1,
            cases: 10_000,
            case: None,
            show: false,
            sort: None,
        };
        let mut words = env::args().skip(1);
        while let Some(word) = words.next() {
            if word == "--show" {
                arguments.show = true;
                continue;
            }
            let value = words.next()?;
            match word.as_str() {
                "--quote" => arguments.quote = Some(PathBuf::from(value)),
                "--calls" => arguments.calls = Some(PathBuf::from(value)),
                "--seed" => arguments.seed = value.parse().ok()?,
                "--cases" => arguments.cases = value.parse().ok()?,
                "--sort" => arguments.sort = Some(value),
                "--case" => arguments.case = Some(value.parse().ok()?),
                _ => return None,
            }
        }
        let one_case = arguments.sort.is_some() || arguments.case.is_none();
        let something = arguments.quote.is_some() || arguments.calls.is_some();
        let enough = if arguments.show {
            arguments.sort.is_some() && arguments.case.is_some()
        } else {
            one_case && something
        };
        enough.then_some(arguments)
    }

    pub fn wants_sort(&self, name: &str) -> bool {
        self.sort.as_ref().is_none_or(|sort| sort == name)
    }

    /// The command that tries a case again, from the top of the repository.
    pub fn to_repeat(&self, sort: &str, case: usize) -> String {
        let mut command = String::from(DRIVER);
        for (word, path) in [("--quote", &self.quote), ("--calls", &self.calls)] {
            if let Some(path) = path {
                command += &format!(" {word} {}", path.display());
            }
        }
        command + &self.case_words(sort, case) + ")"
    }

    /// The command that prints a case's input.
    pub fn to_show(&self, sort: &str, case: usize) -> String {
        format!("{DRIVER} --show{})", self.case_words(sort, case))
    }

    fn case_words(&self, sort: &str, case: usize) -> String {
        format!(" --seed {} --sort {sort} --case {case}", self.seed)
    }
}
