//! The commands, their use and their help.

/// What the tool can be asked for.
#[derive(Clone, Copy, Debug, PartialEq, Eq)]
pub enum Command {
    Verdict,
    Serial,
    Moves,
    Draw,
    Equal,
    Explain,
    Line,
}

/// How a command is called, and what it does.
struct Entry {
    name: &'static str,
    operands: &'static str,
    summary: &'static str,
    more: &'static str,
}

impl Command {
    const ALL: [Command; 7] = [
        Command::Verdict,
        Command::Serial,
        Command::Moves,
        Command::Draw,
        Command::Equal,
        Command::Explain,
        Command::Line,
    ];

    /// The command of a name.
    pub fn of_name(name: &[u8]) -> Option<Command> {
        let named = |command: &Command| command.entry().name.as_bytes() == name;
        Command::ALL.into_iter().find(named)
    }

    /// `NAME OPERANDS`.
    fn call(self) -> String {
        format!("{} {}", self.entry().name, self.entry().operands)
    }

    /// The error of words other than the command's use.
    pub fn bad_use(self) -> String {
        format!("use: tracetool {}", self.call())
    }

    /// The help of one command.
    pub fn help(self) -> String {
        format!("usage: tracetool {}\n{}", self.call(), self.entry().more)
    }

    fn entry(self) -> Entry {
        match self {
            Command::Verdict => Entry {
                name: "verdict",
                operands: "RECORDING.. [--guards LIST]",
                summary: "the verdict line",
                more: "\
The verdict line: 32 digits, of which the first two are the kind. Of several recordings each has its file's name before it.
Exit status: 0 reducible; 1 a violation; 2 refused; 3 error; of several recordings the highest.
",
            },
            Command::Serial => Entry {
                name: "serial",
                operands: "RECORDING [--guards LIST]",
                summary: "the serial order as lines",
                more: "\
The serial order as a recording: each block's frames together, the blocks by the place of their commit.
Exit status: 0 written; 2 refused, as where the recording is not reducible or a block is open at the end; 3 error.
",
            },
            Command::Moves => Entry {
                name: "moves",
                operands: "RECORDING [--guards LIST]",
                summary: "how far each frame moves to its place in the serial order",
                more: "\
For each frame, in recorded order, its place in the serial order less its place in the recording, and the frame.
Exit status: 0 written; 2 refused, as where the recording is not reducible or a block is open at the end; 3 error.
",
            },
            Command::Draw => Entry {
                name: "draw",
                operands: "RECORDING [--guards LIST] [--from N] [--to M]",
                summary: "the recording, or its lines N to M, as a picture (SVG)",
                more: "\
The recording, or its lines N to M, as a picture (SVG): lanes, blocks, commits, locks held, a violation, the serial order.
Exit status: 0 written; 2 refused; 3 error.
",
            },
            Command::Equal => Entry {
                name: "equal",
                operands: "LEFT RIGHT",
                summary: "equal, or not equal",
                more: "\
Whether exchanges of independent neighbours turn one recording into the other.
Exit status: 0 equal; 1 not equal; 2 refused; 3 error.
",
            },
            Command::Explain => Entry {
                name: "explain",
                operands: "RECORDING.. [--guards LIST]",
                summary: "the answer in words",
                more: "\
The verdict in words: the block, its commit, the line that goes wrong, why, and what to mend.
Exit status: 0 reducible; 1 a violation; 2 refused; 3 error; of several recordings the highest.
",
            },
            Command::Line => Entry {
                name: "line",
                operands: "LINE",
                summary: "a kept verdict line in words",
                more: "\
A kept verdict line in words, given as a word; - reads a log of them from standard input.
Exit status: 0 reducible; 1 a violation; 2 refused, or no verdict line; 3 error; of several lines the highest.
",
            },
        }
    }
}

/// The help of the tool.
pub fn all() -> String {
    let mut text = String::new();
    let commands = Command::ALL.map(|command| (command.call(), command.entry().summary));
    let others = [("help", "this list"), ("--version", "the version")];
    let others = others.map(|(word, summary)| (word.to_owned(), summary));
    for (number, (call, summary)) in commands.into_iter().chain(others).enumerate() {
        let start = if number == 0 { "usage:" } else { "" };
        text += &format!("{start:6} tracetool {call:53}{summary}\n");
    }
    text + "\
Guards are inferred without --guards, and declared with it. A file - is standard input. COMMAND --help says more of a command.
Exit status: 0 reducible, equal or written; 1 a violation, or not equal; 2 refused; 3 error.
"
}

/// The version.
pub fn version() -> String {
    format!("tracetool {}\n", include_str!("../../VERSION").trim())
}

/// The names of the commands.
fn names() -> Vec<&'static str> {
    let commands = Command::ALL.into_iter().map(|command| command.entry().name);
    commands.chain(["help"]).collect()
}

/// The line that names the commands.
pub fn commands() -> String {
    format!("commands: {}\n", names().join(", "))
}

/// The command's name that is nearest to a word: 2 changes at most, and fewer than it has bytes.
pub fn near(word: &[u8]) -> Option<&'static str> {
    let changes = |name: &&str| distance(word, name.as_bytes());
    let nearest = names().into_iter().min_by_key(changes)?;
    (changes(&nearest) <= 2 && changes(&nearest) < word.len()).then_some(nearest)
}

/// How many letters have to be inserted, left out or replaced to make one word of the other.
fn distance(left: &[u8], right: &[u8]) -> usize {
    // The distances of what was seen of the left word to each beginning of the right one.
    let mut row: Vec<usize> = (0..=right.len()).collect();
    for (seen, letter) in left.iter().enumerate() {
        let mut next = vec![seen + 1];
        for (other, pair) in right.iter().zip(row.windows(2)) {
            let &[diagonal, above] = pair else { continue };
            let before = next.last().copied().unwrap_or(above);
            let replaced = diagonal + usize::from(letter != other);
            next.push(replaced.min(above + 1).min(before + 1));
        }
        row = next;
    }
    row.last().copied().unwrap_or(left.len())
}
