//! Answers each line of standard input by the Rust crate, as `config_value` does. With the argument `paths` it answers
//! each call of `interpolate`, as `path_answers` does. The status is 0 if every line is `ok`, 1 if some line is not,
//! and 2 after an error; for calls it is 0.

use std::io::{self, BufRead, BufReader, BufWriter, Write};
use std::process::ExitCode;
use upstream::lines::{self, Answer};
use upstream::paths;

const BUFFER: usize = 1 << 16;

fn main() -> ExitCode {
    let arguments: Vec<String> = std::env::args().skip(1).collect();
    let all_accepted = match arguments.as_slice() {
        [] => each_line(line_answer),
        [word] if word == "paths" => each_line(path_answer),
        _ => Err(io::Error::other("usage: upstream [paths]")),
    };
    match all_accepted {
        Ok(all_accepted) => ExitCode::from(u8::from(!all_accepted)),
        Err(error) => {
            eprintln!("{error}");
            ExitCode::from(2)
        }
    }
}

/// Answers every line, and returns whether each was accepted. Answers are flushed before it waits for more input.
fn each_line(answer: fn(&[u8], &mut dyn Write) -> io::Result<bool>) -> io::Result<bool> {
    let mut input = BufReader::with_capacity(BUFFER, io::stdin().lock());
    let mut output = BufWriter::with_capacity(BUFFER, io::stdout().lock());
    let mut line = Vec::new();
    let mut all_accepted = true;
    while input.read_until(b'\n', &mut line)? > 0 {
        let text = line.strip_suffix(b"\n").unwrap_or(&line);
        all_accepted &= answer(text, &mut output)?;
        output.write_all(b"\n")?;
        line.clear();
        if input.buffer().is_empty() {
            output.flush()?;
        }
    }
    output.flush()?;
    Ok(all_accepted)
}

fn line_answer(line: &[u8], output: &mut dyn Write) -> io::Result<bool> {
    let answer = lines::answer(line);
    write!(output, "{answer}")?;
    Ok(matches!(answer, Answer::Accepted(_)))
}

fn path_answer(line: &[u8], output: &mut dyn Write) -> io::Result<bool> {
    let call = str::from_utf8(line).map_err(io::Error::other)?;
    let answer = paths::answer(call).ok_or_else(|| io::Error::other(format!("no call: {call}")))?;
    output.write_all(answer.as_bytes())?;
    Ok(true)
}
