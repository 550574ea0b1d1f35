//! Unified diffs: reading one, and applying it strictly (every context line must match, no offset, no fuzz).

use std::fmt;

/// One file's changes in a patch.
#[derive(Debug, PartialEq)]
pub struct FilePatch {
    /// The file's name without its folder.
    pub file: String,
    pub hunks: Vec<Hunk>,
}

#[derive(Debug, PartialEq)]
pub struct Hunk {
    /// The hunk's first line in the unpatched file, counted from 1.
    start: usize,
    old_count: usize,
    new_count: usize,
    lines: Vec<Line>,
}

#[derive(Debug, PartialEq)]
enum Line {
    Kept(String),
    Removed(String),
    Added(String),
}

/// What is wrong with a patch, or where it doesn't fit.
#[derive(Debug, PartialEq)]
pub struct Mismatch {
    pub file: String,
    /// Counted from 1; 0 stands for the patch's head.
    pub hunk: usize,
    pub reason: String,
}

impl fmt::Display for Mismatch {
    fn fmt(&self, f: &mut fmt::Formatter<'_>) -> fmt::Result {
        write!(f, "file {}, hunk {}: {}", self.file, self.hunk, self.reason)
    }
}

/// Reads a patch: a head that says why it is there, then each file's hunks.
pub fn parse(text: &str) -> Result<Vec<FilePatch>, Mismatch> {
    let lines: Vec<&str> = text.lines().collect();
    let first = lines.iter().position(|line| line.starts_with("--- "));
    let Some(first) = first else {
        return Err(mismatch("", 0, "no line begins with `--- `"));
    };
    if lines[..first].iter().all(|line| line.trim().is_empty()) {
        return Err(mismatch("", 0, "no head line says why the patch is there"));
    }
    let mut files = Vec::new();
    let mut rest = &lines[first..];
    while !rest.is_empty() {
        let (file, remaining) = parse_file(rest)?;
        files.push(file);
        rest = remaining;
    }
    Ok(files)
}

fn parse_file<'a, 'b>(lines: &'a [&'b str]) -> Result<(FilePatch, &'a [&'b str]), Mismatch> {
    let path = lines[0].strip_prefix("--- ");
    let path = path.ok_or_else(|| mismatch("", 0, "a file's part must begin with `--- `"))?;
    let file = path.rsplit('/').next().unwrap_or(path).to_string();
    if !lines.get(1).is_some_and(|line| line.starts_with("+++ ")) {
        return Err(mismatch(&file, 0, "`+++ ` must follow `--- `"));
    }
    let mut hunks = Vec::new();
    let mut rest = &lines[2..];
    while rest.first().is_some_and(|line| line.starts_with("@@ ")) {
        let number = hunks.len() + 1;
        let (hunk, remaining) =
            parse_hunk(rest).map_err(|reason| mismatch(&file, number, &reason))?;
        hunks.push(hunk);
        rest = remaining;
    }
    if hunks.is_empty() {
        return Err(mismatch(&file, 0, "no hunk"));
    }
    Ok((FilePatch { file, hunks }, rest))
}

fn parse_hunk<'a, 'b>(lines: &'a [&'b str]) -> Result<(Hunk, &'a [&'b str]), String> {
    let (start, old_count, new_count) =
        parse_ranges(lines[0]).ok_or_else(|| format!("bad hunk head `{}`", lines[0]))?;
    let mut hunk = Hunk {
        start,
        old_count,
        new_count,
        lines: Vec::new(),
    };
    let mut rest = &lines[1..];
    while hunk.old_lines().count() < old_count || hunk.new_lines().count() < new_count {
        let line = rest.first().ok_or("the patch ends inside the hunk")?;
        hunk.lines.push(parse_line(line)?);
        rest = &rest[1..];
    }
    if hunk.old_lines().count() != old_count || hunk.new_lines().count() != new_count {
        return Err("the counts in the hunk's head don't fit its lines".to_string());
    }
    Ok((hunk, rest))
}

/// `@@ -START,COUNT +START,COUNT @@`, where a count of 1 may be left out.
fn parse_ranges(head: &str) -> Option<(usize, usize, usize)> {
    let mut fields = head.strip_prefix("@@ -")?.split(' ');
    let (start, old_count) = parse_range(fields.next()?)?;
    let (_, new_count) = parse_range(fields.next()?.strip_prefix('+')?)?;
    (fields.next()? == "@@").then_some((start, old_count, new_count))
}

fn parse_range(range: &str) -> Option<(usize, usize)> {
    match range.split_once(',') {
        Some((start, count)) => Some((start.parse().ok()?, count.parse().ok()?)),
        None => Some((range.parse().ok()?, 1)),
    }
}

fn parse_line(line: &str) -> Result<Line, String> {
    let text = |mark: char| line.strip_prefix(mark).map(str::to_string);
    if line.is_empty() {
        return Ok(Line::Kept(String::new()));
    }
    text(' ')
        .map(Line::Kept)
        .or_else(|| text('-').map(Line::Removed))
        .or_else(|| text('+').map(Line::Added))
        .ok_or_else(|| format!("a hunk's line begins with neither space, - nor +: `{line}`"))
}

impl Hunk {
    fn old_lines(&self) -> impl Iterator<Item = &str> {
        self.lines.iter().filter_map(|line| match line {
            Line::Kept(text) | Line::Removed(text) => Some(text.as_str()),
            Line::Added(_) => None,
        })
    }

    fn new_lines(&self) -> impl Iterator<Item = &str> {
        self.lines.iter().filter_map(|line| match line {
            Line::Kept(text) | Line::Added(text) => Some(text.as_str()),
            Line::Removed(_) => None,
        })
    }
}

/// The patched text of a file, or the first hunk that doesn't fit.
pub fn apply(patch: &FilePatch, text: &str) -> Result<String, Mismatch> {
    let lines: Vec<&str> = text.lines().collect();
    let mut patched: Vec<&str> = Vec::new();
    let mut done = 0;
    for (index, hunk) in patch.hunks.iter().enumerate() {
        let wrong = |reason: &str| mismatch(&patch.file, index + 1, reason);
        // A hunk that only adds names the line before it.
        let start = if hunk.old_count == 0 {
            hunk.start
        } else {
            hunk.start.wrapping_sub(1)
        };
        if start < done || start + hunk.old_count > lines.len() {
            return Err(wrong(
                "it lies outside the file or before the hunk above it",
            ));
        }
        for (offset, expected) in hunk.old_lines().enumerate() {
            let found = lines[start + offset];
            if found != expected {
                let at = start + offset + 1;
                return Err(wrong(&format!("line {at} is `{found}`, not `{expected}`")));
            }
        }
        patched.extend(&lines[done..start]);
        patched.extend(hunk.new_lines());
        done = start + hunk.old_count;
    }
    patched.extend(&lines[done..]);
    Ok(patched.join("\n") + "\n")
}

fn mismatch(file: &str, hunk: usize, reason: &str) -> Mismatch {
    Mismatch {
        file: file.to_string(),
        hunk,
        reason: reason.to_string(),
    }
}
