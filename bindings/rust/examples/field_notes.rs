//! Field notes as a tree: parses them, prints their outline, corrects one angle, and shows that no other line moved.
//!
//! usage: field_notes NOTES FOLDER [POINT ANGLE]
//!
//! Writes FOLDER/sheet and FOLDER/text, the two files that the program `list` reads. The first angle to POINT is corrected to
//! ANGLE; by default that of iron pin IP1 to 132-05-45.

mod notes;

use std::{env, error::Error, fs, path::Path, process::ExitCode};

use notes::Kind;
use notes_tree::{GreenNode, GreenToken, Store, SyntaxNode, SyntaxPath, SyntaxToken, WalkEvent};

fn main() -> ExitCode {
    let words: Vec<String> = env::args().skip(1).collect();
    let words: Vec<&str> = words.iter().map(String::as_str).collect();
    let done = match words[..] {
        [notes, folder] => run(notes, folder, "IP1", "132-05-45"),
        [notes, folder, point, angle] => run(notes, folder, point, angle),
        _ => Err("usage: field_notes NOTES FOLDER [POINT ANGLE]".into()),
    };
    match done {
        Ok(()) => ExitCode::SUCCESS,
        Err(error) => {
            eprintln!("field_notes: {error}");
            ExitCode::FAILURE
        }
    }
}

fn run(notes: &str, folder: &str, point: &str, angle: &str) -> Result<(), Box<dyn Error>> {
    let notes = fs::read_to_string(notes).map_err(|error| format!("{notes}: {error}"))?;
    let builder = notes::parse(&notes);
    let sheet = builder.sheet()?;
    fs::write(Path::new(folder).join("sheet"), sheet.to_bytes())?;
    fs::write(Path::new(folder).join("text"), sheet.text())?;

    let mut store = Store::new();
    let job = builder.finish(&mut store)?;
    assert_eq!(SyntaxNode::new_root(&store, job)?.text(), notes.as_str(), "every byte is kept");
    println!("{} events, {} bytes of text, {} records\n", sheet.events(), notes.len(), store.records());
    outline(&SyntaxNode::new_root(&store, job)?)?;

    let Some(path) = angle_to(&SyntaxNode::new_root(&store, job)?, point) else {
        println!("\nno angle to {point}");
        return Ok(());
    };
    let records = store.records();
    let number = GreenToken::new(&mut store, Kind::Number.into(), angle)?;
    let corrected = path.replace_with(&mut store, number)?;
    println!("\nthe angle to {point} becomes {angle}: {} new records\n", store.records() - records);
    show_lines(&store, job, corrected)?;
    show_tokens(&store, job, corrected, &path)
}

/// Each line by the kind of its node.
fn outline(job: &SyntaxNode) -> Result<(), Box<dyn Error>> {
    let mut walk = job.preorder();
    let mut indent = 0;
    while let Some(event) = walk.next() {
        let WalkEvent::Enter(node) = event else {
            indent -= 2;
            continue;
        };
        let kind = Kind::of(node.kind());
        let text = node.text().to_string();
        match kind {
            Kind::Job => println!("{}", kind.name()),
            // They are part of a setup's line.
            Kind::Target | Kind::Reading => {}
            _ => println!("{:indent$}{:<6} {}", "", kind.name(), text.lines().next().unwrap_or_default()),
        }
        indent += 2;
        if kind == Kind::Sight {
            walk.skip_subtree()?;
        }
    }
    Ok(())
}

/// The path of the number of the first angle to a point.
fn angle_to(job: &SyntaxNode, point: &str) -> Option<SyntaxPath> {
    let is_keyword = |node: &SyntaxNode, word: &str| node.first_token().is_some_and(|token| token.text() == word);
    let is_to_point = |sight: &SyntaxNode| {
        let target = sight.children().find(|child| Kind::of(child.kind()) == Kind::Target);
        target.and_then(|target| target.last_token()).is_some_and(|token| token.text() == point)
    };
    let sights = job.descendants().filter(|node| Kind::of(node.kind()) == Kind::Sight && is_to_point(node));
    let mut readings = sights.flat_map(|sight| sight.children());
    let angle = readings.find(|node| Kind::of(node.kind()) == Kind::Reading && is_keyword(node, "ANG"))?;
    Some(angle.last_token()?.path())
}

/// The lines that differ, and how many do not.
fn show_lines(store: &Store, job: GreenNode, corrected: GreenNode) -> Result<(), Box<dyn Error>> {
    let text = |green| SyntaxNode::new_root(store, green).map(|root| root.text().to_string());
    let (before, after) = (text(job)?, text(corrected)?);
    let lines: Vec<(&str, &str)> = before.lines().zip(after.lines()).collect();
    for (number, (before, after)) in lines.iter().enumerate().filter(|(_, (before, after))| before != after) {
        println!("line {:>3} was {before}\n         is  {after}", number + 1);
    }
    let alike = lines.iter().filter(|(before, after)| before == after).count();
    println!("{alike} of {} lines are as they were", before.lines().count());
    Ok(())
}

/// Every token but the corrected one has its kind, text and child indexes; those after it have moved by the difference.
fn show_tokens(store: &Store, job: GreenNode, corrected: GreenNode, path: &SyntaxPath) -> Result<(), Box<dyn Error>> {
    let range = |root| path.in_tree(root).element(store).map(|element| element.text_range());
    let (old, new) = (range(job)?, range(corrected)?);
    let moved = i64::from(new.end()) - i64::from(old.end());
    let tokens = |root| -> Result<Vec<SyntaxToken>, notes_tree::Refusal> {
        Ok(SyntaxNode::new_root(store, root)?.descendants_with_tokens().filter_map(|it| it.into_token()).collect())
    };
    let (mut before, mut after) = (0, 0);
    for (one, other) in tokens(job)?.iter().zip(&tokens(corrected)?) {
        assert_eq!(one.path().indexes(), other.path().indexes());
        if one.path().indexes() == path.indexes() {
            continue;
        }
        assert_eq!((one.kind(), one.text()), (other.kind(), other.text()));
        let shift = i64::from(other.text_range().start()) - i64::from(one.text_range().start());
        let is_before = one.text_range().end() <= old.start();
        assert_eq!(shift, if is_before { 0 } else { moved });
        *(if is_before { &mut before } else { &mut after }) += 1;
    }
    println!("{before} tokens before it stand where they stood, {after} after it moved by {moved}");
    Ok(())
}
