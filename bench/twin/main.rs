//! What `hnc run` is measured against: the same lines and the same answers, by serde_json and a hash map.
//!
//! It creates namespaces and objects of the kinds whose members are kept as they came, and prints them again. The texts that it answers are all
//! that it keeps. It checks nothing, keeps no rows, and knows no rules.
use serde_json::{json, Map, Value};
use std::collections::HashMap;
use std::io::{self, BufRead, BufReader, Write};

/// The size of the pieces in which the script is read.
const PIECE: usize = 65_536;

/// The texts of the objects, by their paths.
struct Store {
    texts: HashMap<String, String>,
    version: u64,
}

impl Store {
    /// Keeps the object of a POST, and gives its text.
    fn create(&mut self, target: &str, body: &str) -> &str {
        let mut object: Map<String, Value> =
            serde_json::from_str(body).expect("a body is an object");
        let given = object.remove("metadata").expect("a body has metadata");
        self.version += 1;
        let metadata = metadata(given, target, self.version);
        let path = format!(
            "{target}/{}",
            metadata["name"].as_str().expect("a name is a text")
        );
        object.insert("metadata".to_owned(), Value::Object(metadata));
        if target.ends_with("/namespaces") {
            object.insert("status".to_owned(), json!({"phase": "Active"}));
        }
        let text = serde_json::to_string(&object).expect("a map of texts is printed");
        self.texts.entry(path).or_insert(text)
    }
}

/// The metadata of an object that is stored: of what is given, its name, its labels and its annotations.
fn metadata(given: Value, target: &str, version: u64) -> Map<String, Value> {
    let Value::Object(mut given) = given else {
        panic!("metadata is an object");
    };
    let mut kept = Map::new();
    for member in ["annotations", "labels", "name"] {
        if let Some(value) = given.remove(member) {
            if value.as_object().map_or(true, |pairs| !pairs.is_empty()) {
                kept.insert(member.to_owned(), value);
            }
        }
    }
    if let Some((_, rest)) = target.split_once("/namespaces/") {
        let ns = rest.split('/').next().unwrap_or_default();
        kept.insert("namespace".to_owned(), Value::from(ns));
    }
    kept.insert(
        "resourceVersion".to_owned(),
        Value::from(version.to_string()),
    );
    kept
}

fn main() -> io::Result<()> {
    let mut script = BufReader::with_capacity(PIECE, io::stdin().lock());
    let mut answers = io::stdout().lock();
    let mut store = Store {
        texts: HashMap::new(),
        version: 0,
    };
    let mut line = String::new();
    let mut answer = String::new();
    while script.read_line(&mut line)? > 0 {
        let mut words = line.trim_end().splitn(3, ' ');
        let (method, target) = (words.next(), words.next().expect("a line has a target"));
        let (code, text) = match method {
            Some("POST") => (
                "201 ",
                store.create(target, words.next().expect("a POST has a body")),
            ),
            Some("GET") => (
                "200 ",
                store
                    .texts
                    .get(target)
                    .expect("what is read is there")
                    .as_str(),
            ),
            _ => panic!("a line is a POST or a GET"),
        };
        answer.clear();
        answer.extend([code, text, "\n"]);
        answers.write_all(answer.as_bytes())?;
        line.clear();
    }
    Ok(())
}
