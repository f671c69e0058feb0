//! The programs of the crate in bindings/rust beside the proved ones, with random words and inputs:
//! programs PROVED CRATE SEED COUNT, where PROVED and CRATE are folders with both programs. All that
//! they write and their statuses are the same.
mod cases;
use cases::Random;
use std::io::Write;
use std::process::{Command, Output, Stdio};

/// Words of formatread, right and wrong.
const READ_WORDS: &[&str] = &[
    "format", "asm", "diagnostic", "diagnostic-named", "--literal", "--args", "2,w", "0", "65536",
    "1,a,b", "1,,a", "formats", "", "--help",
];

/// Words of formatlint, right and wrong. A word in capitals is a path in the folder of the runs.
const LINT_WORDS: &[&str] = &[
    "--literal", "--literal", "--literal", "--text", "--mode", "format", "asm", "asmm", "--mode=",
    "--mode=diagnostic", "--mode=formt", "--text=x", "--fix", "--tokens", "--tokns", "--all",
    "--list", "--args", "--args=2,w", "2,w", "--color", "always", "--color=never", "--color=alway",
    "--width=40", "--width", "9", "--width=x",
    "--version", "--help", "-h", "-V", "-x", "-hV", "-qx", "--", "-", "--zzzz", "---", "--=a", "é",
    "FILE", "GONE", "", "--exclude", "sub", "--exclude=a.rs", "--stdin-path=b.rs", "--edition",
    "2018", "--edition=2021", "--edition=2020", "--macro", "say:0", "--macro=say:1", "--macro=é:0",
    "--message-format", "short", "--message-format=json", "--message-format=github", "--stats", "-q",
    "--message-format=sarif", "--quiet", "--list-ids", "--explain", "missing-name", "--explain=a",
    "--format", "json", "--format=json", "--format=text", "--format=xml",
];

/// Words of formatlint with which it reads files.
const FILE_WORDS: &[&str] = &[
    "FOLDER", "FOLDER", "FOLDER/a.rs", "FOLDER/sub", "FOLDER/none.rs", "FOLDER/not-text.rs", "-",
    "FOLDER/link.rs", "FOLDER/linked", "FOLDER/linked/c.rs", "FOLDER/target", ".", "sub/../a.rs",
    "--stats", "--quiet", "--message-format=short", "--message-format=json", "--edition=2018",
    "--message-format=github", "--message-format=sarif", "--exclude=sub", "--exclude=a.rs",
    "--macro=say:0", "--macro=say:1", "--stdin-path=b.rs", "--width=24", "--width=24",
];

/// Words of formatlint with which it reads one string.
const STRING_WORDS: &[&str] = &[
    "--all", "--all", "--fix", "--tokens", "--tokens", "--color=always", "--list", "--args=2,w",
    "--format=json", "--mode=asm", "--mode=diagnostic", "--mode=diagnostic-named",
];

/// Parts of inputs.
const PARTS: &[&str] = &[
    "\"", "\"{}\"", "\"{a}\"", "{", "}", "{}", "{a?}", "{r#a}", "{:?#}", "{0:>1$}", "\\n", "\\x41",
    "\\u{e9}", "\\q", "r#\"", "\"#", "é", "日", "\t", "\n", " ", "\u{feff}", "\u{7}", "a", "#",
];

/// Parts of files.
const FILE_PARTS: &[&str] = &[
    "println!(\"{}\");", "println!(\"{} {x}\", 1, 2);\n", "format!(\"{a?}\")", "write!(w, r#\"{\"#)\r\n",
    "panic!(x);", "panic!(\"{}\");", "say!(a, \"{0}{9}\", b)", "say!(\"{\")", "info!(a = 1, \"{:q}\", c);",
    "assert!(a, \"{}\", a = 1, b);", "format!(\"é日 {:.*} \\u{e9}}\", 1)", "print!(concat!(\"a\"), 1)",
    "macro_rules! format { () => {} }", "print!(\"\\q\")", "$crate::print!(\"}\")", "// print!(\"}\")\n",
    "print!(\"{}\", $($a),*)", "print!(\"\\\r\n   }\")", "{", "}", "(", ")", "\"", "/*", "\u{feff}", "\n",
    "print!(\"{}\", x = 1);", "format!(\"a {r#b} {c?}\")", "print!(\"\", a);\n", "print!(\"{a:?#}\")",
    "fn f() ", "/* } */", "'a'", "a < b, c > d", "\t", "\r\n", "format!(\"{\u{7}}\")",
    "print!(\"a {\n    }\");\n", "print!(\"a longer text in front, {\n\n and one after it {a\", b);\n",
    "\nprint!(\"日 {\n\u{3000}\u{3000}\u{3000}\u{3000}\u{3000}\u{3000}\u{3000}\u{3000}}\");\n",
];

/// Some of the words, most often few. FOLDER is a path.
fn words(random: &mut Random, all: &[&str], folder: &str) -> Vec<String> {
    let word = |it: &str| match it {
        "FILE" => format!("{folder}/literal"),
        "GONE" => format!("{folder}/gone"),
        it => it.replace("FOLDER", folder),
    };
    (0..random.below(5)).map(|_| word(random.of(all))).collect()
}

/// A file: some parts, one after the other.
fn file(random: &mut Random) -> String {
    (0..random.below(12)).map(|_| random.of(FILE_PARTS)).collect()
}

/// Makes the folders and the links of a folder. All names are UTF-8: the proved program takes no others.
fn make_folder(folder: &str) {
    for name in ["sub", ".hidden", "target", "folder.rs"] {
        std::fs::create_dir_all(format!("{folder}/{name}")).expect("a folder");
    }
    for (name, to) in [("link.rs", "a.rs"), ("linked", "sub"), ("sub/up", ".."), ("lost.rs", "none")] {
        std::os::unix::fs::symlink(to, format!("{folder}/{name}")).expect("a link");
    }
    std::fs::write(format!("{folder}/literal"), " \"{a?}\"\n").expect("a file");
}

/// Writes the files of a folder anew.
fn furnish(random: &mut Random, folder: &str) {
    for name in ["a.rs", "sub/c.rs", ".hidden/d.rs", "target/e.rs", "folder.rs/g.rs", "f.txt"] {
        std::fs::write(format!("{folder}/{name}"), file(random)).expect("a file");
    }
    for name in ["Cargo.toml", "sub/Cargo.toml"] {
        let edition = ["= \"2015\"", "= \"2018\"", "= \"2021\"", ".workspace = true"][random.below(4)];
        let manifest = format!("[workspace.package]\nedition = \"2018\"\n[package]\nedition{edition}\n");
        std::fs::write(format!("{folder}/{name}"), manifest).expect("a file");
    }
    let text = [file(random).as_bytes(), b"\xff".as_slice()].concat();
    std::fs::write(format!("{folder}/not-text.rs"), text).expect("a file");
}

/// An input of less than so many parts: often a literal, sometimes none, and sometimes no text.
fn input(random: &mut Random, most: usize) -> Vec<u8> {
    let text: String = (0..random.below(most)).map(|_| random.of(PARTS)).collect();
    let mut bytes = match random.below(4) {
        0 => text.into_bytes(),
        1 => format!("r\"{}\"\n", text.replace('"', "")).into_bytes(),
        _ => format!("\"{}\"", text.replace('"', "")).into_bytes(),
    };
    if random.one_in(30) {
        bytes.push(0xff);
    }
    bytes
}

fn run(program: &str, folder: &str, words: &[String], input: &[u8]) -> Output {
    let mut command = Command::new(program);
    command.args(words).env_clear().current_dir(folder);
    let streams = command.stdin(Stdio::piped()).stdout(Stdio::piped()).stderr(Stdio::piped());
    let mut child = streams.spawn().expect("the program");
    // (one that is wrong in its words reads nothing)
    let _ = child.stdin.take().unwrap().write_all(input);
    child.wait_with_output().unwrap()
}

fn main() {
    let given: Vec<String> = std::env::args().skip(1).collect();
    let [proved, extracted, seed, count] = &given[..] else {
        panic!("programs PROVED CRATE SEED COUNT")
    };
    let mut random = Random::new(seed.parse().expect("a seed"));
    let count: usize = count.parse().expect("a count");
    let folder = std::env::temp_dir().join(format!("dephungo-{}", std::process::id()));
    let folder = folder.display().to_string();
    make_folder(&folder);
    let mut statuses = [0; 256];
    for at in 0..count {
        let ways = [
            ("formatlint", LINT_WORDS),
            ("formatlint", FILE_WORDS),
            ("formatread", READ_WORDS),
            ("formatlint", STRING_WORDS),
        ];
        let (name, all) = ways[at % 4];
        furnish(&mut random, &folder);
        let mut words = words(&mut random, all, &folder);
        let input = match at % 4 {
            1 => file(&mut random).into_bytes(),
            3 => {
                words.push(["--literal", "--literal", "--text"][random.below(3)].into());
                input(&mut random, 30)
            }
            _ => input(&mut random, 9),
        };
        let one = run(&format!("{proved}/{name}"), &folder, &words, &input);
        let other = run(&format!("{extracted}/{name}"), &folder, &words, &input);
        assert_eq!(one, other, "{name} {words:?} over {:?}", String::from_utf8_lossy(&input));
        statuses[one.status.code().unwrap_or(255) as usize & 255] += 1;
    }
    std::fs::remove_dir_all(&folder).expect("a folder");
    let told = statuses.iter().enumerate().filter(|(_, count)| **count > 0);
    let told: Vec<String> = told.map(|(status, count)| format!("{count} with {status}")).collect();
    println!("{count} runs, {}: all agree", told.join(", "));
}
