//! The command `cablefinch`: whole outputs on the samples and around them, what is on a terminal, and that
//! `list` and `why` say what the proved programs say.

use cablefinch::packet::{self, Mode, Packet, PacketFlags, PacketType, Part, Parts};
use cablefinch::{Guid, crc64};
use std::collections::BTreeMap;
use std::env;
use std::fmt::Write as _;
use std::fs;
use std::io::{Read, Write};
use std::path::{Path, PathBuf};
use std::process::{Command, Output, Stdio};
use std::thread;
#[cfg(target_os = "linux")]
use std::time::Duration;

const COMMAND: &str = env!("CARGO_BIN_EXE_cablefinch");

/// The most bytes that the proved programs take.
const SHORT: usize = 65_536;

fn repository() -> PathBuf {
    Path::new(env!("CARGO_MANIFEST_DIR")).join("..")
}

/// A program in the repository's folder, where a shell finds the command by its name.
fn program(name: &str) -> Command {
    let folder = Path::new(COMMAND)
        .parent()
        .expect("the command is in a folder");
    let mut folders = vec![folder.to_path_buf()];
    folders.extend(env::split_paths(&env::var_os("PATH").unwrap_or_default()));
    let mut program = Command::new(name);
    program
        .current_dir(repository())
        .env(
            "PATH",
            env::join_paths(folders).expect("folders can be joined"),
        )
        .env("TERM", "xterm")
        .env_remove("NO_COLOR");
    program
}

/// Says something that is shown though the test passes, as what `eprintln` writes is not.
fn say(message: &str) {
    let _ = writeln!(std::io::stderr(), "command: {message}");
}

/// Whether a program is here; where it is not, a message says what was left out.
fn has(name: &str, left_out: &str) -> bool {
    let here = program("sh")
        .args(["-c", &format!("command -v {name}")])
        .output()
        .is_ok_and(|output| output.status.success());
    if !here {
        say(&format!("no {name} here: {left_out} left out"));
    }
    here
}

#[derive(Debug, PartialEq)]
struct Ran {
    status: i32,
    results: String,
    words: String,
}

fn output(mut program: Command, input: &[u8]) -> Output {
    let mut child = program
        .stdin(Stdio::piped())
        .stdout(Stdio::piped())
        .stderr(Stdio::piped())
        .spawn()
        .expect("the program runs");
    let mut pipe = child.stdin.take().expect("there is a pipe");
    let input = input.to_vec();
    // It may end before it has read all.
    let writer = thread::spawn(move || drop(pipe.write_all(&input)));
    let output = child.wait_with_output().expect("it ends");
    writer.join().expect("nothing panics");
    output
}

/// What ran, its results as a text, which those of `rowset` are not.
fn ran(program: Command, input: &[u8]) -> Ran {
    let output = output(program, input);
    Ran {
        status: output.status.code().expect("it ends by itself"),
        results: String::from_utf8_lossy(&output.stdout).into_owned(),
        words: String::from_utf8(output.stderr).expect("words are UTF-8"),
    }
}

fn asked_with(words: &[&str], input: &[u8]) -> Ran {
    let mut command = program(COMMAND);
    command.args(words);
    ran(command, input)
}

fn asked(words: &[&str]) -> Ran {
    asked_with(words, b"")
}

fn sample(name: &str) -> Vec<u8> {
    fs::read(repository().join("samples").join(name)).expect("the sample is there")
}

fn sample_text(name: &str) -> String {
    String::from_utf8(sample(name)).expect("the sample is a text")
}

/// What is wanted: the status, the results, and all words about them.
fn check(ran: Ran, status: i32, results: &str, words: &str) {
    let wanted = Ran {
        status,
        results: results.to_string(),
        words: words.to_string(),
    };
    assert_eq!(ran, wanted);
}

#[test]
fn samples_are_listed_as_their_texts_say() {
    let cases = [
        ("good", 0, ""),
        ("terms", 0, ""),
        (
            "cut",
            1,
            "cablefinch: FILE: the packet at byte 139 is not whole\n    126 bytes of it are there, and at \
             least 3 are missing: fetch the file again, to its end\n",
        ),
        (
            "damaged",
            1,
            "cablefinch: FILE: the packet at byte 165 is refused by 7\n    part 1 checksum mismatch: header \
             says 0x7d347c8e5532db79, bytes give 0x4ac37097cae25790\n    its bytes were damaged, and nothing \
             behind it is read: fetch the file again\n",
        ),
    ];
    let mut every = (String::new(), String::new());
    for (name, status, words) in cases {
        let file = format!("samples/{name}.bin");
        let results = sample_text(&format!("{name}.txt"));
        let told = words.replace("FILE", &file);
        check(asked(&["list", &file]), status, &results, &told);
        let piped = words.replace("FILE", "standard input");
        let bytes = sample(&format!("{name}.bin"));
        check(asked_with(&["list", "-"], &bytes), status, &results, &piped);
        let _ = write!(every.0, "== {file}\n{results}");
        every.1.push_str(&told);
    }
    let files = cases.map(|(name, ..)| format!("samples/{name}.bin"));
    let mut line = vec!["list"];
    line.extend(files.iter().map(String::as_str));
    check(asked(&line), 1, &every.0, &every.1);
}

#[test]
fn rows_are_shown_and_null_rows_are_rows() {
    let results = "\
packet 0 0 1 1-0-0-f15 1
part 0 152 guarded
rowset 6
row 0 0=\"by-catch\" 1=\"Beifang\"
row 1 null
row 2 null
row 3 0=\"quota\" 1=\"Quote\"
row 4 empty
row 5 0=\"trawler\" 1=\"Trawler\"
packet 208 0 1 2-0-0-de7 3
part 0 null
part 1 8 bare
rowset 0
part 2 72 guarded
rowset 3
row 0 null
row 1 0=\"gum line\" 1=\"Zahnfleischrand\"
row 2 null
end 368
";
    check(
        asked(&["list", "--rows", "samples/terms.bin"]),
        0,
        results,
        "",
    );
    let results = "\
packet 0 0 1 7-c4f1a2b3-3e90384-10384 2
part 0 6 guarded
no rowset 9
part 1 21 guarded
no rowset 10
packet 95 1 0 4-3-2-1 0
";
    let listed = asked(&["list", "samples/good.bin", "--rows"]);
    assert!(listed.results.starts_with(results), "{}", listed.results);
}

/// A value of each kind, and what a terminal would obey.
#[test]
fn values_are_shown_as_what_they_are() {
    use cablefinch::wire::{UnversionedValue, Value, encode_rowset};
    let mut row: Vec<UnversionedValue<'_>> = [
        Value::Null,
        Value::Int64(-5),
        Value::Uint64(u64::MAX),
        Value::Double(1.5),
        Value::Double(f64::NAN),
        Value::Boolean(true),
        Value::String("Zähne \"\\\n\u{1b}[31m\u{202e}".as_bytes()),
        Value::String(b"\xff"),
        Value::Any(b"{\x01\x02a=\x05}"),
        Value::Composite(b"#"),
        Value::Any(b"{\x01"),
    ]
    .into_iter()
    .zip(0..)
    .map(|(value, id)| UnversionedValue::new(id, value))
    .collect();
    row[1].aggregate = true;
    let rowset = encode_rowset(&[Some(row)]).expect("the row can be written");
    let bytes = message(&[Some(&rowset)]);
    let results = format!(
        "packet 0 0 0 4-3-2-1 1\npart 0 {} guarded\nrowset 1\n\
         row 0 0=# 1=!-5 2=18446744073709551615u 3=1.5 4=NaN 5=%true \
         6=\"Zähne \\\"\\\\\\n\\u{{1b}}[31m\\u{{202e}}\" 7=\"\\xff\" 8=any({{\"a\" = %true}}) 9=composite(#) \
         10=any?(\"{{\\u{{1}}\")\nend {}\n",
        rowset.len(),
        bytes.len()
    );
    check(
        asked_with(&["list", "--rows", "-"], &bytes),
        0,
        &results,
        "",
    );
}

/// What `cablefinch rowset` makes of a text, which must be right.
fn rowset_of(words: &[&str], text: &[u8]) -> Vec<u8> {
    let mut command = program(COMMAND);
    command.args(words);
    let output = output(command, text);
    assert_eq!(String::from_utf8_lossy(&output.stderr), "");
    assert_eq!(output.status.code(), Some(0));
    output.stdout
}

#[test]
fn rowsets_as_text_and_back() {
    let (text, bytes) = (sample_text("terms.tsv"), sample("terms.rowset"));
    check(asked(&["text", "samples/terms.rowset"]), 0, &text, "");
    check(asked_with(&["text", "-"], &bytes), 0, &text, "");
    assert_eq!(rowset_of(&["rowset", "samples/terms.tsv"], b""), bytes);
    assert_eq!(rowset_of(&["rowset", "-"], text.as_bytes()), bytes);
    // What a spreadsheet leaves at the ends of lines.
    let saved = sample("saved.tsv");
    assert_eq!(rowset_of(&["rowset", "--trim", "-"], &saved), bytes);
    let windows = String::from_utf8(saved).expect("it is a text");
    let windows = windows.replace('\n', "\t\t\r\n");
    let trimmed = rowset_of(&["rowset", "--trim", "-"], windows.as_bytes());
    assert_eq!(trimmed, bytes);
    // No rows, which is no bytes of text.
    assert_eq!(rowset_of(&["rowset", "-"], b""), [0; 8]);
    check(asked_with(&["text", "-"], &[0; 8]), 0, "", "");
}

/// A spreadsheet loses some rows and cells without a word, so the command has some.
#[test]
fn what_a_spreadsheet_would_lose_is_told() {
    let told = |text: &[u8], lost: &str| {
        let bytes = rowset_of(&["rowset", "-"], text);
        let words =
            format!("cablefinch: standard input: it is written, but not for a spreadsheet\n{lost}");
        let text = String::from_utf8_lossy(text);
        check(asked_with(&["text", "-"], &bytes), 0, &text, &words);
    };
    let empty = "    its last line is empty, and a spreadsheet saves no empty lines at the end\n";
    told(b"0:n\n\n", empty);
    let long = [&b"#\n0:n\t1:s"[..], &b"a".repeat(32_765), b"\n\n"].concat();
    told(
        &long,
        &format!(
            "    line 2 has a value of 32768 characters, and a cell has 32767 in some spreadsheets, 65535 in \
             others: it is cut there\n{empty}"
        ),
    );
    told(
        &b"#\n".repeat(1_048_577),
        "    it has 1048577 lines, and a sheet has 1048576: the others are lost there\n",
    );
}

#[test]
fn bytes_that_are_no_rowset_have_no_text() {
    check(
        asked(&["text", "samples/good.bin"]),
        1,
        "",
        "cablefinch: samples/good.bin: it is no rowset, refused by 10\n    rowset declares 281476996361551 rows, \
         more than the 5242880 allowed\n    is it the bytes of one part?\n",
    );
}

#[test]
fn a_refused_text_names_line_column_and_cell_with_a_caret() {
    check(
        asked(&["rowset", "samples/broken.tsv"]),
        1,
        "",
        "cablefinch: samples/broken.tsv: it is no rowset's text, refused by 19 at byte 31\n    line 3, column 7, \
         cell A3: a space; write it as %20\n    0:sgum line\\t1:sZ\\xc3\\xa4hne\\n\n          ^\n",
    );
    let plain = &["rowset", "-"][..];
    let refused = |text: &[u8], place: usize, told: &str| {
        let told = format!(
            "cablefinch: standard input: it is no rowset's text, refused by 19 at byte {place}\n    {told}^\n"
        );
        check(asked_with(plain, text), 1, "", &told);
    };
    let trim = "    --trim takes away tabs and carriage returns at the ends of lines, as spreadsheets leave them\n";
    let tab = "a tab; tabs stand between two values alone: take this one away";
    refused(
        &sample("saved.tsv"),
        24,
        &format!("line 2, column 2, cell A2: {tab}\n{trim}    #\\t\\n\n     "),
    );
    refused(
        b"0:n\t1:n\r\n",
        7,
        &format!(
            "line 1, column 8, cell B1: a carriage return; save it with line feeds alone at the ends of lines\n\
             {trim}    0:n\\t1:n\\r\\n\n{:12}",
            ""
        ),
    );
    // A tab too many between values is not the spreadsheet's.
    refused(
        b"0:n\t\t1:n\n",
        4,
        &format!(
            "line 1, column 5, cell B1: {tab}\n    0:n\\t\\t1:n\\n\n{:9}",
            ""
        ),
    );
    // Of a long line what stands around the place.
    let long = [b"0:s".to_vec(), b"a".repeat(50), b"\x1b[31m\n".to_vec()].concat();
    refused(
        &long,
        53,
        &format!(
            "line 1, column 54, cell A1: the byte 0x1b; write it as %1B\n    .. {}\\x1b[31m\\n\n{:27}",
            "a".repeat(20),
            ""
        ),
    );
    // Trimmed, it has other bytes, and the same lines and columns.
    check(
        asked_with(&["rowset", "--trim", "-"], b"#\t\t\n\r\n0:n\t0:s1\t2"),
        1,
        "",
        &format!(
            "cablefinch: standard input: it is no rowset's text, refused by 19\n    line 3, column 11, cell C3: its \
             end; every line ends in a line feed, the last one too\n    0:n\\t0:s1\\t2\n{:16}^\n",
            ""
        ),
    );
    let many = [b"#\n".to_vec(), b"0:n\t".repeat(1024), b"0".to_vec()].concat();
    check(
        asked_with(plain, &many),
        1,
        "",
        "cablefinch: standard input: it is no rowset, refused by 11\n    line 2: row 1 declares 1025 values, more than \
         the 1024 allowed; split the list\n",
    );
}

#[test]
fn plain_rowsets() {
    check(
        asked(&["plain", "samples/terms.rowset"]),
        0,
        "samples/terms.rowset: plain\n",
        "",
    );
    check(
        asked(&[
            "plain",
            "samples/loose.rowset",
            "samples/terms.rowset",
            "samples/good.bin",
        ]),
        1,
        "samples/loose.rowset: not plain\nsamples/terms.rowset: plain\nsamples/good.bin: not plain\n",
        "cablefinch: samples/loose.rowset: its rows are written with other bytes, first at byte 87\n    read it \
         and write it again before it is compared\n\
         cablefinch: samples/good.bin: it is no rowset, refused by 10\n    rowset declares 281476996361551 \
         rows, more than the 5242880 allowed\n    is it the bytes of one part?\n",
    );
}

#[test]
fn why_packets_and_rowsets_fail() {
    check(asked(&["why", "packet", "samples/good.bin"]), 0, "ok\n", "");
    let told = |kind: &str, input: &[u8], line: &str, words: &str| {
        let words = format!("cablefinch: standard input: the {kind} {words}\n");
        let results = format!("{line}\n");
        check(asked_with(&["why", kind, "-"], input), 1, &results, &words);
    };
    told(
        "packet",
        &sample("damaged.packet"),
        "refused 7 part-checksum 52 9021972904286542713 5387273376511448976",
        "is refused by 7\n    part-checksum at byte 52: found 9021972904286542713, wanted 5387273376511448976",
    );
    told(
        "packet",
        &sample("good.bin")[..35],
        "more fixed-header 36",
        "is not whole\n    fixed-header: 36 bytes are waited for, and 35 are there: fetch the file again, to its end",
    );
    told(
        "rowset",
        &sample("loose.rowset"),
        "not-plain padding 87 1 0",
        "is accepted, and not plain\n    padding at byte 87: found 1, wanted 0",
    );
    told(
        "rowset",
        &sample("good.bin"),
        "refused 10 row-count 0 281476996361551 5242880",
        "is refused by 10\n    row-count at byte 0: found 281476996361551, wanted 5242880",
    );
    let mut typed = sample("terms.rowset");
    typed[18] = 7;
    told(
        "rowset",
        &typed,
        "refused 14 type 18 7 2-6,16-18",
        "is refused by 14\n    type at byte 18: found 7, wanted 2-6,16-18",
    );
}

/// Where the proved program stops, the command goes on, under larger limits.
#[test]
fn longer_input_is_explained() {
    let large = message(&[Some(&vec![7; 3 << 20])]);
    let length = large.len();
    let told = |words: &[&str], input: &[u8]| {
        let mut line = vec!["why"];
        line.extend(words);
        line.push("-");
        let ran = asked_with(&line, input);
        (ran.status, ran.results)
    };
    let ok = (0, "ok\n".to_string());
    assert_eq!(told(&["packet"], &large), ok);
    assert_eq!(told(&["packet"], &[&large[..], b"and more"].concat()), ok);
    assert_eq!(
        told(&["packet"], &large[..length - 1]),
        (1, format!("more whole {length}\n"))
    );
    // As many bytes as the limit allows, and one fewer.
    let limit = length.to_string();
    assert_eq!(told(&["--max-bytes", &limit, "packet"], &large), ok);
    let limit = (length - 1).to_string();
    assert_eq!(
        told(&["--max-bytes", &limit, "packet"], &large),
        (1, format!("refused 8 whole 0 {length} {limit}\n"))
    );
    let many = message(&vec![None; 3_000]);
    assert_eq!(
        told(&["packet"], &many),
        (1, "refused 3 part-count 24 3000 2048\n".to_string())
    );
    assert_eq!(told(&["packet", "--max-parts=3000"], &many), ok);

    let mut rowset = 100_000_u64.to_le_bytes().to_vec();
    rowset.resize(8 + 8 * 100_000, 0xff);
    assert_eq!(told(&["rowset"], &rowset), ok);
    rowset.push(0);
    assert_eq!(
        told(&["rowset"], &rowset),
        (1, "refused 15 trailing-bytes 800008 1 0\n".to_string())
    );
}

#[test]
fn values_in_yson() {
    check(
        asked(&["yson", "samples/note.yson"]),
        0,
        "well formed, a map of 2 items\n",
        "",
    );
    check(
        asked(&["yson", "samples/broken.yson"]),
        1,
        "refused 14 20\n",
        "cablefinch: samples/broken.yson: not YSON: no token that may stand there is whole at byte 14\n    \
         {\\x01\\nlabel=\\x01\\x06cod\\x01\\x08page=\\x02\\x0e}\n                            ^\n",
    );
    check(asked_with(&["yson", "-"], b"#"), 0, "well formed\n", "");
    let told = |input: &[u8], results: &str, words: &str| {
        let before =
            "cablefinch: standard input: not YSON: no token that may stand there is whole at byte ";
        let words = format!("{before}{words}^\n");
        check(asked_with(&["yson", "-"], input), 1, results, &words);
    };
    told(b"", "refused 0 20\n", "0\n    it is empty\n    \n    ");
    told(
        b"[#",
        "refused 2 20\n",
        "2\n    it ends there: fetch it again, to its end\n    [#\n      ",
    );
    told(
        b"#\n",
        "refused 1 20\n",
        "1\n    a line's end stands behind the value: leave it away\n    #\\n\n     ",
    );
    told(
        b"{a=b}",
        "refused 1 20\n",
        "1\n    the binary form alone is read, and this looks like the text form\n    {a=b}\n     ",
    );
    let long = [b"[".to_vec(), b"#;".repeat(40), b"\xff".repeat(40)].concat();
    told(
        &long,
        "refused 81 20\n",
        &format!(
            "81\n    .. {}{} ..\n    {:23}",
            "#;".repeat(10),
            "\\xff".repeat(20),
            ""
        ),
    );
    let deep = asked_with(&["yson", "-"], &b"[".repeat(65));
    assert_eq!((deep.status, &*deep.results), (1, "refused 64 21\n"));
}

#[test]
fn error_messages_as_trees() {
    let tree = "\
error 1: Lookup failed
    host = \"rpc-proxy-7\"
    error 100: No such table
        path = \"//home/terms/fisheries\"
";
    check(asked(&["error", "samples/lookup.error"]), 0, tree, "");
    check(asked_with(&["error", "-"], b""), 0, "error 0\n", "");
    check(
        asked(&["error", "samples/cut.error"]),
        1,
        "refused 42 22\n",
        &format!(
            "cablefinch: samples/cut.error: not an error message: no field may stand so at byte 42\n    is it the \
             protobuf message alone, to its end?\n    .. \\x04host\\x12\\r\\x01\\x16rpc-proxy-7\"5\\x08d\\x12\\rNo \
             such table\\x1a ..\n{:40}^\n",
            ""
        ),
    );
    let deep = (0..16).fold(Vec::new(), |inner: Vec<u8>, _| {
        [&[0x22, inner.len() as u8], &inner[..]].concat()
    });
    let refused = asked_with(&["error", "-"], &deep);
    assert_eq!((refused.status, &*refused.results), (1, "refused 30 23\n"));
}

#[test]
fn guids_in_normal_form_or_a_caret() {
    check(asked(&["guid", "1-00-A-0000000f"]), 0, "1-0-a-f\n", "");
    check(
        asked(&["guid", "1-2-+3-4", "1-2-3-4"]),
        1,
        "1-2-3-4\n",
        "cablefinch: not a GUID: '+' at byte 4 is not a hex digit\n    1-2-+3-4\n        ^\n",
    );
    check(
        asked(&["guid", "--", "-1"]),
        1,
        "",
        "cablefinch: not a GUID: field 1 is empty at byte 0\n    -1\n    ^\n",
    );
    check(
        asked_with(&["guid", "-"], b"1-2-3-4\r\n0-0\nF-0-0-0\n"),
        1,
        "1-2-3-4\nf-0-0-0\n",
        "cablefinch: line 2: not a GUID: it ends at byte 3 with 2 of 4 fields\n    0-0\n       ^\n",
    );
}

#[test]
fn sums_and_joined_sums() {
    let whole = sample("good.bin");
    let (front, back) = whole.split_at(100);
    let [sum, first, second] =
        [&whole, front, back].map(|bytes| format!("{:016x}", crc64::checksum(bytes)));
    let line = format!("{sum} 360 samples/good.bin\n");
    check(asked(&["sum", "samples/good.bin"]), 0, &line, "");
    let lines = format!("{line}{second} 260 -\n");
    check(
        asked_with(&["sum", "samples/good.bin", "-"], back),
        0,
        &lines,
        "",
    );
    let joined = format!("{sum}\n");
    check(asked(&["join", &first, &second, "260"]), 0, &joined, "");
    let [first, second] = [first, second].map(|sum| format!("0x{sum}"));
    check(asked(&["join", &first, &second, "260"]), 0, &joined, "");
    // More than a piece, and no whole number of them.
    let long: Vec<u8> = (0..2_500_001u32).map(|index| (index % 251) as u8).collect();
    let line = format!("{:016x} 2500001 -\n", crc64::checksum(&long));
    check(asked_with(&["sum", "-"], &long), 0, &line, "");
}

#[test]
fn wrong_usage_says_what_to_write() {
    let cases: [(&[&str], &str); 18] = [
        (
            &[],
            "no word was given: `cablefinch --help` shows all words",
        ),
        (
            &["lst"],
            "there is no word `lst`: `cablefinch --help` shows all words",
        ),
        (
            &["--rows"],
            "there is no word `--rows`: `cablefinch --help` shows all words",
        ),
        (
            &["list"],
            "list: it wants FILE..; `-` is standard input; `cablefinch list --help` says more",
        ),
        (
            &["yson", "a", "b"],
            "yson: `b` is too much: it takes FILE; `cablefinch yson --help` says more",
        ),
        (
            &["man", "page"],
            "man: `page` is too much: it takes nothing; `cablefinch man --help` says more",
        ),
        (
            &["list", "--all", "x"],
            "list: there is no option `--all`; if it is no option, put `--` before it; `cablefinch list --help` \
             says more",
        ),
        (
            &["list", "--rows=yes", "x"],
            "list: `--rows` takes no value; `cablefinch list --help` says more",
        ),
        (
            &["list", "x", "--max-parts"],
            "list: `--max-parts` wants PARTS behind it; `cablefinch list --help` says more",
        ),
        (
            &["list", "--max-parts", "268435457", "x"],
            "--max-parts 268435457: give a decimal number of at most 268435456",
        ),
        (
            &["sum", "-", "-"],
            "sum: standard input can be read once; `cablefinch sum --help` says more",
        ),
        (
            &["why", "packet"],
            "why: it wants KIND FILE; `-` is standard input; `cablefinch why --help` says more",
        ),
        (
            &["why", "part", "x"],
            "why: KIND is `part`: give packet or rowset, and then the file",
        ),
        (
            &["why", "rowset", "x", "--max-bytes", "9"],
            "why: a rowset has no limits to set: leave the options away",
        ),
        (
            &["join", "+1", "2", "3"],
            "join: A is `+1`: give a checksum of 1 to 16 hex digits, as `cablefinch sum` prints it",
        ),
        (
            &["join", "1", "12345678123456780", "3"],
            "join: B is `12345678123456780`: give a checksum of 1 to 16 hex digits, as `cablefinch sum` prints it",
        ),
        (
            &["join", "1", "2", "-3"],
            "join: there is no option `-3`; if it is no option, put `--` before it; `cablefinch join --help` says \
             more",
        ),
        (
            &["completion", "\u{1b}sh"],
            "completion: there is none for \\u{1b}sh: give one of bash",
        ),
    ];
    for (words, message) in cases {
        check(asked(words), 2, "", &format!("cablefinch: {message}\n"));
    }
}

#[test]
fn a_file_that_cannot_be_read_does_not_hide_the_others() {
    let terms = sample_text("terms.txt");
    check(
        asked(&["list", "samples/none.bin", "samples/terms.bin", "samples"]),
        2,
        &format!("== samples/terms.bin\n{terms}"),
        "cablefinch: samples/none.bin: it cannot be opened: No such file or directory; look at its name and its \
         rights\ncablefinch: samples: it is a folder: give the files in it\n",
    );
}

/// The lines of help that name a word, by which the tests below know the table.
fn words() -> Vec<String> {
    let help = asked(&["--help"]);
    assert_eq!((help.status, &*help.words), (0, ""));
    let lines = help.results.lines();
    let names = lines.filter_map(|line| line.strip_prefix("  ")?.split(' ').next());
    let names: Vec<String> = names
        .filter(|name| name.starts_with(|first: char| first.is_ascii_lowercase()))
        .map(str::to_string)
        .collect();
    assert!(names.len() > 6 && names[0] == "list", "{names:?}");
    names
}

#[test]
fn every_word_has_help_examples_that_run_and_its_place_in_the_man_page() {
    let (man, completion) = (asked(&["man"]), asked(&["completion", "bash"]));
    for text in [asked(&["--help"]).results, asked(&["-h"]).results] {
        assert!(text.lines().all(|line| line.chars().count() < 80), "{text}");
    }
    for word in words() {
        let help = asked(&[&word, "--help"]);
        assert_eq!((help.status, &*help.words), (0, ""));
        let text = help.results;
        assert!(text.starts_with(&format!("cablefinch {word}: ")), "{text}");
        let usage = text.lines().find_map(|line| line.strip_prefix("usage: "));
        let usage = usage.expect("there is a usage line");
        assert!(usage.starts_with(&format!("cablefinch {word}")));
        let escaped = usage.replace('-', "\\-");
        assert!(
            man.results.contains(&format!("\n.SS {escaped}\n")),
            "{escaped}"
        );
        assert!(completion.results.contains(&format!("\n    {word}) ")));
        assert!(text.lines().all(|line| line.chars().count() < 80), "{text}");
        let examples: Vec<&str> = text
            .lines()
            .filter_map(|line| line.strip_prefix("    cablefinch "))
            .collect();
        assert!(!examples.is_empty());
        for example in examples {
            let words: Vec<&str> = example.split(' ').collect();
            assert_eq!(words[0], word);
            let ran = asked(&words);
            assert_eq!((ran.status, &*ran.words), (0, ""), "{example}");
            assert!(!ran.results.is_empty());
        }
    }
    let version = format!("cablefinch {}\n", env!("CARGO_PKG_VERSION"));
    check(asked(&["--version"]), 0, &version, "");
}

#[test]
fn bash_completes_words_options_and_files() {
    if !has("bash", "completion is") {
        return;
    }
    let completed = |words: &[&str]| {
        let line = words.join("' '");
        let script = format!(
            "source <(cablefinch completion bash) && COMP_WORDS=('{line}') COMP_CWORD={} && _cablefinch && \
             printf '%s\\n' \"${{COMPREPLY[@]}}\"",
            words.len() - 1
        );
        let mut bash = program("bash");
        bash.args(["--norc", "-c", &script]);
        let ran = ran(bash, b"");
        assert_eq!((ran.status, &*ran.words), (0, ""));
        ran.results
    };
    assert_eq!(completed(&["cablefinch", "l"]), "list\n");
    let every = completed(&["cablefinch", ""]);
    assert!(
        words()
            .iter()
            .all(|word| every.lines().any(|line| line == word))
    );
    assert_eq!(completed(&["cablefinch", "list", "--r"]), "--rows\n");
    assert_eq!(completed(&["cablefinch", "list", "--max-parts", ""]), "\n");
    let files = completed(&["cablefinch", "list", "samples/goo"]);
    let mut files: Vec<&str> = files.lines().collect();
    files.sort_unstable();
    assert_eq!(files, ["samples/good.bin", "samples/good.txt"]);
    assert_eq!(completed(&["cablefinch", "completion", ""]), "bash\n");
    assert_eq!(completed(&["cablefinch", "why", ""]), "packet\nrowset\n");
    assert_eq!(
        completed(&["cablefinch", "why", "rowset", "samples/terms.rowse"]),
        "samples/terms.rowset\n"
    );
    assert_eq!(completed(&["cablefinch", "guid", ""]), "\n");
}

#[test]
fn the_man_page_is_one() {
    if !has("groff", "the man page is") {
        return;
    }
    let mut groff = program("groff");
    groff.args(["-man", "-Tascii", "-ww"]);
    let page = ran(groff, asked(&["man"]).results.as_bytes());
    assert_eq!((page.status, &*page.words), (0, ""));
    for word in words() {
        assert!(page.results.contains(&format!("cablefinch {word}")));
    }
}

/// Each `$ ` line of a page's transcripts, run by a shell, prints what stands below it.
#[test]
fn the_transcripts_of_the_pages_are_true() {
    let mut shown = String::new();
    for page in ["README.md", "docs/COMMAND.md", "docs/TEXT.md"] {
        let text = fs::read_to_string(repository().join(page)).expect("the page is there");
        let blocks = text.split("```console\n").skip(1);
        for block in blocks {
            let block = block.split("```").next().unwrap_or_default();
            for entry in block.split("$ ").skip(1) {
                let (line, wanted) = entry.split_once('\n').expect("a line ends");
                let mut shell = program("sh");
                shell.args(["-c", &format!("exec 2>&1; {line}")]);
                let ran = ran(shell, b"");
                assert_eq!(ran.results, wanted, "{page}: {line}");
                shown.push_str(line);
                shown.push('\n');
            }
        }
    }
    for word in words() {
        assert!(
            shown.contains(&format!("cablefinch {word}")),
            "no transcript of {word}"
        );
    }
}

#[test]
fn a_reader_that_goes_away_ends_it_quietly() {
    let mut child = program(COMMAND)
        .args(["list", "-"])
        .stdin(Stdio::piped())
        .stdout(Stdio::piped())
        .stderr(Stdio::piped())
        .spawn()
        .expect("it runs");
    let mut pipe = child.stdin.take().expect("there is a pipe");
    let acks = sample("good.bin").repeat(20_000);
    let writer = thread::spawn(move || drop(pipe.write_all(&acks)));
    let mut results = child.stdout.take().expect("there is a pipe");
    let mut first = [0; 7];
    results.read_exact(&mut first).expect("there is a line");
    assert_eq!(&first, b"packet ");
    drop(results);
    let output = child.wait_with_output().expect("it ends");
    writer.join().expect("nothing panics");
    assert_eq!(output.status.code(), Some(141));
    assert_eq!(String::from_utf8_lossy(&output.stderr), "");
}

/// What a shell command shows on a terminal.
fn on_terminal(line: &str, variables: &[(&str, &str)]) -> String {
    let mut script = program("script");
    script.args(["-qec", line, "/dev/null"]);
    script.envs(variables.iter().copied());
    ran(script, b"").results.replace("\r\n", "\n")
}

#[test]
fn colours_are_for_terminals_that_want_them() {
    if !has("script", "what a terminal shows is") {
        return;
    }
    let line = "cablefinch list samples/cut.bin 2>/dev/null";
    let plain = sample_text("cut.txt");
    let coloured = plain.replace("more", "\x1b[33mmore\x1b[0m");
    assert_eq!(on_terminal(line, &[]), coloured);
    assert_eq!(on_terminal(line, &[("NO_COLOR", "1")]), plain);
    assert_eq!(on_terminal(line, &[("TERM", "dumb")]), plain);
    assert_eq!(on_terminal(line, &[("NO_COLOR", "")]), coloured);
    assert_eq!(on_terminal(&format!("{line} | cat"), &[]), plain);
    // The bytes of a rowset are for no terminal.
    assert_eq!(
        on_terminal("cablefinch rowset samples/terms.tsv", &[("NO_COLOR", "1")]),
        "cablefinch: rowset: its result is bytes and no text: write `> FILE` behind it\n"
    );
    assert_eq!(
        on_terminal("cablefinch guid 1-x", &[]),
        "\x1b[31mcablefinch:\x1b[0m not a GUID: 'x' at byte 2 is not a hex digit\n    1-x\n      \x1b[31m^\x1b[0m\n"
    );
}

#[test]
fn work_above_a_second_shows_its_progress_on_a_terminal() {
    if !has("script", "what a terminal shows is") {
        return;
    }
    let slow = "(cat samples/good.bin; sleep 1.2; cat samples/good.bin; sleep 0.3)";
    let shown = on_terminal(&format!("{slow} | cablefinch sum - > /dev/null"), &[]);
    let line = "\r\x1b[Kstandard input: 0 MiB";
    let rest = shown.trim_start_matches(line);
    assert!(rest != shown && rest == "\r\x1b[K", "{shown:?}");
    let shown = on_terminal(&format!("{slow} | cablefinch sum - | cat"), &[]);
    assert!(
        !shown.contains("MiB") && shown.ends_with(" 720 -\n"),
        "{shown:?}"
    );
    let shown = on_terminal("cablefinch sum samples/good.bin > /dev/null", &[]);
    assert_eq!(shown, "");
}

/// A message of some parts, sealed.
fn message(parts: &[Part<'_>]) -> Vec<u8> {
    of_type(PacketType::Message, parts)
}

fn of_type(packet_type: PacketType, parts: &[Part<'_>]) -> Vec<u8> {
    let packet = Packet {
        packet_type,
        flags: PacketFlags::NONE,
        id: Guid::from_parts([1, 2, 3, 4]),
        parts: Parts::from(parts),
    };
    let mut bytes = Vec::new();
    packet::encode(Mode::Archive, &packet, &mut bytes).expect("the packet can be written");
    bytes
}

/// Where the proved program stops, the command goes on, under larger limits.
#[test]
fn longer_input_is_listed() {
    let good = sample("good.bin");
    let once = sample_text("good.txt");
    let (lines, _) = once.rsplit_once("end").expect("it has an end");
    let times = 400;
    assert!(good.len() * times > SHORT);
    let mut wanted = String::new();
    for turn in 0..times {
        for line in lines.lines() {
            let fields: Vec<&str> = line.split(' ').collect();
            let _ = match fields[..] {
                ["packet", offset, ref rest @ ..] => {
                    let offset: usize = offset.parse().expect("an offset is a number");
                    writeln!(
                        wanted,
                        "packet {} {}",
                        turn * good.len() + offset,
                        rest.join(" ")
                    )
                }
                _ => writeln!(wanted, "{line}"),
            };
        }
    }
    let _ = writeln!(wanted, "end {}", times * good.len());
    check(
        asked_with(&["list", "-"], &good.repeat(times)),
        0,
        &wanted,
        "",
    );

    // A packet longer than a piece, and one of many parts.
    let large = vec![7; 3 << 20];
    let many = vec![None; 3_000];
    let bytes = [message(&[Some(&large)]), message(&many)].concat();
    let listed = asked_with(&["list", "-"], &bytes);
    let wanted = format!(
        "packet 0 0 0 4-3-2-1 1\npart 0 {} guarded\npacket {} 0 0 4-3-2-1 3000\npart 0 null\n",
        large.len(),
        large.len() + 56
    );
    assert!(listed.results.starts_with(&wanted));
    assert!(
        listed
            .results
            .ends_with(&format!("part 2999 null\nend {}\n", bytes.len()))
    );

    // The limits, and the options that set them.
    let many = message(&many);
    check(
        asked_with(&["list", "-"], &many),
        1,
        "refused 0 3\n",
        "cablefinch: standard input: the packet at byte 0 is refused by 3\n    packet declares 3000 parts, more \
         than are allowed\n    `--max-parts 3000` takes it\n",
    );
    let taken = asked_with(&["list", "--max-parts", "3000", "-"], &many);
    assert_eq!(taken.status, 0);
    let bytes = message(&[Some(&large)]);
    check(
        asked_with(&["list", "--max-bytes=1000000", "-"], &bytes),
        1,
        "refused 0 8\n",
        "cablefinch: standard input: the packet at byte 0 is refused by 8\n    packet is 3145784 bytes, more \
         than the 1000000 this connection accepts\n    `--max-bytes 3145784` takes it\n",
    );
    let cut = asked_with(&["list", "-"], &bytes[..bytes.len() - 5]);
    assert_eq!((cut.status, &*cut.results), (1, "more 0\n"));
    assert!(
        cut.words.contains("at least 5 are missing"),
        "{}",
        cut.words
    );
}

/// Many megabytes through little memory.
#[cfg(target_os = "linux")]
#[test]
fn memory_does_not_grow_with_the_input() {
    let mut child = program("sh")
        .args(["-c", "ulimit -v 40000 && exec cablefinch list -"])
        .stdin(Stdio::piped())
        .stdout(Stdio::piped())
        .spawn()
        .expect("it runs");
    let mut pipe = child.stdin.take().expect("there is a pipe");
    let packet = message(&[Some(&vec![7; 1_500_000])]);
    let (times, length) = (200, packet.len());
    let writer = thread::spawn(move || (0..times).try_for_each(|_| pipe.write_all(&packet)));
    let output = child.wait_with_output().expect("it ends");
    assert!(writer.join().expect("nothing panics").is_ok());
    let text = String::from_utf8_lossy(&output.stdout).into_owned();
    assert!(
        text.ends_with(&format!("end {}\n", times * length)),
        "{text}"
    );
}

/// Numbers that only look random, the same in every run.
struct Draw(u64);

impl Draw {
    fn below(&mut self, bound: usize) -> usize {
        self.0 ^= self.0 << 13;
        self.0 ^= self.0 >> 7;
        self.0 ^= self.0 << 17;
        (self.0 >> 11) as usize % bound
    }

    fn one_in(&mut self, count: usize) -> bool {
        self.below(count) == 0
    }

    fn bytes(&mut self, length: usize) -> Vec<u8> {
        (0..length).map(|_| self.below(256) as u8).collect()
    }

    /// A length, mostly short.
    fn length(&mut self) -> usize {
        match self.below(12) {
            0 => 0,
            1 => self.below(70_000),
            2 => self.below(3_000),
            _ => self.below(40),
        }
    }

    fn packet(&mut self) -> Vec<u8> {
        if self.one_in(12) {
            // With its headers of 56 bytes it is as long as the limit, or a byte off.
            let length = SHORT - 57 + self.below(3);
            return message(&[Some(&self.bytes(length))]);
        }
        let count = match self.below(12) {
            0 | 1 => 0,
            2 => 2_040 + self.below(20),
            3 => self.below(300),
            _ => 1 + self.below(5),
        };
        let many = count > 10;
        let parts: Vec<Option<Vec<u8>>> = (0..count)
            .map(|_| {
                (!self.one_in(4)).then(|| {
                    if many {
                        Vec::new()
                    } else {
                        Vec::from_iter(self.part())
                    }
                })
            })
            .collect();
        let parts: Vec<Part<'_>> = parts.iter().map(|part| part.as_deref()).collect();
        let types = [PacketType::Message, PacketType::Ack, PacketType::SslAck];
        let chosen = if count > 0 { 0 } else { self.below(3) };
        let mut bytes = of_type(types[chosen], &parts);
        let headers = bytes.len().min(36 + 12 * count + 8);
        if self.one_in(3) {
            // Without the checksums of headers and of some parts, so that what follows is looked at.
            bytes[28..36].fill(0);
            if chosen == 0 {
                bytes[headers - 8..headers].fill(0);
                for index in 0..count {
                    if self.one_in(2) {
                        let from = 36 + 4 * count + 8 * index;
                        bytes[from..from + 8].fill(0);
                    }
                }
            }
            self.edit(&mut bytes, count);
        }
        if self.one_in(8) {
            let at = self.below(headers.min(80));
            bytes[at] ^= 1 << self.below(8);
        }
        if self.one_in(16) {
            let at = self.below(bytes.len());
            bytes[at] ^= 1 << self.below(8);
        }
        bytes
    }

    fn part(&mut self) -> Vec<u8> {
        let length = self.length();
        self.bytes(length)
    }

    /// A word of a header set to something at an edge.
    fn edit(&mut self, bytes: &mut [u8], parts: usize) {
        let word = |bytes: &mut [u8], at: usize, word: u32| {
            bytes[at..at + 4].copy_from_slice(&word.to_le_bytes());
        };
        let sizes = [
            0,
            1,
            65_536,
            65_537,
            1 << 30,
            (1 << 30) + 1,
            u32::MAX - 1,
            u32::MAX,
        ];
        let counts = [0, 1, 2_047, 2_048, 2_049, 1 << 28, u32::MAX];
        match self.below(6) {
            0 => bytes[4] = self.below(4) as u8,
            1 => word(bytes, 24, counts[self.below(counts.len())]),
            2 | 3 if parts > 0 => {
                let at = 36 + 4 * self.below(parts);
                word(bytes, at, sizes[self.below(sizes.len())]);
            }
            _ => {}
        }
    }

    /// A packet, cut or with something behind it, of at most as many bytes as the proved program takes.
    fn front(&mut self) -> Vec<u8> {
        let mut bytes = self.packet();
        match self.below(4) {
            0 => {
                let cut = self.below(bytes.len().min(120) + 1);
                bytes.truncate(cut);
            }
            1 => bytes.truncate(bytes.len() - 1),
            2 => {
                let length = self.below(50);
                bytes.extend(self.bytes(length));
            }
            _ => {}
        }
        bytes.truncate(SHORT);
        bytes
    }

    /// A number that is right, or now and then another.
    fn or(&mut self, right: u64, wrong: u64) -> u64 {
        if self.one_in(40) { wrong } else { right }
    }

    /// A rowset, some of whose fields are wrong, of at most as many bytes as the proved program takes.
    fn rowset(&mut self) -> Vec<u8> {
        let rows = self.below(5);
        let count = self.or(rows as u64, 5_242_881);
        let mut bytes = count.to_le_bytes().to_vec();
        for _ in 0..rows {
            if self.one_in(5) {
                bytes.extend([0xff; 8]);
                continue;
            }
            let values = self.below(4);
            let count = self.or(values as u64, 1_025);
            bytes.extend(count.to_le_bytes());
            for _ in 0..values {
                self.value(&mut bytes);
            }
        }
        match self.below(6) {
            0 => {
                let cut = self.below(bytes.len() + 1);
                bytes.truncate(cut);
            }
            1 => bytes.push(0),
            _ => {}
        }
        bytes.truncate(SHORT);
        bytes
    }

    fn value(&mut self, bytes: &mut Vec<u8>) {
        const BOOLEAN: u64 = 6;
        let kinds = [2, 3, 4, 5, BOOLEAN, BOOLEAN, 16, 17, 18];
        let kind = kinds[self.below(kinds.len())];
        let blob = if kind < 16 { Vec::new() } else { self.part() };
        let wrong = if kind < 16 { 1 << 16 } else { 16_777_217 };
        let (kind, aggregate) = (self.or(kind, 7), self.below(2) as u64);
        let (aggregate, length) = (self.or(aggregate, 2), self.or(blob.len() as u64, wrong));
        bytes.extend([5, 0, kind as u8, aggregate as u8]);
        bytes.extend((length as u32).to_le_bytes());
        if (3..=BOOLEAN).contains(&kind) {
            let truth = self.below(2) as u64;
            bytes.extend(self.or(truth, 256).to_le_bytes());
        }
        bytes.extend(&blob);
        for _ in 0..blob.len().wrapping_neg() % 8 {
            let padding = self.or(0, 9);
            bytes.push(padding as u8);
        }
    }

    /// At most as many bytes as the proved program lists.
    fn input(&mut self) -> Vec<u8> {
        let mut bytes = Vec::new();
        for _ in 0..self.below(8) {
            bytes.extend(self.packet());
        }
        match self.below(8) {
            0 => {
                let cut = self.below(bytes.len() + 1);
                bytes.truncate(cut);
            }
            1 => {
                let length = self.below(50);
                bytes.extend(self.bytes(length));
            }
            2 => {
                let ack = of_type(PacketType::Ack, &[]);
                while bytes.len() < SHORT {
                    bytes.extend(&ack);
                }
            }
            _ => {}
        }
        bytes.truncate(SHORT - self.below(2));
        bytes
    }
}

/// What a proved program prints of an input, where it is at hand: named by a variable, or built in its crate's `out`.
/// `nothing` is what it says of no input.
fn proved(name: &str, nothing: &str) -> Option<impl Fn(&[u8]) -> String> {
    let line = match env::var(format!("CABLEFINCH_{}", name.to_ascii_uppercase())) {
        Ok(line) => line.split(' ').map(str::to_string).collect(),
        Err(_) => vec![
            repository()
                .join("crates")
                .join(name)
                .join("out")
                .join(name)
                .to_string_lossy()
                .into_owned(),
        ],
    };
    let works = Command::new(&line[0])
        .args(&line[1..])
        .stdin(Stdio::null())
        .output()
        .is_ok_and(|output| output.stdout == nothing.as_bytes());
    if !works {
        let line = line.join(" ");
        say(&format!(
            "the proved program `{name}` is not at hand ({line}): holding the command against it is left out"
        ));
        return None;
    }
    Some(move |input: &[u8]| {
        let mut program = program(&line[0]);
        program.args(&line[1..]);
        ran(program, input).results
    })
}

/// How many inputs are drawn.
fn draws() -> usize {
    env::var("CABLEFINCH_DRAWS").map_or(300, |count| count.parse().expect("a number of draws"))
}

/// How often each ending was drawn; those that are wanted must be among them.
#[derive(Default, Debug)]
struct Endings(BTreeMap<String, usize>);

impl Endings {
    fn count(&mut self, ending: String) {
        *self.0.entry(ending).or_default() += 1;
    }

    fn hold(&self, wanted: impl IntoIterator<Item = String>) {
        eprintln!("{self:?}");
        for ending in wanted {
            assert!(
                self.0.contains_key(&ending),
                "{ending} was not drawn: {self:?}"
            );
        }
    }
}

#[test]
fn why_says_what_the_proved_program_says() {
    let Some(told) = proved("why", "bad input\n") else {
        return;
    };
    let told = |kind: &str, bytes: &[u8]| told(&[kind.as_bytes(), b"\n", bytes].concat());
    let mut draw = Draw(0x9e37_79b9_7f4a_7c15);
    let mut endings = Endings::default();
    for turn in 0..draws() {
        for kind in ["packet", "rowset"] {
            let bytes = match kind {
                "packet" => draw.front(),
                _ => draw.rowset(),
            };
            let wanted = told(kind, &bytes);
            let command = asked_with(&["why", kind, "-"], &bytes);
            assert_eq!(command.results, wanted, "draw {turn}");
            let words: Vec<&str> = wanted.split_whitespace().collect();
            let right = words[0] == "ok";
            assert_eq!(
                (command.status, command.words.is_empty()),
                (i32::from(!right), right)
            );
            endings.count(match words[..] {
                [word, which, ..] => format!("{kind}: {word} {which}"),
                _ => format!("{kind}: {}", words[0]),
            });
        }
    }
    let packets = (1..=8).map(|number| format!("refused {number}"));
    let packets =
        packets.chain(["ok", "more fixed-header", "more headers", "more whole"].map(String::from));
    let rowsets = [9, 10, 11, 12, 14, 15].map(|number| format!("refused {number}"));
    let fields =
        ["aggregate", "length", "word", "padding"].map(|field| format!("not-plain {field}"));
    let rowsets = rowsets.into_iter().chain(fields).chain(["ok".to_string()]);
    endings.hold(
        packets
            .map(|ending| format!("packet: {ending}"))
            .chain(rowsets.map(|ending| format!("rowset: {ending}"))),
    );
    // One byte more is too much for it.
    let long = vec![0; SHORT + 1];
    assert_eq!(told("packet", &long), "bad input\n");
    assert_eq!(
        asked_with(&["why", "packet", "-"], &long).results,
        "refused 1 signature 0 0 2019650895\n"
    );
}

#[test]
fn list_says_what_the_proved_program_says() {
    let Some(listed) = proved("list", "end 0\n") else {
        return;
    };
    let mut draw = Draw(0x9e37_79b9_7f4a_7c15);
    let mut endings = Endings::default();
    for turn in 0..draws() {
        let input = draw.input();
        let wanted = listed(&input);
        let command = asked_with(&["list", "-"], &input);
        assert_eq!(command.results, wanted, "draw {turn}");
        let last: Vec<&str> = wanted
            .lines()
            .last()
            .unwrap_or_default()
            .split(' ')
            .collect();
        let right = last[0] == "end";
        assert_eq!(
            (command.status == 0, command.words.is_empty()),
            (right, right)
        );
        endings.count(match last[..] {
            ["refused", _, number] => format!("refused {number}"),
            _ => last[0].to_string(),
        });
    }
    let refusals = (1..=8).map(|number| format!("refused {number}"));
    endings.hold(
        ["end", "more"]
            .map(String::from)
            .into_iter()
            .chain(refusals),
    );
    // One byte more is too long for it.
    assert_eq!(listed(&vec![0; SHORT + 1]), "too long\n");
    assert_eq!(
        asked_with(&["list", "-"], &vec![0; SHORT + 1]).results,
        "refused 0 1\n"
    );
}

/// The processor time of this thread.
#[cfg(target_os = "linux")]
fn thread_time() -> Duration {
    let text = fs::read_to_string("/proc/thread-self/schedstat").expect("the kernel tells it");
    let first = text.split(' ').next().and_then(|first| first.parse().ok());
    Duration::from_nanos(first.expect("it is a number"))
}

/// The processor time of the command, with at most 40 MB of address space.
#[cfg(target_os = "linux")]
fn command_time(file: &Path) -> Duration {
    let mut shell = program("sh");
    shell.args([
        "-c",
        "ulimit -v 40000 && cablefinch list \"$0\" > /dev/null && times",
    ]);
    shell.arg(file);
    let ran = ran(shell, b"");
    assert_eq!((ran.status, &*ran.words), (0, ""));
    // The second line is that of the children: user and system, each as 0m0.000000s.
    let line = ran.results.lines().nth(1).expect("there are two lines");
    let times = line.split(' ').map(|time| {
        let (minutes, seconds) = time
            .trim_end_matches('s')
            .split_once('m')
            .expect("it is a time");
        60.0 * minutes.parse::<f64>().expect("a number") + seconds.parse::<f64>().expect("a number")
    });
    Duration::from_secs_f64(times.sum())
}

/// The command beside the library on a file of 1 GiB: `cargo test --release --offline --test command -- --ignored
/// --nocapture`. The library reads the same packets from memory, and prints nothing. Both by processor time, the
/// least of five.
#[cfg(target_os = "linux")]
#[test]
#[ignore = "it takes a file of 1 GiB and some minutes"]
fn a_gibibyte_of_packets_at_half_the_speed_of_the_library() {
    let file = Path::new(env!("CARGO_TARGET_TMPDIR")).join("gibibyte.bin");
    for (name, parts, size) in [
        ("a part of 1 MiB", 1, 1 << 20),
        ("16 parts of 4 KiB", 16, 4 << 10),
        ("3 parts of 100 bytes", 3, 100),
        ("no parts", 0, 0),
    ] {
        let part: Vec<u8> = (0..size).map(|index| (index % 251) as u8).collect();
        let packet = message(&vec![Some(&part[..]); parts]);
        // A block of whole packets, as often as they make 1 GiB.
        let block = packet.repeat((1 << 24) / packet.len() + 1);
        let times = (1usize << 30).div_ceil(block.len());
        let mut output = fs::File::create(&file).expect("the file can be made");
        for _ in 0..times {
            output
                .write_all(&block)
                .expect("there is room for the file");
        }
        drop(output);
        let library = || {
            let mut decoder = packet::Decoder::archive();
            let (begun, mut packets) = (thread_time(), 0);
            for _ in 0..times {
                let mut done = 0;
                while let Some(decoded) = decoder
                    .decode(&block[done..], 1 << 26)
                    .expect("it is right")
                {
                    done += decoded.consumed;
                    packets += 1;
                }
                assert_eq!(done, block.len());
            }
            assert_eq!(packets, times * (block.len() / packet.len()));
            thread_time() - begun
        };
        let command = || command_time(&file);
        // In turn, so that what runs beside them is beside both.
        let mut least = [Duration::MAX; 2];
        for _ in 0..5 {
            least = [least[0].min(library()), least[1].min(command())];
        }
        let [library, command] = least;
        let ratio = library.as_secs_f64() / command.as_secs_f64();
        let speed = |time: Duration| (times * block.len()) as f64 / time.as_secs_f64() / 1e6;
        println!(
            "messages of {name}: library {:.0} MB/s, command {:.0} MB/s, {ratio:.2} of it",
            speed(library),
            speed(command)
        );
        assert!(ratio >= 0.5, "{name}: {ratio:.2}");
    }
    fs::remove_file(&file).expect("the file can be removed");
}
