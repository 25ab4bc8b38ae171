//! The command, run as a user runs it: every form, every status, and that a failure leaves nothing behind.

use std::ffi::OsStr;
use std::fs;
use std::io::Write as _;
use std::path::{Path, PathBuf};
use std::process::{Command, Stdio};

use crepedum::{Export, ExportList, Machine, MemberSet, Options};

const USAGE: i32 = 64;
const IO: i32 = 74;
const ATT: &[u8] = include_bytes!("../../examples/att.list");

/// What a run of the command gave.
struct Done {
    status: i32,
    out: Vec<u8>,
    errors: String,
}

impl Done {
    fn text(&self) -> &str {
        std::str::from_utf8(&self.out).expect("text")
    }

    /// Checks a failure: its status, a part of its message, and that nothing stands on standard output.
    fn failed(&self, status: i32, words: &str) {
        let Self { errors, .. } = self;
        assert_eq!(self.status, status, "{errors}");
        assert!(errors.starts_with("crepedum: "), "{errors}");
        assert!(errors.contains(words), "{errors}");
        assert!(self.out.is_empty(), "{}", self.text());
    }

    fn succeeded(self) -> Self {
        assert_eq!(self.status, 0, "{}", self.errors);
        assert_eq!(self.errors, "");
        self
    }
}

/// A folder of its own for each test.
struct Folder(PathBuf);

impl Folder {
    fn new(name: &str) -> Self {
        let folder = Path::new(env!("CARGO_TARGET_TMPDIR")).join(name);
        let _ = fs::remove_dir_all(&folder);
        fs::create_dir_all(&folder).expect("a folder");
        fs::write(folder.join("att.list"), ATT).expect("a file");
        Self(folder)
    }

    fn run<S: AsRef<OsStr>>(&self, words: &[S], input: &[u8]) -> Done {
        self.run_to(words, input, Stdio::piped())
    }

    fn run_to<S: AsRef<OsStr>>(&self, words: &[S], input: &[u8], out: Stdio) -> Done {
        let mut child = Command::new(env!("CARGO_BIN_EXE_crepedum"))
            .args(words)
            .current_dir(&self.0)
            .stdin(Stdio::piped())
            .stdout(out)
            .stderr(Stdio::piped())
            .spawn()
            .expect("the command");
        // A command that does not read its input closes it.
        let _ = child.stdin.take().expect("a pipe").write_all(input);
        let done = child.wait_with_output().expect("the command");
        Done {
            status: done.status.code().expect("a status"),
            out: done.stdout,
            errors: String::from_utf8(done.stderr).expect("text"),
        }
    }

    fn say(&self, line: &str) -> Done {
        let words: Vec<&str> = line.split_whitespace().collect();
        self.run(&words, b"")
    }

    fn read(&self, name: &str) -> Vec<u8> {
        fs::read(self.0.join(name)).expect("a file")
    }

    fn write(&self, name: &str, bytes: &[u8]) {
        fs::write(self.0.join(name), bytes).expect("a file");
    }

    /// All names in it, hidden ones too.
    fn names(&self) -> Vec<String> {
        names(&self.0)
    }
}

fn names(folder: &Path) -> Vec<String> {
    let entries = fs::read_dir(folder).expect("a folder");
    let mut names: Vec<String> = entries
        .map(|entry| entry.expect("an entry").file_name().into_string())
        .map(|name| name.expect("text"))
        .collect();
    names.sort();
    names
}

fn att_set() -> Vec<u8> {
    crepedum::write(ATT, Options::new(Machine::AMD64)).expect("the list is good")
}

#[test]
fn a_set_and_its_members_are_written() {
    let folder = Folder::new("written");
    let line = "write att.list --machine amd64 -o att.set --members att.members";
    assert!(folder.say(line).succeeded().out.is_empty());
    let set = folder.read("att.set");
    assert_eq!(set, att_set());
    let members = MemberSet::of(&set).expect("a set");
    let files = names(&folder.0.join("att.members"));
    assert_eq!(files.len(), members.members().count());
    for (name, listed) in files.iter().zip(members.members()) {
        assert_eq!(folder.read(&format!("att.members/{name}")), listed.bytes);
    }
    assert_eq!(files[0], "00001-descriptor.obj");
    assert_eq!(files[3], "00004-list1-import-att_step.obj");
    assert_eq!(files[8], "00009-list1-alias-att_go.obj");
    assert_eq!(folder.names(), ["att.list", "att.members", "att.set"]);
}

#[test]
fn the_total_is_what_is_written() {
    let folder = Folder::new("total");
    for options in ["", " --mingw", " --whole-archive-compat"] {
        let asked = folder.say(&format!("total att.list --machine i386{options}"));
        let written = folder.say(&format!("write att.list --machine i386{options} -o -"));
        let length = written.succeeded().out.len();
        assert_eq!(asked.succeeded().text(), format!("{length}\n"));
    }
    let list = ExportList::new("a.dll").export(Export::new("f"));
    let list = list.export(Export::new("?f")).encode();
    for words in [&["total"][..], &["write", "-o", "-"]] {
        let words = [words, &["-", "--machine", "arm64ec"]].concat();
        folder.run(&words, &list).failed(13, "refusal 13, place 1 ");
    }
    assert_eq!(folder.names(), ["att.list"]);
}

#[test]
fn a_symbol_leads_no_file_out_of_its_folder() {
    let folder = Folder::new("inside");
    let long = "n".repeat(4095);
    let list = ["../../x", "/y", "a\nb", &long].map(Export::new);
    let list = list
        .into_iter()
        .fold(ExportList::new("a.dll"), ExportList::export);
    folder.write("odd.list", &list.encode());
    folder
        .say("write odd.list --machine amd64 --members odd")
        .succeeded();
    let files = names(&folder.0.join("odd"));
    assert_eq!(files[3], "00004-list1-import-------x.obj");
    assert_eq!(files[4], "00005-list1-import--y.obj");
    assert_eq!(files[5], "00006-list1-import-a-b.obj");
    assert_eq!(
        files[6],
        format!("00007-list1-import-{}.obj", "n".repeat(64))
    );
    assert_eq!(folder.names(), ["att.list", "odd", "odd.list"]);
}

#[test]
fn options_reach_the_library() {
    let folder = Folder::new("options");
    let line = "write att.list --machine i386 --mingw --whole-archive-compat -o -";
    let wanted = Options {
        machine: Machine::I386,
        mingw: true,
        whole_archive_compat: true,
    };
    let written = folder.say(line).succeeded().out;
    assert_eq!(written, crepedum::write(ATT, wanted).expect("good"));
    let mangled = ExportList::new("a.dll").export(Export::new("_f@4").symbol_name("_g_f@4"));
    folder.write("mingw.list", &mangled.encode());
    let plain = folder
        .say("write mingw.list --machine i386 -o -")
        .succeeded();
    let mingw = folder
        .say("write mingw.list --machine i386 --mingw -o -")
        .succeeded();
    assert_ne!(plain.out, mingw.out);
}

#[test]
fn standard_input_and_output_are_dashes() {
    let folder = Folder::new("dashes");
    let set = folder
        .run(&["write", "-", "--machine", "amd64", "-o", "-"], ATT)
        .succeeded()
        .out;
    assert_eq!(set, att_set());
    let table = folder.run(&["show", "-"], &set).succeeded();
    assert!(table.text().contains("import descriptor of att.dll"));
    let led = folder.run(&["lookup", "-", "att_secret"], &set).succeeded();
    assert_eq!(led.text(), "ordinal 7\n");
    assert_eq!(folder.names(), ["att.list"]);
}

#[test]
fn an_older_file_is_replaced() {
    let folder = Folder::new("replaced");
    folder.write("att.set", b"older");
    folder
        .say("write att.list --machine amd64 -o att.set")
        .succeeded();
    assert_eq!(folder.read("att.set"), att_set());
}

#[test]
fn symbols_are_looked_up() {
    let folder = Folder::new("lookup");
    folder.write("att.set", &att_set());
    for (words, answer) in [
        ("__imp_att_go", "name att_step\n"),
        ("att_hidden", "ordinal 7\n"),
        ("att_ghost", "nowhere\n"),
        ("att_table", "not found\n"),
        ("att_step --list 1", "name att_step\n"),
        ("att_step --list 2", "not found\n"),
        ("-- --strange", "not found\n"),
    ] {
        let done = folder.say(&format!("lookup att.set {words}")).succeeded();
        assert_eq!(done.text(), answer, "{words}");
    }
}

#[test]
fn a_table_shows_each_symbol() {
    let folder = Folder::new("table");
    folder.write("att.set", &att_set());
    let done = folder.say("show att.set").succeeded();
    let lines: Vec<&str> = done.text().lines().collect();
    let symbol = lines[0].find("symbol").expect("a column");
    let row = |symbol: &str| {
        let found = lines.iter().find(|line| line.contains(symbol));
        found.expect("a row").split_whitespace().collect::<Vec<_>>()
    };
    assert!(
        lines
            .iter()
            .all(|line| line.is_char_boundary(symbol.min(line.len())))
    );
    assert!(lines[4][symbol..].starts_with("__imp_att_step "), "aligned");
    assert_eq!(
        row(" __imp_att_far "),
        "8 1 48 amd64 import from att.dll: code, by exportas __imp_att_far name att_distant"
            .split(' ')
            .collect::<Vec<_>>()
    );
    assert_eq!(
        row(" att_secret "),
        "11 1 176 amd64 alias of att_hidden att_secret ordinal 7"
            .split(' ')
            .collect::<Vec<_>>()
    );
    assert_eq!(
        row(" att_ghost "),
        "14 1 174 amd64 alias of att_table att_ghost nowhere"
            .split(' ')
            .collect::<Vec<_>>()
    );
}

#[test]
fn one_member_is_shown() {
    let folder = Folder::new("member");
    let set = att_set();
    let members: Vec<_> = MemberSet::of(&set).expect("a set").members().collect();
    for (index, words) in [
        (0, "import descriptor of att.dll"),
        (1, "null import descriptor"),
        (2, "null thunk of att"),
        (4, "__imp_att_hidden  ordinal 7"),
        (8, "alias of att_step  att_go  its target"),
    ] {
        folder.write("one.obj", members[index].bytes);
        let done = folder.say("show one.obj").succeeded();
        assert!(done.text().contains(words), "{}", done.text());
    }
}

/// Asks python3 whether an expression is true of the JSON that it reads; nothing where there is no python3.
fn is_true_of(json: &[u8], expression: &str) -> Option<bool> {
    let program =
        format!("import json,sys; shown = json.load(sys.stdin); sys.exit(not ({expression}))");
    let child = Command::new("python3")
        .args(["-c", &program])
        .stdin(Stdio::piped())
        .spawn();
    let mut child = child.ok()?;
    child.stdin.take()?.write_all(json).ok()?;
    Some(child.wait().ok()?.success())
}

#[test]
fn json_is_read_by_python() {
    let folder = Folder::new("json");
    let odd = Export::new(b"\xff\"\\\n").export_as("t\u{e4}g\u{1}\"\\");
    let list = ExportList::new("a.dll")
        .export(odd)
        .native(Export::new("f"));
    folder.write("odd.list", &list.encode());
    folder
        .say("write odd.list --machine amd64 -o odd.set")
        .succeeded();
    let shown = folder.say("show odd.set --json").succeeded().out;
    for expression in [
        "shown['kind'] == 'set' and shown['size'] > 0",
        "[m['number'] for m in shown['members']] == [1, 2, 3, 4, 5]",
        "[m['list'] for m in shown['members']] == [None, None, None, 1, 2]",
        "shown['members'][3]['name'] == {'hex': 'ff225c0a'}",
        "shown['members'][3]['export'] == 't\\u00e4g\\u0001\"\\\\'",
        "shown['members'][4]['symbols'][0] == {'symbol': '__imp_f', 'leads_to': 'name', 'name': 'f'}",
        "all(m['offset'] + m['size'] <= shown['size'] for m in shown['members'])",
    ] {
        assert_ne!(is_true_of(&shown, expression), Some(false), "{expression}");
    }
}

#[test]
fn refusals_are_told_in_words_and_leave_nothing() {
    let folder = Folder::new("refused");
    let bad = |export: Export| ExportList::new("a.dll").export(export).encode();
    let mut unknown = bad(Export::new("f"));
    unknown[28 + 42] = 16;
    let cases: [(Vec<u8>, &str, i32, &str); 9] = [
        (ATT.to_vec(), "0x1234", 1, "the machine is not in the table"),
        (b"short".to_vec(), "amd64", 2, "shorter than 28 bytes"),
        (vec![0xff; 40], "amd64", 3, "above 4,096"),
        (vec![0; 28], "amd64", 4, "offsets or total length"),
        (
            bad(Export::new("f\0")),
            "amd64",
            8,
            "(the DLL name or record 0): a string holds NUL",
        ),
        (unknown, "amd64", 9, "(record 0): unknown flag bit"),
        (
            ExportList::new("a/b").encode(),
            "amd64",
            10,
            "(the DLL name)",
        ),
        (bad(Export::new("?f")), "arm64ec", 13, "without `$$h`"),
        (bad(Export::new("?f$$h")), "arm64ec", 14, "demangled"),
    ];
    let before = ["att.list", "bad.list"];
    for (list, machine, number, words) in cases {
        folder.write("bad.list", &list);
        let line = format!("write bad.list --machine {machine} -o bad.set --members bad.members");
        let done = folder.say(&line);
        done.failed(number, words);
        assert!(
            done.errors
                .contains(&format!("bad.list: refusal {number}, place 0 ("))
        );
        assert_eq!(folder.names(), before);
    }
}

#[test]
fn a_damaged_set_is_refused() {
    let folder = Folder::new("damaged");
    let set = att_set();
    for (bytes, what) in [
        (&set[..set.len() - 1], "one byte less"),
        (&[&set[..], b"x"].concat(), "one byte more"),
        (&[b"x", &set[1..]].concat(), "another count"),
        (b"", "nothing"),
    ] {
        folder.write("bad.set", bytes);
        for line in [
            "show bad.set",
            "show bad.set --json",
            "lookup bad.set att_step",
        ] {
            let done = folder.say(line);
            assert_eq!(done.status, 17, "{line}: {what}");
            done.failed(
                17,
                "bad.set: refusal 17, place 0 (outside records): not a member set",
            );
        }
    }
}

#[test]
fn a_wrong_use_is_64() {
    let folder = Folder::new("wrong");
    folder.write("att.set", &att_set());
    for (line, words) in [
        ("", "no command"),
        ("paint", "no command is `paint`"),
        ("write", "wanted: LIST"),
        ("write att.list", "--machine is to be given"),
        ("write att.list --machine amd64", "one of -o and --members"),
        ("write att.list --machine vax -o x", "`vax` is no machine"),
        ("write att.list --machine", "wants a value"),
        (
            "write att.list --machine amd64 --machine i386 -o x",
            "given twice",
        ),
        ("write att.list other --machine amd64 -o x", "wanted: LIST"),
        ("write att.list --paint", "no option is `--paint`"),
        ("total", "wanted: LIST"),
        ("total att.list", "--machine is to be given"),
        ("total att.list --machine amd64 -o x", "no option is `-o`"),
        ("show", "wanted: SET|MEMBER"),
        ("lookup att.set", "wanted: SET SYMBOL"),
        ("lookup att.set att_step --list 3", "--list is 1 or 2"),
    ] {
        folder.say(line).failed(USAGE, words);
    }
    assert_eq!(folder.names(), ["att.list", "att.set"]);
}

#[cfg(unix)]
#[test]
fn a_file_that_cannot_be_had_is_74() {
    let folder = Folder::new("io");
    fs::create_dir(folder.0.join("there")).expect("a folder");
    // A pipe stands for every device: a faulty command would do no harm by replacing it.
    let pipe = Command::new("mkfifo").arg(folder.0.join("pipe")).status();
    assert!(pipe.is_ok_and(|status| status.success()), "no pipe");
    let before = folder.names();
    for line in [
        "write none.list --machine amd64 -o x",
        "write att.list --machine amd64 -o none/x",
        "write att.list --machine amd64 -o there",
        "write att.list --machine amd64 -o pipe",
        "write att.list --machine amd64 --members there",
        "write att.list --machine amd64 --members none/x",
        "write att.list --machine amd64 -o x --members there",
        "write att.list --machine amd64 -o there --members x",
        "total none.list --machine amd64",
        "show none.set",
        "lookup none.set f",
    ] {
        folder.say(line).failed(IO, ": ");
        assert_eq!(folder.names(), before, "{line}");
    }
}

#[cfg(target_os = "linux")]
#[test]
fn a_full_output_leaves_nothing() {
    let folder = Folder::new("full");
    let full = fs::OpenOptions::new().write(true).open("/dev/full");
    let out = Stdio::from(full.expect("linux has it"));
    let words = [
        "write",
        "att.list",
        "--machine",
        "amd64",
        "-o",
        "-",
        "--members",
        "x",
    ];
    folder
        .run_to(&words, b"", out)
        .failed(IO, "standard output: ");
    assert_eq!(folder.names(), ["att.list"]);
}

#[test]
fn each_command_has_help() {
    let folder = Folder::new("help");
    for (line, words) in [
        ("--help", "crepedum COMMAND --help"),
        (
            "total --help",
            "usage: crepedum total LIST --machine MACHINE",
        ),
        (
            "write --help",
            "usage: crepedum write LIST --machine MACHINE",
        ),
        ("show --help", "usage: crepedum show SET|MEMBER [--json]"),
        (
            "lookup --help",
            "usage: crepedum lookup SET SYMBOL [--list 1|2]",
        ),
    ] {
        let done = folder.say(line).succeeded();
        assert!(done.text().starts_with("usage: "), "{line}");
        assert!(done.text().contains(words), "{line}");
        assert!(done.text().contains("exit status: 0"), "{line}");
    }
}
