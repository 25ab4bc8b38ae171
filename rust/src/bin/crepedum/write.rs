//! `crepedum write`.

use std::ffi::OsStr;

use crepedum::{Machine, Member, MemberSet, Options, ShortImport};

use crate::args::{Form, Words};
use crate::fault::Fault;
use crate::files::{self, STANDARD, Staged};

pub const FORM: Form = Form {
    name: "write",
    help: "\
usage: crepedum write LIST --machine MACHINE [--mingw] [--whole-archive-compat] [-o SET] [--members DIR]

Writes the members of the export list LIST (- for standard input).

  --machine MACHINE       amd64, i386, armnt, arm64, arm64ec, arm64x, or a number as 0x8664
  --mingw                 choose name types as for MinGW
  --whole-archive-compat  name the null descriptor after the DLL
  -o SET                  write the member set into the file SET (- for standard output)
  --members DIR           make the folder DIR, which must not be there, with one file for each member,
                          numbered in their order, such as 00004-list1-import-att_step.obj

At least one of -o and --members is to be given. Each is written under a temporary name beside it and then renamed, so that
it is there whole or not at all.

exit status: 0; the refusal's number, 1 to 14; 64 for a wrong use; 74 for a file that can't be read or written
",
    flags: &["--mingw", "--whole-archive-compat"],
    options: &["--machine", "-o", "--members"],
};

/// Bytes of a symbol that a file's name shows.
const SHOWN: usize = 64;

pub fn run(words: &Words) -> Result<(), Fault> {
    let [list] = words.places(["LIST"])?;
    let options = options(words)?;
    let (out, folder) = (words.option("-o"), words.option("--members"));
    if out.is_none() && folder.is_none() {
        return Err(words.wrong("one of -o and --members is to be given"));
    }
    let bytes = files::read(list)?;
    let set = crepedum::write(&bytes, options).map_err(|refusal| Fault::refused(list, refusal))?;
    let to_file = out.filter(|out| *out != STANDARD);
    let staged_file = to_file.map(|out| Staged::file(out, &set)).transpose()?;
    let staged_folder = folder.map(|folder| stage(folder, &set)).transpose()?;
    // What can fail most easily comes first: nothing else stands then.
    if out.is_some_and(|out| out == STANDARD) {
        files::print(&set)?;
    }
    staged_folder.map_or(Ok(()), Staged::keep)?;
    staged_file.map_or(Ok(()), Staged::keep)
}

pub fn options(words: &Words) -> Result<Options, Fault> {
    let Some(machine) = words.option("--machine") else {
        return Err(words.wrong("--machine is to be given"));
    };
    let machine: Machine = machine
        .to_string_lossy()
        .parse()
        .map_err(|error| words.wrong(&format!("{error}")))?;
    Ok(Options {
        machine,
        mingw: words.has("--mingw"),
        whole_archive_compat: words.has("--whole-archive-compat"),
    })
}

fn stage(folder: &OsStr, set: &[u8]) -> Result<Staged, Fault> {
    let set = MemberSet::of(set).expect("a written set is one");
    let files = set.members().enumerate().map(|(index, listed)| {
        let member = crepedum::read(listed.bytes).expect("a written member is one");
        let name = file_name(index + 1, listed.list, &member);
        (name, listed.bytes)
    });
    Staged::folder(folder, files)
}

/// The member's number, what it is, and as much of its symbol as a file's name can show.
fn file_name(number: usize, list: Option<u32>, member: &Member<'_>) -> String {
    let list = list.map_or(String::new(), |list| format!("list{list}-"));
    let what = match *member {
        Member::ImportDescriptor { .. } => "descriptor".into(),
        Member::NullImportDescriptor { .. } => "null-descriptor".into(),
        Member::NullThunk { .. } => "null-thunk".into(),
        Member::ShortImport(ShortImport { symbol, .. }) => format!("import-{}", plain(symbol)),
        Member::WeakExternal { alias, .. } => format!("alias-{}", plain(alias)),
    };
    format!("{number:05}-{list}{what}.obj")
}

/// Letters, digits and `_`; `-` in every other byte's place.
fn plain(name: &[u8]) -> String {
    let shown = |byte: &u8| match byte {
        b'_' | b'0'..=b'9' | b'A'..=b'Z' | b'a'..=b'z' => char::from(*byte),
        _ => '-',
    };
    name.iter().take(SHOWN).map(shown).collect()
}
