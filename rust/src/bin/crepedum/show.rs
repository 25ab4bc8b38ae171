//! `crepedum show`.

use std::ffi::OsStr;

use crepedum::MemberSet;

use crate::args::{Form, Words};
use crate::fault::Fault;
use crate::files;
use crate::view::View;

pub const FORM: Form = Form {
    name: "show",
    help: "\
usage: crepedum show SET|MEMBER [--json]

Shows the members of a member set, or one member (- for standard input): what each is, its symbols, and where each symbol
leads. A symbol of a set leads where lookup says, so that the first member of a list that defines it decides.

  --json   one object: \"kind\" is \"set\" or \"member\", and \"members\" has for each its number from 1 on, its list, offset and
           size, its layout with the names and numbers that the layout has, and its \"symbols\"; each of those says what it
           \"leads_to\": \"name\", \"ordinal\", \"nowhere\", or for an alias that is shown alone \"target\". A name that is not
           UTF-8 is an object with its bytes as \"hex\".

exit status: 0; 17 where the bytes are neither a member set nor a member; 64 for a wrong use; 74 for a file that can't be read
or written
",
    flags: &["--json"],
    options: &[],
};

pub fn run(words: &Words) -> Result<(), Fault> {
    let [file] = words.places(["SET|MEMBER"])?;
    let bytes = files::read(file)?;
    let view = view(file, &bytes)?;
    let text = if words.has("--json") {
        format!("{}\n", view.json())
    } else {
        view.table()
    };
    files::print(text.as_bytes())
}

/// No bytes are both a member and a set: a header that is both would ask for more members than its list counts give.
fn view<'a>(file: &OsStr, bytes: &'a [u8]) -> Result<View<'a>, Fault> {
    if let Ok(member) = crepedum::read(bytes) {
        return Ok(View::of_member(bytes, member));
    }
    let set = MemberSet::of(bytes).map_err(|refusal| Fault::refused(file, refusal))?;
    Ok(View::of_set(set))
}
