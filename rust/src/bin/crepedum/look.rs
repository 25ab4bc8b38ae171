//! `crepedum lookup`.

use crate::args::{Form, Words};
use crate::fault::Fault;
use crate::files;
use crate::lead::Lead;

pub const FORM: Form = Form {
    name: "lookup",
    help: "\
usage: crepedum lookup SET SYMBOL [--list 1|2]

Says where SYMBOL leads in list 1 (the first, without --list) or 2 (the native one) of the member set SET (- for standard
input), in one line on standard output:

  name NAME         to the DLL entry with this name
  ordinal NUMBER    to the DLL entry with this ordinal
  nowhere           to no import: SYMBOL is an alias whose target no import defines
  not found         no member of that list defines SYMBOL

exit status: 0 for each of these; the refusal's number, 17 where SET is no member set; 64 for a wrong use; 74 for a file that
can't be read or written
",
    flags: &[],
    options: &["--list"],
};

pub fn run(words: &Words) -> Result<(), Fault> {
    let [file, symbol] = words.places(["SET", "SYMBOL"])?;
    let list = match words.option("--list") {
        None => 1,
        Some(list) if list == "1" => 1,
        Some(list) if list == "2" => 2,
        Some(_) => return Err(words.wrong("--list is 1 or 2")),
    };
    let set = files::read(file)?;
    let led = crepedum::lookup(&set, list, symbol.as_encoded_bytes())
        .map_err(|refusal| Fault::refused(file, refusal))?;
    files::print(format!("{}\n", Lead::from(led)).as_bytes())
}
