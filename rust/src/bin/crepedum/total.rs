//! `crepedum total`.

use crate::args::{Form, Words};
use crate::fault::Fault;
use crate::{files, write};

pub const FORM: Form = Form {
    name: "total",
    help: "\
usage: crepedum total LIST --machine MACHINE [--mingw] [--whole-archive-compat]

Says how many bytes the member set of the export list LIST (- for standard input) has, in one line on standard output. With the
same options crepedum write writes as many, or gives the same refusal.

  --machine MACHINE       amd64, i386, armnt, arm64, arm64ec, arm64x, or a number as 0x8664
  --mingw                 choose name types as for MinGW
  --whole-archive-compat  name the null descriptor after the DLL

exit status: 0; the refusal's number, 1 to 14; 64 for a wrong use; 74 for a file that can't be read or written
",
    flags: &["--mingw", "--whole-archive-compat"],
    options: &["--machine"],
};

pub fn run(words: &Words) -> Result<(), Fault> {
    let [list] = words.places(["LIST"])?;
    let options = write::options(words)?;
    let bytes = files::read(list)?;
    let total =
        crepedum::total(&bytes, options).map_err(|refusal| Fault::refused(list, refusal))?;
    files::print(format!("{total}\n").as_bytes())
}
