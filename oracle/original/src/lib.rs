//! Three source files of `ar_archive_writer` 0.5.3, built unchanged from where
//! they stand beside the repository, under a crate root that hands out the
//! members instead of writing an archive.
//!
//! The sources are Apache-2.0 WITH LLVM-exception and are not copied here.

use std::cell::RefCell;
use std::io::{Cursor, Result, Seek, Write};

// The sources stay as they are, whatever a linter finds in them.
#[allow(warnings, clippy::all)]
#[path = "../../../../shared/docs/src/coff.rs"]
#[rustfmt::skip]
mod coff;
#[allow(warnings, clippy::all)]
#[path = "../../../../shared/docs/src/coff_import_file.rs"]
#[rustfmt::skip]
mod coff_import_file;
#[allow(warnings, clippy::all)]
#[path = "../../../../shared/docs/src/mangler.rs"]
#[rustfmt::skip]
mod mangler;

pub use coff::MachineTypes;
pub use coff_import_file::COFFShortExport;
pub use mangler::{get_arm64ec_demangled_function_name, get_arm64ec_mangled_function_name};

/// Gives each symbol of a member to the function it is handed.
pub type GetSymbolsFn = fn(buf: &[u8], f: &mut dyn FnMut(&[u8]) -> Result<()>) -> Result<bool>;

/// A member as it would have gone into the archive.
#[derive(Clone, Debug)]
pub struct Member {
    pub bytes: Vec<u8>,
    /// Gives symbols only for short imports.
    pub get_symbols: GetSymbolsFn,
}

thread_local! {
    // `write_import_library` passes on nothing but a stream, and a stream
    // cannot carry the members' readers.
    static HANDED_OUT: RefCell<Vec<Member>> = const { RefCell::new(Vec::new()) };
}

/// The members of `write_import_library`, in its order.
pub fn import_library_members(
    import_name: &str,
    exports: &[COFFShortExport],
    machine: MachineTypes,
    mingw: bool,
    whole_archive_compat: bool,
    native_exports: &[COFFShortExport],
) -> Result<Vec<Member>> {
    coff_import_file::write_import_library(
        &mut Cursor::new(Vec::new()),
        import_name,
        exports,
        machine,
        mingw,
        whole_archive_compat,
        native_exports,
    )?;
    Ok(HANDED_OUT.take())
}

enum ArchiveKind {
    Coff,
}

struct ObjectReader {
    get_symbols: GetSymbolsFn,
}

/// The real one reads object files; only short imports have symbols here.
const DEFAULT_OBJECT_READER: ObjectReader = ObjectReader {
    get_symbols: |_, _| Ok(false),
};

struct NewArchiveMember<'a> {
    buf: Box<[u8]>,
    object_reader: &'a ObjectReader,
}

impl<'a> NewArchiveMember<'a> {
    fn new(buf: Box<[u8]>, object_reader: &'a ObjectReader, _member_name: String) -> Self {
        Self { buf, object_reader }
    }
}

fn write_archive_to_stream<W: Write + Seek>(
    _w: &mut W,
    new_members: &[NewArchiveMember<'_>],
    _kind: ArchiveKind,
    _thin: bool,
    _is_ec: Option<bool>,
) -> Result<()> {
    let members = new_members.iter().map(|member| Member {
        bytes: member.buf.to_vec(),
        get_symbols: member.object_reader.get_symbols,
    });
    HANDED_OUT.set(members.collect());
    Ok(())
}
