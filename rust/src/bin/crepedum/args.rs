//! The words of a command: places, flags and options with a value.

use std::ffi::{OsStr, OsString};

use crate::fault::Fault;

/// What a command takes.
pub struct Form {
    pub name: &'static str,
    pub help: &'static str,
    pub flags: &'static [&'static str],
    pub options: &'static [&'static str],
}

/// The words given.
pub struct Words {
    form: &'static Form,
    places: Vec<OsString>,
    flags: Vec<&'static str>,
    options: Vec<(&'static str, OsString)>,
}

impl Words {
    /// Nothing where help is asked for.
    pub fn of(form: &'static Form, given: &[OsString]) -> Result<Option<Self>, Fault> {
        let mut words = Self {
            form,
            places: Vec::new(),
            flags: Vec::new(),
            options: Vec::new(),
        };
        let mut rest = given.iter();
        while let Some(word) = rest.next() {
            match word.to_str() {
                Some("--help" | "-h") => return Ok(None),
                Some("--") => {
                    words.places.extend(rest.cloned());
                    break;
                }
                Some(option) if option.starts_with('-') && option != "-" => {
                    words.take_option(option, &mut rest)?;
                }
                _ => words.places.push(word.clone()),
            }
        }
        Ok(Some(words))
    }

    fn take_option<'a>(
        &mut self,
        option: &str,
        rest: &mut impl Iterator<Item = &'a OsString>,
    ) -> Result<(), Fault> {
        let named = |known: &[&'static str]| known.iter().find(|name| **name == option).copied();
        if let Some(flag) = named(self.form.flags) {
            self.flags.push(flag);
            return Ok(());
        }
        let Some(name) = named(self.form.options) else {
            return Err(self.wrong(&format!("no option is `{option}`")));
        };
        if self.option(name).is_some() {
            return Err(self.wrong(&format!("`{name}` is given twice")));
        }
        let Some(value) = rest.next() else {
            return Err(self.wrong(&format!("`{name}` wants a value")));
        };
        self.options.push((name, value.clone()));
        Ok(())
    }

    /// A wrong use, with the way to help.
    pub fn wrong(&self, what: &str) -> Fault {
        let name = self.form.name;
        Fault::Usage(format!("{what}; see crepedum {name} --help"))
    }

    pub fn has(&self, flag: &str) -> bool {
        self.flags.contains(&flag)
    }

    pub fn option(&self, name: &str) -> Option<&OsStr> {
        let given = self.options.iter().find(|(own, _)| *own == name);
        given.map(|(_, value)| &value[..])
    }

    /// The places, of which there must be as many as there are names for them.
    pub fn places<const N: usize>(&self, names: [&str; N]) -> Result<[&OsStr; N], Fault> {
        let given: Vec<&OsStr> = self.places.iter().map(|place| &place[..]).collect();
        given
            .try_into()
            .map_err(|_| self.wrong(&format!("wanted: {}", names.join(" "))))
    }
}
