//! What the administrator grants each function: the file of `--config`, or what holds where there is none.
//!
//! ```
//! use vfdev_server::config::Settings;
//!
//! let settings = Settings::parse(
//!     r#"
//!     vlans = [0, 7]
//!     [[function]]
//!     number = 1
//!     name = "web"
//!     address = "02:82:59:00:00:02"
//!     port_vlan = 7
//!     "#,
//!     2,
//! )?;
//! assert_eq!(settings.ids, [0, 7]);
//! assert!(settings.grants[0].is_none());
//! let refused = Settings::parse("vlans = [0]\nvlan = 3\n", 2).unwrap_err();
//! assert_eq!(refused.to_string(), "line 2: there is no field `vlan` here");
//! # Ok::<(), vfdev_server::config::Refused>(())
//! ```

use crate::mac::Mac;
use crate::offloads;
use serde::Deserialize;
use std::fmt;
use std::ops::Range;
use toml::Spanned;
use vfdev::card::{Offloads, Policy, Vlans, MOST_IDS};

/// What the administrator grants one function.
#[derive(Clone, Debug, PartialEq, Eq)]
pub struct Grant {
    /// What log lines and counters call it.
    pub name: String,
    /// What its driver may have.
    pub policy: Policy,
}

/// All of a configuration.
#[derive(Clone, Debug, PartialEq, Eq)]
pub struct Settings {
    /// The VLAN ids that functions may be in; 0 is no tag.
    pub ids: Vec<u16>,
    /// The function that gets the frames which nobody accepts.
    pub default_function: Option<u8>,
    /// What the card does for the drivers of all guests.
    pub offloads: Offloads,
    /// What each function is granted. `None`: it neither receives nor sends.
    pub grants: Vec<Option<Grant>>,
}

/// Why a configuration is not taken.
#[derive(Clone, Debug, PartialEq, Eq)]
pub struct Refused {
    line: Option<usize>,
    why: String,
}

impl fmt::Display for Refused {
    fn fmt(&self, f: &mut fmt::Formatter<'_>) -> fmt::Result {
        match self.line {
            Some(line) => write!(f, "line {line}: {}", self.why),
            None => f.write_str(&self.why),
        }
    }
}

impl std::error::Error for Refused {}

// The file as it is written.
#[derive(Deserialize)]
#[serde(deny_unknown_fields)]
struct Written {
    vlans: Spanned<Vec<Spanned<i64>>>,
    default_function: Option<Spanned<i64>>,
    offloads: Option<Spanned<offloads::Written>>,
    #[serde(default)]
    function: Vec<Section>,
}

// One function of it.
#[derive(Deserialize)]
#[serde(deny_unknown_fields)]
struct Section {
    number: Spanned<i64>,
    name: Option<Spanned<String>>,
    address: Spanned<String>,
    vlans: Option<Vec<Spanned<i64>>>,
    port_vlan: Option<Spanned<i64>>,
    #[serde(default)]
    may_choose: bool,
    #[serde(default)]
    all_multicast: bool,
    #[serde(default = "yes")]
    link_up: bool,
}

fn yes() -> bool {
    true
}

// The place of a value's first byte in the text. Older releases of the crate toml tell a pair, newer ones a range.
trait First {
    fn first(&self) -> usize;
}

impl First for (usize, usize) {
    fn first(&self) -> usize {
        self.0
    }
}

impl First for Range<usize> {
    fn first(&self) -> usize {
        self.start
    }
}

// A text, whose values stand in lines.
struct Text<'a>(&'a str);

impl Text<'_> {
    fn refuse<T>(&self, at: &Spanned<T>, why: String) -> Refused {
        let front = &self.0.as_bytes()[..at.span().first().min(self.0.len())];
        let line = 1 + front.iter().filter(|byte| **byte == b'\n').count();
        Refused {
            line: Some(line),
            why,
        }
    }

    // The ids that policies may name.
    fn ids(&self, written: &Spanned<Vec<Spanned<i64>>>) -> Result<Vec<u16>, Refused> {
        let mut ids = Vec::new();
        for id in written.get_ref() {
            let number = u16::try_from(*id.get_ref()).ok().filter(|n| *n < 4096);
            let Some(number) = number else {
                let why = format!("there is no VLAN id {}: they are 0 to 4095", id.get_ref());
                return Err(self.refuse(id, why));
            };
            if ids.contains(&number) {
                return Err(self.refuse(id, format!("VLAN {number} stands here twice")));
            }
            ids.push(number);
        }
        if ids.len() > MOST_IDS {
            let why = format!(
                "there are {} VLAN ids: a card has {MOST_IDS} at most",
                ids.len()
            );
            return Err(self.refuse(written, why));
        }
        Ok(ids)
    }

    // What the card does for all guests: what is usual, where nothing is said.
    fn offloads(&self, written: Option<&Spanned<offloads::Written>>) -> Result<Offloads, Refused> {
        let Some(written) = written else {
            return Ok(offloads::USUAL);
        };
        let names = match written.get_ref() {
            offloads::Written::List(names) => names,
            offloads::Written::Word(word) => {
                let refused = |error: offloads::NoOffload| self.refuse(written, error.to_string());
                return offloads::parse(word).map_err(refused);
            }
        };
        let mut found = Offloads::NONE;
        for name in names {
            let added = offloads::add(&mut found, name.get_ref());
            added.map_err(|error| self.refuse(name, error.to_string()))?;
        }
        Ok(found)
    }

    // The number of a function that there is.
    fn number(&self, written: &Spanned<i64>, functions: u8) -> Result<u8, Refused> {
        let number = u8::try_from(*written.get_ref()).ok();
        number.filter(|n| *n < functions).ok_or_else(|| {
            let why = format!(
                "there is no function {}: --functions {functions} makes 0 to {}",
                written.get_ref(),
                functions.saturating_sub(1)
            );
            self.refuse(written, why)
        })
    }

    // The place of an id among those that policies may name.
    fn place(&self, id: &Spanned<i64>, ids: &[u16]) -> Result<u8, Refused> {
        let place = ids
            .iter()
            .position(|known| i64::from(*known) == *id.get_ref());
        place.and_then(|n| u8::try_from(n).ok()).ok_or_else(|| {
            let why = format!("VLAN {} isn't among `vlans` at the top", id.get_ref());
            self.refuse(id, why)
        })
    }

    fn vlans(&self, section: &Section, ids: &[u16]) -> Result<Vlans, Refused> {
        match (&section.vlans, &section.port_vlan) {
            (Some(_), Some(port)) => {
                let why = "a function has either `vlans` or `port_vlan`".to_owned();
                Err(self.refuse(port, why))
            }
            (None, None) => {
                let why = "the function has neither `vlans` nor `port_vlan`".to_owned();
                Err(self.refuse(&section.number, why))
            }
            (None, Some(port)) => Ok(Vlans::Port(self.place(port, ids)?)),
            (Some(joined), None) => {
                let mut places = 0u64;
                for id in joined {
                    places |= 1 << self.place(id, ids)?;
                }
                Ok(Vlans::Joins(places))
            }
        }
    }

    fn grant(&self, section: &Section, number: u8, ids: &[u16]) -> Result<Grant, Refused> {
        let address = section.address.get_ref().parse::<Mac>();
        let address = address.map_err(|error| self.refuse(&section.address, error.to_string()))?;
        let name = match &section.name {
            None => format!("vf{number}"),
            Some(name) if is_name(name.get_ref()) => name.get_ref().clone(),
            Some(name) => {
                let why = "a name has 1 to 64 letters, digits or signs of -_.:".to_owned();
                return Err(self.refuse(name, why));
            }
        };
        let mut policy = Policy::new(address.bytes(), self.vlans(section, ids)?);
        policy.may_choose = section.may_choose;
        policy.all_multicast = section.all_multicast;
        policy.link_up = section.link_up;
        Ok(Grant { name, policy })
    }

    // What was granted before, under this name or with this address.
    fn first_of(
        &self,
        grants: &[Option<Grant>],
        grant: &Grant,
        section: &Section,
    ) -> Result<(), Refused> {
        for other in grants.iter().flatten() {
            if other.policy.address == grant.policy.address {
                let why = format!("the address is that of '{}' already", other.name);
                return Err(self.refuse(&section.address, why));
            }
            if other.name == grant.name {
                let why = format!("two functions are called '{}'", grant.name);
                return Err(match &section.name {
                    Some(name) => self.refuse(name, why),
                    None => self.refuse(&section.number, why),
                });
            }
        }
        Ok(())
    }
}

// What the crate toml refuses. Its message has the line, but for a field that there isn't or that stands there twice: then some releases
// tell the line of the whole table, and the field stands there or behind.
fn not_toml(text: &str, said: &str) -> Refused {
    let told = said.split_once("at line ").map_or("", |(_, rest)| rest);
    let told = told.split(|sign: char| !sign.is_ascii_digit()).next();
    let Some(told) = told.and_then(|digits| digits.parse::<usize>().ok()) else {
        return Refused {
            line: None,
            why: said.to_owned(),
        };
    };
    let (line, why) = if let Some(field) = quoted(said, "unknown field `") {
        let line = lines_of_field(text, told, field).next();
        (line, format!("there is no field `{field}` here"))
    } else if let Some(field) = twice(said) {
        let line = lines_of_field(text, told, field).nth(1);
        (line, format!("the field `{field}` stands here twice"))
    } else {
        // (newer releases draw the place first)
        let (_, reason) = said.rsplit_once("^\n").unwrap_or(("", said));
        (None, reason.trim().replace('\n', ", "))
    };
    Refused {
        line: line.or(Some(told)),
        why,
    }
}

// The field that stands there twice, as releases say it.
fn twice(said: &str) -> Option<&str> {
    quoted(said, "duplicate field `").or_else(|| quoted(said, "duplicate key `"))
}

// What stands behind these words, up to the next back quote.
fn quoted<'a>(said: &'a str, words: &str) -> Option<&'a str> {
    let (_, rest) = said.split_once(words)?;
    rest.split_once('`').map(|(field, _)| field)
}

// What log lines and counters can show without quoting.
fn is_name(name: &str) -> bool {
    let is_plain = |byte: u8| byte.is_ascii_alphanumeric() || b"-_.:".contains(&byte);
    (1..=64).contains(&name.len()) && name.bytes().all(is_plain)
}

// The lines from this one on that give the field a value.
fn lines_of_field<'a>(
    text: &'a str,
    first: usize,
    field: &'a str,
) -> impl Iterator<Item = usize> + 'a {
    let gives = move |line: &str| {
        let rest = line.trim_start().strip_prefix(field);
        rest.is_some_and(|rest| rest.trim_start().starts_with('='))
    };
    let lines = (1..).zip(text.lines()).skip(first.saturating_sub(1));
    lines
        .filter(move |(_, line)| gives(line))
        .map(|(number, _)| number)
}

impl Settings {
    /// What holds where there is no file: function i has the address 02:82:59:00:00:(i+1), and is in VLAN 0, which is no tag.
    ///
    /// ```
    /// use vfdev_server::config::Settings;
    /// let settings = Settings::without_file(64);
    /// let last = settings.grants[63].as_ref();
    /// assert_eq!(last.map(|grant| grant.policy.address), Some([2, 0x82, 0x59, 0, 0, 64]));
    /// ```
    #[must_use]
    pub fn without_file(functions: u8) -> Settings {
        let grant = |number: u8| Grant {
            name: format!("vf{number}"),
            policy: Policy::new(
                [2, 0x82, 0x59, 0, 0, number.saturating_add(1)],
                Vlans::Joins(1),
            ),
        };
        Settings {
            ids: vec![0],
            default_function: None,
            offloads: offloads::USUAL,
            grants: (0..functions).map(|number| Some(grant(number))).collect(),
        }
    }

    /// What a file says, for so many functions.
    ///
    /// # Errors
    /// [`Refused`], with the line and the reason.
    pub fn parse(text: &str, functions: u8) -> Result<Settings, Refused> {
        let written = toml::from_str(text).map_err(|error| not_toml(text, &error.to_string()));
        let written: Written = written?;
        let text = Text(text);
        let ids = text.ids(&written.vlans)?;
        let default_function = match &written.default_function {
            Some(number) => Some(text.number(number, functions)?),
            None => None,
        };
        let offloads = text.offloads(written.offloads.as_ref())?;
        let mut grants = vec![None; usize::from(functions)];
        for section in &written.function {
            let number = text.number(&section.number, functions)?;
            let grant = text.grant(section, number, &ids)?;
            text.first_of(&grants, &grant, section)?;
            let place = &mut grants[usize::from(number)];
            if place.is_some() {
                let why = format!("function {number} stands here twice");
                return Err(text.refuse(&section.number, why));
            }
            *place = Some(grant);
        }
        Ok(Settings {
            ids,
            default_function,
            offloads,
            grants,
        })
    }
}

#[cfg(test)]
mod tests {
    use super::*;

    const HEAD: &str =
        "vlans = [0, 7]\n[[function]]\nnumber = 0\naddress = \"02:00:00:00:00:01\"\n";

    // What is refused, and how that reads.
    #[test]
    fn each_refusal_names_its_line() {
        for (text, why) in [
            (
                "vlans = [0, 4096]",
                "line 1: there is no VLAN id 4096: they are 0 to 4095",
            ),
            ("vlans = [\n 0,\n 0]", "line 3: VLAN 0 stands here twice"),
            (
                "vlans = []\ndefault_function = 2",
                "line 2: there is no function 2: --functions 2 makes 0 to 1",
            ),
            (
                HEAD,
                "line 3: the function has neither `vlans` nor `port_vlan`",
            ),
            (
                &format!("{HEAD}vlans = [0, 8]"),
                "line 5: VLAN 8 isn't among `vlans` at the top",
            ),
            (
                &format!("{HEAD}vlans = [0]\nport_vlan = 7"),
                "line 6: a function has either `vlans` or `port_vlan`",
            ),
            (
                &format!("{HEAD}vlans = [0]\nname = \"a b\""),
                "line 6: a name has 1 to 64 letters, digits or signs of -_.:",
            ),
            (
                "vlans = []\n[[function]]\nnumber = 0\naddress = \"03:00:00:00:00:01\"",
                "line 4: the address 03:00:00:00:00:01 is a group's, and not one station's",
            ),
            (
                "vlans = []\n[[function]]\nnumber = 0\naddress = \"02:00:00:00:01\"",
                "line 4: '02:00:00:00:01' is no address, as 02:82:59:00:00:01 is one",
            ),
        ] {
            assert_eq!(
                Settings::parse(text, 2).map_err(|e| e.to_string()),
                Err(why.to_owned()),
                "{text}"
            );
        }
    }

    // Two sections, the second of which is refused because of the first one.
    #[test]
    fn a_second_function_is_another_one() {
        let second = |number: u8, last: u8, name: &str| {
            format!(
                "{HEAD}vlans = [0]\n[[function]]\nnumber = {number}\naddress = \"02:00:00:00:00:0{last}\"\nvlans = [7]\n{name}"
            )
        };
        for (text, why) in [
            (
                second(1, 1, ""),
                "line 8: the address is that of 'vf0' already",
            ),
            (
                second(0, 2, "name = \"b\""),
                "line 7: function 0 stands here twice",
            ),
            (
                second(1, 2, "name = \"vf0\""),
                "line 10: two functions are called 'vf0'",
            ),
        ] {
            assert_eq!(
                Settings::parse(&text, 2).map_err(|e| e.to_string()),
                Err(why.to_owned()),
                "{text}"
            );
        }
        let taken = Settings::parse(&second(1, 2, "may_choose = true\nlink_up = false"), 2);
        let grants = taken.map(|settings| settings.grants).unwrap_or_default();
        let policy = grants[1].as_ref().map(|grant| grant.policy);
        let mut due = Policy::new([2, 0, 0, 0, 0, 2], Vlans::Joins(2));
        (due.may_choose, due.link_up) = (true, false);
        assert_eq!(policy, Some(due));
    }

    // What the card does, as a list and as a text; and what is refused of either.
    #[test]
    fn offloads_are_a_list_or_a_word() {
        let known = "they are vlan, checksum, segmentation, auto-mask, legacy-receive, throttle and receive-checksum, or all or none alone";
        let some = Offloads {
            vlan: true,
            legacy_receive: true,
            ..Offloads::NONE
        };
        for (line, due) in [
            ("", Ok(offloads::USUAL)),
            ("offloads = \"all\"", Ok(Offloads::ALL)),
            ("offloads = []", Ok(Offloads::NONE)),
            ("offloads = \"none\"", Ok(Offloads::NONE)),
            ("offloads = [\"legacy-receive\", \"vlan\"]", Ok(some)),
            ("offloads = \"vlan,legacy-receive\"", Ok(some)),
            (
                "offloads = [\n \"vlan\",\n \"tso\"\n]",
                Err(format!("line 4: there is no offload `tso`: {known}")),
            ),
            (
                "offloads = [\"none\"]",
                Err(format!("line 2: there is no offload `none`: {known}")),
            ),
            (
                "\noffloads = \"off\"",
                Err(format!("line 3: there is no offload `off`: {known}")),
            ),
            (
                "offloads = [\"vlan\",\n\"vlan\"]",
                Err("line 3: the offload `vlan` stands here twice".to_owned()),
            ),
        ] {
            let taken = Settings::parse(&format!("vlans = [0]\n{line}\n"), 2);
            let taken = taken.map(|settings| settings.offloads);
            assert_eq!(taken.map_err(|e| e.to_string()), due, "{line}");
        }
    }

    // What the crate toml itself refuses has the line too.
    #[test]
    fn what_is_no_toml_names_its_line() {
        for (text, line) in [
            ("vlans = [0]\nnumber = 1", 2),
            ("vlans = [0]\nwhat", 2),
            ("vlans = [0]\ndefault_function = \"a\"", 2),
            ("vlans = [0]\noffloads = true", 2),
            ("vlans = [0]\noffloads = [\"vlan\", 1]", 2),
            (&format!("{HEAD}vlans = [0]\n\n  mac = 1\n"), 7),
            (&format!("{HEAD}vlans = [0]\nlink_up = 1\n"), 6),
        ] {
            let why = Settings::parse(text, 2).map_err(|e| e.to_string()).err();
            let head = format!("line {line}: ");
            assert!(
                why.as_deref().is_some_and(|why| why.starts_with(&head)),
                "{text}: {why:?}"
            );
        }
    }
}
