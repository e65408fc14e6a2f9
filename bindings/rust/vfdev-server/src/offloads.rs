//! What the card does for the drivers of its guests, by names: in `--offloads` and at the top of the configuration.
//!
//! ```
//! use vfdev::card::Offloads;
//! use vfdev_server::offloads;
//!
//! assert_eq!(offloads::parse("all"), Ok(Offloads::ALL));
//! assert_eq!(offloads::parse("none"), Ok(Offloads::NONE));
//! let some = offloads::parse("segmentation,vlan")?;
//! assert_eq!(some, Offloads { vlan: true, segmentation: true, ..Offloads::NONE });
//! assert_eq!(offloads::shown(some), "vlan,segmentation");
//! # Ok::<(), offloads::NoOffload>(())
//! ```

use serde::de::{Deserialize, Deserializer, SeqAccess, Visitor};
use std::fmt;
use toml::Spanned;
use vfdev::card::Offloads;

const VLAN: &str = "vlan";
const CHECKSUM: &str = "checksum";
const SEGMENTATION: &str = "segmentation";
const AUTO_MASK: &str = "auto-mask";
const LEGACY_RECEIVE: &str = "legacy-receive";
const THROTTLE: &str = "throttle";
const RECEIVE_CHECKSUM: &str = "receive-checksum";

/// What the card does where nothing else is said: all but to hold interrupts back as far apart as drivers ask for, since that costs a guest more
/// than the interrupts do where it has no processor to itself.
pub const USUAL: Offloads = Offloads {
    throttle: false,
    ..Offloads::ALL
};

/// Why a name can't be among offloads.
#[derive(Clone, Debug, PartialEq, Eq)]
#[non_exhaustive]
pub enum NoOffload {
    /// There is none of this name.
    Unknown(String),
    /// It is there already.
    Twice(String),
}

impl fmt::Display for NoOffload {
    fn fmt(&self, f: &mut fmt::Formatter<'_>) -> fmt::Result {
        match self {
            NoOffload::Unknown(name) => write!(
                f,
                "there is no offload `{name}`: they are {VLAN}, {CHECKSUM}, {SEGMENTATION}, {AUTO_MASK}, {LEGACY_RECEIVE}, {THROTTLE} and {RECEIVE_CHECKSUM}, or all or none alone"
            ),
            NoOffload::Twice(name) => write!(f, "the offload `{name}` stands here twice"),
        }
    }
}

impl std::error::Error for NoOffload {}

/// Adds one of them by its name.
///
/// # Errors
/// As [`NoOffload`] says.
pub fn add(offloads: &mut Offloads, name: &str) -> Result<(), NoOffload> {
    let flag = match name {
        VLAN => &mut offloads.vlan,
        CHECKSUM => &mut offloads.checksum,
        SEGMENTATION => &mut offloads.segmentation,
        AUTO_MASK => &mut offloads.auto_mask,
        LEGACY_RECEIVE => &mut offloads.legacy_receive,
        THROTTLE => &mut offloads.throttle,
        RECEIVE_CHECKSUM => &mut offloads.receive_checksum,
        _ => return Err(NoOffload::Unknown(name.to_owned())),
    };
    if *flag {
        return Err(NoOffload::Twice(name.to_owned()));
    }
    *flag = true;
    Ok(())
}

/// All, none, or some by their names, with commas between.
///
/// # Errors
/// As [`NoOffload`] says.
pub fn parse(word: &str) -> Result<Offloads, NoOffload> {
    let mut offloads = Offloads::NONE;
    match word {
        "all" => return Ok(Offloads::ALL),
        "none" => {}
        names => {
            for name in names.split(',') {
                add(&mut offloads, name)?;
            }
        }
    }
    Ok(offloads)
}

/// The same, as a text.
#[must_use]
pub fn shown(offloads: Offloads) -> String {
    let names: Vec<&str> = [
        (offloads.vlan, VLAN),
        (offloads.checksum, CHECKSUM),
        (offloads.segmentation, SEGMENTATION),
        (offloads.auto_mask, AUTO_MASK),
        (offloads.legacy_receive, LEGACY_RECEIVE),
        (offloads.throttle, THROTTLE),
        (offloads.receive_checksum, RECEIVE_CHECKSUM),
    ]
    .into_iter()
    .filter_map(|(is_on, name)| is_on.then_some(name))
    .collect();
    match offloads {
        Offloads::ALL => "all".to_owned(),
        Offloads::NONE => "none".to_owned(),
        _ => names.join(","),
    }
}

/// Offloads as a configuration has them: a text as that of `--offloads`, or a list of names.
#[derive(Debug)]
pub(crate) enum Written {
    /// The text.
    Word(String),
    /// The list.
    List(Vec<Spanned<String>>),
}

impl<'de> Deserialize<'de> for Written {
    fn deserialize<D: Deserializer<'de>>(deserializer: D) -> Result<Written, D::Error> {
        deserializer.deserialize_any(WordOrList)
    }
}

// What either is read by. (An untagged enum would lose the places of the names.)
struct WordOrList;

impl<'de> Visitor<'de> for WordOrList {
    type Value = Written;

    fn expecting(&self, f: &mut fmt::Formatter<'_>) -> fmt::Result {
        f.write_str("a list of names, \"all\" or \"none\"")
    }

    fn visit_str<E>(self, word: &str) -> Result<Written, E> {
        Ok(Written::Word(word.to_owned()))
    }

    fn visit_seq<A: SeqAccess<'de>>(self, mut names: A) -> Result<Written, A::Error> {
        let mut list = Vec::new();
        while let Some(name) = names.next_element()? {
            list.push(name);
        }
        Ok(Written::List(list))
    }
}

#[cfg(test)]
mod tests {
    use super::*;

    const KNOWN: &str =
        "they are vlan, checksum, segmentation, auto-mask, legacy-receive, throttle and receive-checksum, or all or none alone";

    #[test]
    fn each_refusal_names_what_is_wrong() {
        for (word, why) in [
            ("tso", format!("there is no offload `tso`: {KNOWN}")),
            ("vlan,", format!("there is no offload ``: {KNOWN}")),
            ("", format!("there is no offload ``: {KNOWN}")),
            ("vlan,all", format!("there is no offload `all`: {KNOWN}")),
            ("VLAN", format!("there is no offload `VLAN`: {KNOWN}")),
            (
                "vlan,checksum,vlan",
                "the offload `vlan` stands here twice".to_owned(),
            ),
        ] {
            assert_eq!(parse(word).map_err(|e| e.to_string()), Err(why), "{word}");
        }
    }

    // What each name turns on, by itself and with all others.
    #[test]
    fn each_name_is_one_flag() {
        let names = [
            "vlan",
            "checksum",
            "segmentation",
            "auto-mask",
            "legacy-receive",
            "throttle",
            "receive-checksum",
        ];
        let one = |name| parse(name).unwrap_or_default();
        for (name, is_on) in [
            (names[0], one(names[0]).vlan),
            (names[1], one(names[1]).checksum),
            (names[2], one(names[2]).segmentation),
            (names[3], one(names[3]).auto_mask),
            (names[4], one(names[4]).legacy_receive),
            (names[5], one(names[5]).throttle),
            (names[6], one(names[6]).receive_checksum),
        ] {
            assert!(is_on, "{name}");
            assert_eq!(shown(one(name)), name);
        }
        assert_eq!(parse(&names.join(",")), Ok(Offloads::ALL));
        assert_eq!(shown(Offloads::ALL), "all");
        assert_eq!(shown(Offloads::NONE), "none");
        assert_eq!(
            shown(one("auto-mask,checksum,vlan")),
            "vlan,checksum,auto-mask"
        );
    }
}
