//! Values that the format has a word for, in the order of 01's numbers.

/// An enum whose cases have a word each. Its numbers are 01's: the cases are counted from 0.
macro_rules! words {
    ($(#[$about:meta])* $name:ident: $($(#[$says:meta])* $case:ident = $word:literal,)+) => {
        $(#[$about])*
        #[derive(Debug, Clone, Copy, PartialEq, Eq, Hash)]
        pub enum $name {
            $($(#[$says])* $case,)+
        }

        impl $name {
            /// All of them, in the order of 01's numbers.
            pub const ALL: &'static [Self] = &[$(Self::$case,)+];

            /// As the format writes it.
            pub const fn word(self) -> &'static str {
                match self {
                    $(Self::$case => $word,)+
                }
            }

            /// The one that the format writes so.
            pub fn from_word(word: &str) -> Option<Self> {
                match word {
                    $($word => Some(Self::$case),)+
                    _ => None,
                }
            }

            /// 01's number.
            pub const fn number(self) -> u64 {
                self as u64
            }

            /// The one with 01's number.
            pub fn from_number(number: u64) -> Option<Self> {
                let at = usize::try_from(number).ok()?;
                Self::ALL.get(at).copied()
            }
        }

        impl std::fmt::Display for $name {
            fn fmt(&self, f: &mut std::fmt::Formatter<'_>) -> std::fmt::Result {
                f.pad(self.word())
            }
        }
    };
}

pub(crate) use words;

words! {
    /// The mode of a rule set, and the one that a control sets.
    Mode:
    /// Rules match and stop requests.
    On = "On",
    /// Rules match, and none stops a request.
    DetectionOnly = "DetectionOnly",
    /// No rule is visited.
    Off = "Off",
}

words! {
    /// The processor of the request body that a control sets.
    BodyProcessor:
    /// `URLENCODED`
    Urlencoded = "URLENCODED",
    /// `MULTIPART`
    Multipart = "MULTIPART",
    /// `JSON`
    Json = "JSON",
    /// `XML`
    Xml = "XML",
}

words! {
    /// What the evaluation of a rule finds.
    Outcome:
    /// It does not match.
    Missed = "missed",
    /// It matches without a variable.
    Matched = "matched",
    /// It matches with a variable.
    MatchedVariable = "matched-var",
    /// The evaluation fails.
    Error = "error",
}

words! {
    /// What a visit found of its rule.
    Verdict:
    /// The outcome was missed.
    Missed = "missed",
    /// The outcome was one of the two that match.
    Matched = "matched",
    /// The rule's id lies in a removed range. The Rust does not evaluate such a rule and has no visit of it.
    Removed = "removed",
    /// The outcome was the rule error.
    Error = "error",
}

#[cfg(test)]
mod tests {
    use super::*;

    #[test]
    fn numbers_are_those_of_01() {
        let modes = [Mode::On, Mode::DetectionOnly, Mode::Off];
        assert_eq!(modes.map(Mode::number), [0, 1, 2]);
        assert_eq!(BodyProcessor::Xml.number(), 3);
        assert_eq!(Outcome::Error.number(), 3);
        assert_eq!(Verdict::Removed.number(), 2);
        assert_eq!(Mode::from_number(3), None);
        assert_eq!(Mode::from_number(u64::MAX), None);
    }

    #[test]
    fn words_and_numbers_lead_back() {
        for mode in Mode::ALL {
            assert_eq!(Mode::from_word(mode.word()), Some(*mode));
            assert_eq!(Mode::from_number(mode.number()), Some(*mode));
        }
        assert_eq!(Mode::from_word("on"), None);
    }
}
