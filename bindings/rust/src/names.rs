//! The names that stand in a transcript.
use std::fmt;

macro_rules! names {
    ($(#[$about:meta])* $kind:ident { $($variant:ident $word:literal $what:literal,)+ }) => {
        $(#[$about])*
        #[derive(Debug, Clone, Copy, PartialEq, Eq, Hash, PartialOrd, Ord)]
        pub enum $kind {
            $(#[doc = $what] $variant,)+
        }

        impl $kind {
            /// The name as it stands in a transcript.
            pub fn name(self) -> &'static str {
                match self {
                    $($kind::$variant => $word,)+
                }
            }

            /// What has this name.
            pub fn of(name: &str) -> Option<$kind> {
                match name {
                    $($word => Some($kind::$variant),)+
                    _ => None,
                }
            }
        }

        impl fmt::Display for $kind {
            fn fmt(&self, out: &mut fmt::Formatter<'_>) -> fmt::Result {
                out.write_str(self.name())
            }
        }
    };
}

names! {
    /// What the engine throws.
    FaultName {
        TypeError "TypeError" "An operand is of another kind.",
        ReferenceError "ReferenceError" "There is no `this` yet, or there is one already.",
        SyntaxError "SyntaxError" "A name is no custom element's.",
        NotSupportedError "NotSupportedError" "It may not be done to this, or not twice.",
        HierarchyRequestError "HierarchyRequestError" "A node may not stand there.",
        NotFoundError "NotFoundError" "It is not the child, or not the submitter.",
        InvalidCharacterError "InvalidCharacterError" "It is no name.",
    }
}

names! {
    /// The custom element state of an element.
    State {
        Undefined "undefined" "It may become custom.",
        Failed "failed" "Its constructor threw.",
        Uncustomized "uncustomized" "It has no definition.",
        Precustomized "precustomized" "Its constructor runs, or threw.",
        Custom "custom" "It is custom.",
    }
}

names! {
    /// A validity flag.
    Flag {
        ValueMissing "valueMissing" "A value is missing.",
        TypeMismatch "typeMismatch" "The value is not of the type.",
        PatternMismatch "patternMismatch" "The value does not fit the pattern.",
        TooLong "tooLong" "The value is too long.",
        TooShort "tooShort" "The value is too short.",
        RangeUnderflow "rangeUnderflow" "The value is too low.",
        RangeOverflow "rangeOverflow" "The value is too high.",
        StepMismatch "stepMismatch" "The value is between two steps.",
        BadInput "badInput" "What was put in is no value.",
        CustomError "customError" "A message was set.",
    }
}

names! {
    /// Why a line was refused.
    Bad {
        Long "long" "It has more than 4096 bytes.",
        Utf8 "utf8" "It is not UTF-8.",
        Quote "quote" "A quote is missing, or is one too many.",
        Escape "escape" "A backslash begins no escape.",
        Word "word" "A word is none that may stand there.",
        Arity "arity" "An operand is missing, or is left over.",
        Place "place" "It may not stand there.",
    }
}

names! {
    /// Why a state comes back.
    Mode {
        Restore "restore" "The user agent restores it.",
        Autocomplete "autocomplete" "The user agent fills it in.",
    }
}

names! {
    /// For what a reaction was enqueued.
    Enqueued {
        Upgrade "upgrade" "An upgrade.",
        Connected "connected" "The connected callback.",
        Disconnected "disconnected" "The disconnected callback.",
        Adopted "adopted" "The adopted callback.",
        Attribute "attribute" "The attribute callback.",
        FormAssociated "formAssociated" "The formAssociated callback.",
        FormDisabled "formDisabled" "The formDisabled callback.",
        FormReset "formReset" "The formReset callback.",
        FormStateRestore "formStateRestore" "The formStateRestore callback.",
    }
}
