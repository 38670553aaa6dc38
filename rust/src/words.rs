//! The words of refusals and diagnostics, all in one place: a row for each number.

/// What a refusal or a diagnostic says to people.
#[derive(Clone, Copy, Debug, PartialEq, Eq)]
pub struct Words {
    /// What is wrong.
    pub wrong: &'static str,
    /// What the place of a refusal or the range of a diagnostic points at; empty where there is none.
    pub place: &'static str,
    /// What to do.
    pub remedy: &'static str,
}

/// Refusals 1 to 11, in their order.
pub(crate) const REFUSALS: [Words; 11] = [
    Words {
        wrong: "the tree is over 524,288 bytes",
        place: "",
        remedy: "leave out texts that no declaration needs, as those of bodies and of `St`, or split the module",
    },
    Words {
        wrong: "the overload list is over 40,960 bytes, has no whole entries, or has an entry with a wrong mark or a start behind its end",
        place: "",
        remedy: "write 10 bytes for each entry: `ov`, then start and end in 4 bytes each, the lowest first",
    },
    Words {
        wrong: "a record's head or text runs past the tree",
        place: "the record",
        remedy: "give the whole tree; if it is whole, a text length or a child count is too large, here or before",
    },
    Words {
        wrong: "an unknown mark",
        place: "the record",
        remedy: "write a mark of the grammar; if no record was to begin here, a text length or a child count before is wrong",
    },
    Words {
        wrong: "a mark that can't stand here, a text of a wrong form, or too few children",
        place: "the record",
        remedy: "compare the record and the one that holds it with the grammar; where nothing stands, a slot holds a `No`",
    },
    Words {
        wrong: "a start behind its end",
        place: "the record",
        remedy: "write the range with its start first; 0 and 0 where there is none",
    },
    Words {
        wrong: "more than 64 levels",
        place: "the record on level 65",
        remedy: "write what stands that deep as one record without children, an `Oe` or an `Op`",
    },
    Words {
        wrong: "bytes after the root",
        place: "the first of them",
        remedy: "give the tree alone; if they belong to it, the child count of a record before is too small",
    },
    Words {
        wrong: "the output is longer than its buffer, or has a text that no head can hold",
        place: "",
        remedy: "give a buffer of 16 times the tree's length; if that is refused too, shorten the keys of objects to 65,531 bytes",
    },
    Words {
        wrong: "the diagnostics are longer than their buffer",
        place: "",
        remedy: "give 10 bytes for each 15 of the tree: there are never more diagnostics than records",
    },
    Words {
        wrong: "a number to be written has no spelling, and is not whole or not below 2 to the 53 in size",
        place: "the number",
        remedy: "give the `Nu` its spelling as its first `Op`; the transform drops that of a negative number in `as const`, so write a type there",
    },
];

/// Diagnostics d1 to d5, in their order.
pub(crate) const DIAGNOSTICS: [Words; 5] = [
    Words {
        wrong: "no type can be inferred from an expression or a declaration",
        place: "an array's element, a variable with a pattern, an expression as a parameter, or an exported `using`",
        remedy: "write `as` and a type behind the expression, or declare each name by itself with a type",
    },
    Words {
        wrong: "no type can be inferred, so it is `any`",
        place: "a variable's or a parameter's name, a default, or a property's value",
        remedy: "write a type behind the name, or `as` and a type behind the value",
    },
    Words {
        wrong: "no type can be inferred from a property, so the object's type is without it",
        place: "the property",
        remedy: "write it as a key and a value with `as` and a type, or give the whole object a type",
    },
    Words {
        wrong: "no type can be inferred from a spread: an object's type is without it, and an array has no type",
        place: "the spread",
        remedy: "write the spread properties or elements one by one, or give the whole object or array a type",
    },
    Words {
        wrong: "no type can be inferred from `using`, so the declaration goes",
        place: "the `using` declaration",
        remedy: "export a `const` with a type instead",
    },
];

/// What a number says that no row above has.
pub(crate) const UNKNOWN: Words = Words {
    wrong: "a number that this crate doesn't know",
    place: "",
    remedy: "use the crate and the library of one version",
};

#[cfg(test)]
mod tests {
    use super::*;

    #[test]
    fn every_row_is_whole() {
        for (i, words) in REFUSALS.iter().enumerate() {
            assert!(!words.wrong.is_empty() && !words.remedy.is_empty());
            assert_eq!(words.place.is_empty(), !matches!(i + 1, 3..=8 | 11));
        }
        for words in DIAGNOSTICS {
            assert!(!words.wrong.is_empty() && !words.place.is_empty() && !words.remedy.is_empty());
        }
    }

    #[test]
    fn the_example_in_c_says_the_same() {
        let example = include_str!("../../examples/call.c");
        let lines: String = DIAGNOSTICS.iter().map(|words| format!("    \"{}\",\n", words.wrong)).collect();
        assert!(example.contains(&lines));
    }
}
