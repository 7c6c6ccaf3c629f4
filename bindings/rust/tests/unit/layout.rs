// SPDX-License-Identifier: MIT OR Apache-2.0
//! The layouts of the structs that are passed to the library, beside those of `cadence.h`.
use super::*;
use std::mem::{offset_of, size_of};

macro_rules! layout {
    ($name:literal $type:ty: $($($field:ident).+)*) => {{
        let mut line = format!("{} {}", $name, size_of::<$type>());
        $(line += &format!(" {}", offset_of!($type, $($field).+));)*
        line
    }};
}

/// The variable CADENCE_LAYOUT names a file with the layouts of the header, as `bindings/c/layout.cpp` prints them.
#[test]
fn layouts_are_those_of_the_header() {
    let Ok(file) = std::env::var("CADENCE_LAYOUT") else { return };
    let header = std::fs::read_to_string(file).unwrap();
    let ours = [
        layout!("handle" Handle: at open),
        layout!("sums" Handle: at open),
        layout!("tag" Tag<'_>: key.at key.len text.at text.len keyed),
        layout!("settings" Settings<'_>: prefix.at prefix.len tags.at tags.len container.at container.len contained strict
            cleaned external.at external.len cardinality),
        layout!("decimal" Decimal: mantissa places),
        layout!("options" Options<'_>: tags.at tags.len container.at container.len rate time contained rated timed known
            cardinality),
        layout!("event" EventData<'_>: title.at title.len text.at text.len host.at host.len key.at key.len source.at source.len
            container.at container.len tags.at tags.len time priority alert timed),
        layout!("check" CheckData<'_>: name.at name.len host.at host.len message.at message.len container.at container.len
            tags.at tags.len time status timed),
    ];
    for line in ours {
        assert!(header.lines().any(|theirs| theirs == line), "{line}");
    }
    let variables = (0..2 * VARIABLES.len())
        .fold(format!("variables {}", size_of::<Variables<'_>>()), |line, i| format!("{line} {}", 8 * i));
    assert!(header.lines().any(|theirs| theirs == variables), "{variables}");
}
