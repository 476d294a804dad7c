//! Which wrong variant is on. The list is in faults.txt.

use std::sync::OnceLock;

static CHOSEN: OnceLock<String> = OnceLock::new();

fn chosen() -> &'static str {
    CHOSEN.get_or_init(|| {
        let name = std::env::var("STANDIN_FAULT").unwrap_or_default();
        let listed = include_str!("../faults.txt").lines().any(|line| line.split(' ').next() == Some(&name));
        assert!(name.is_empty() || listed, "no such fault: {name}");
        name
    })
}

pub fn on(name: &str) -> bool {
    chosen() == name
}

/// The variant whose name has these two parts.
pub fn on_with(start: &str, rest: &str) -> bool {
    chosen().strip_prefix(start) == Some(rest)
}

/// Whether some variant is on whose name starts so.
pub fn any_on(start: &str) -> bool {
    chosen().starts_with(start)
}
