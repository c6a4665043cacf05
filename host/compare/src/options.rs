//! The options of the commands: names with a number each.

use std::collections::BTreeMap;

/// Takes `--name value` pairs apart, of these names alone.
///
/// # Errors
///
/// A name that is not known, or one without its value.
pub fn pairs(
    mut args: impl Iterator<Item = String>,
    names: &[&str],
) -> Result<BTreeMap<String, String>, String> {
    let mut ret = BTreeMap::new();
    while let Some(name) = args.next() {
        if !names.contains(&name.as_str()) {
            return Err(format!("no such option: {name}"));
        }
        let value = args.next().ok_or(format!("{name} lacks its value"))?;
        ret.insert(name, value);
    }
    Ok(ret)
}

/// The number of an option, or what stands for it.
///
/// # Errors
///
/// The value is no number, or there is neither.
pub fn number(
    pairs: &BTreeMap<String, String>,
    name: &str,
    other: Option<u64>,
) -> Result<u64, String> {
    match pairs.get(name) {
        None => other.ok_or(format!("{name} is wanted")),
        Some(value) => {
            let number = value.parse();
            number.map_err(|_| format!("{name} takes a number, not {value:?}"))
        }
    }
}
