//! What the figures were taken on.

use std::fs;

/// A cache of the first core.
pub struct Cache {
    name: String,
    bytes: usize,
}

/// The caches that hold data, smallest first.
pub fn caches() -> Vec<Cache> {
    let found = (0..8).map(|index| format!("/sys/devices/system/cpu/cpu0/cache/index{index}"));
    found.filter_map(|folder| cache(&folder)).collect()
}

fn cache(folder: &str) -> Option<Cache> {
    let told = |name: &str| fs::read_to_string(format!("{folder}/{name}")).ok();
    let (level, kind, size) = (told("level")?, told("type")?, told("size")?);
    let kibibytes: usize = size.trim().strip_suffix('K')?.parse().ok()?;
    let name = format!("L{}", level.trim());
    let bytes = 1024 * kibibytes;
    (kind.trim() != "Instruction").then_some(Cache { name, bytes })
}

/// The smallest cache that the bytes fit.
pub fn home(caches: &[Cache], bytes: usize) -> String {
    match caches.iter().find(|cache| bytes <= cache.bytes) {
        Some(cache) => format!("fits {}", cache.name),
        None => "fits no cache".into(),
    }
}

/// Processor, caches and compiler, as a list.
pub fn describe(caches: &[Cache]) -> String {
    let about = fs::read_to_string("/proc/cpuinfo").unwrap_or_default();
    let cores = about
        .lines()
        .filter(|line| line.starts_with("processor"))
        .count();
    let model = about
        .lines()
        .find_map(|line| line.strip_prefix("model name"));
    let model = model.map_or("unknown", |name| name.trim_start_matches([' ', '\t', ':']));
    let sizes: Vec<String> = caches.iter().map(size).collect();
    let flags = match env!("BUILT_FLAGS") {
        "" => "no further flags",
        flags => flags,
    };
    format!(
        "- processor: {model}, {cores} cores; caches of a core: {}\n\
         - benchmark and tuned version: {}, {}, opt-level {}, {flags}\n",
        sizes.join(", "),
        env!("BUILT_WITH"),
        env!("BUILT_FOR"),
        env!("BUILT_LEVEL"),
    )
}

fn size(cache: &Cache) -> String {
    format!("{} {} KiB", cache.name, cache.bytes / 1024)
}
