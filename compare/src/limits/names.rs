//! The names of a limits text that fields are read from, in the order of the fields.

pub struct Name {
    pub name: &'static str,
    /// Empty where the kernel writes none.
    pub unit: &'static str,
}

const fn name(name: &'static str, unit: &'static str) -> Name {
    Name { name, unit }
}

pub const NAMES: [Name; 16] = [
    name("Max cpu time", "seconds"),
    name("Max file size", "bytes"),
    name("Max data size", "bytes"),
    name("Max stack size", "bytes"),
    name("Max core file size", "bytes"),
    name("Max resident set", "bytes"),
    name("Max processes", "processes"),
    name("Max open files", "files"),
    name("Max locked memory", "bytes"),
    name("Max address space", "bytes"),
    name("Max file locks", "locks"),
    name("Max pending signals", "signals"),
    name("Max msgqueue size", "bytes"),
    name("Max nice priority", ""),
    name("Max realtime priority", ""),
    name("Max realtime timeout", "us"),
];
