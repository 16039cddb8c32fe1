//! extra DIR [NAME...]   writes traces of edges that chance reaches badly, all or those named
//!
//!   config.trace     `new` at and past every bound of the configuration (needs large tables)
//!   utf8.trace       details around every edge of RFC 3629, and its section 7 samples
//!   bodies.trace     each body cut at every length, and each value at its edges
//!   draws.trace      the rule of draws
//!   sequence.trace   poked: every queueing with the sequence at, or one below, 2^64 - 1

mod bodies;
mod config;
mod draws;
mod script;
mod sequence;
mod utf8;

use script::Script;

type Named = (&'static str, fn() -> Script);

const SCRIPTS: [Named; 5] = [
    ("config", config::script),
    ("utf8", utf8::script),
    ("bodies", bodies::script),
    ("draws", draws::script),
    ("sequence", sequence::script),
];

fn main() {
    let mut args = std::env::args().skip(1);
    let dir = args.next().expect("extra DIR [NAME...]");
    let names: Vec<String> = args.collect();
    std::fs::create_dir_all(&dir).expect("DIR can be made");
    for (name, script) in SCRIPTS {
        if names.is_empty() || names.iter().any(|asked| asked == name) {
            let script = script();
            println!("{name}: {} calls", script.calls());
            std::fs::write(format!("{dir}/{name}.trace"), script.text()).expect("DIR can be written to");
        }
    }
}
