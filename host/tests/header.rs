//! include/lekchnam.h: it declares what the archive exports and no more, its structs and numbers are the ones here, and
//! a C program makes the sixteen cases by it.
use lekchnam_host::body::{AcceptBody, IncomingBody, Invalid, OpenBody, OpenedBody, ReasonDetail, WindowBody};
use lekchnam_host::{limits, HnsrErrorCode, HnsrOpcode, HnsrRuntimeError, RANDOM_BYTES};
use std::collections::{BTreeMap, BTreeSet};
use std::env;
use std::fs;
use std::path::{Path, PathBuf};
use std::process::Command;

/// Fields behind which C leaves bytes unused, and how wide they are: another width would move no other field.
const WIDTHS: [(&str, &str, usize); 20] = [
    ("RelayTicket", "max_active_circuits", 2),
    ("RelayPending", "used", 1),
    ("RelayPending", "initial_window", 4),
    ("RelayCircuit", "used", 1),
    ("ReservationUsage", "used", 1),
    ("InflightAction", "used", 1),
    ("InflightAction", "to_endpoint", 1),
    ("OpaqueRelayConfig", "maximum_circuits_per_peer", 2),
    ("OpaqueRelayRuntime", "enabled", 1),
    ("RelayPacket", "opcode", 1),
    ("RelayPacket", "admitted", 1),
    ("Cause", "kind", 4),
    ("RelayReply", "answer", 4),
    ("StatusReply", "answer", 4),
    ("HnsrRuntimeStatus", "enabled", 1),
    ("DueReply", "some", 1),
    ("OpenBody", "endpoint_key", 33),
    ("IncomingBody", "requester_nonce", 16),
    ("OpenedBody", "endpoint_nonce", 16),
    ("ReasonDetail", "reason", 2),
];

fn here(path: &str) -> PathBuf {
    Path::new(env!("CARGO_MANIFEST_DIR")).join(path)
}

fn text(path: &str) -> String {
    fs::read_to_string(here(path)).unwrap_or_else(|error| panic!("{path}: {error}"))
}

fn made(name: &str) -> PathBuf {
    Path::new(env!("CARGO_TARGET_TMPDIR")).join(name)
}

/// What stands between two marks, each time.
fn between<'a>(text: &'a str, from: &str, to: &str) -> Vec<&'a str> {
    text.split(from).skip(1).filter_map(|rest| rest.split(to).next()).collect()
}

/// The header without its comments.
fn header() -> String {
    let header = text("include/lekchnam.h");
    let mut parts = header.split("/*");
    let first = parts.next().unwrap_or_default().to_owned();
    parts.fold(first, |bare, part| bare + part.split_once("*/").expect("a comment ends").1)
}

/// The compiler that a variable names, or this one.
fn compiler(setting: &str, otherwise: &str) -> String {
    env::var(setting).ok().filter(|named| !named.is_empty()).unwrap_or_else(|| otherwise.to_owned())
}

/// Compiles a file, every warning an error, and links the archive where a program is asked for.
fn compile(mut command: Command, source: &Path, program: Option<&Path>) {
    command.args(["-Wall", "-Wextra", "-Werror", "-pedantic", "-I"]).arg(here("include")).arg(source);
    match program {
        Some(program) => {
            let folder = env::var_os("LEKCHNAM_STATICLIB").filter(|folder| !folder.is_empty());
            let folder = here("").join(folder.unwrap_or_else(|| "../target/staticlib".into()));
            command.arg(folder.join("liblekchnam.a")).arg("-o").arg(program);
        }
        None => drop(command.arg("-fsyntax-only")),
    }
    let output = command.output().expect("a compiler");
    assert!(output.status.success(), "{}", String::from_utf8_lossy(&output.stderr));
}

fn c() -> Command {
    let mut command = Command::new(compiler("CC", "cc"));
    command.arg("-std=c11");
    command
}

#[test]
fn every_function_of_the_archive_is_declared_and_no_other() {
    let sources = fs::read_dir(here("../crates/lekchnam/src")).expect("the crate's sources");
    let sources: String =
        sources.map(|entry| fs::read_to_string(entry.expect("a file").path()).expect("text")).collect();
    let exported: BTreeSet<&str> = between(&sources, "pub extern \"C\" fn ", "(").into_iter().collect();
    let header = header();
    let words = header.split('(').filter_map(|part| part.rsplit(|c: char| !c.is_alphanumeric() && c != '_').next());
    let ours = ["lekchnam_", "opaque_relay_", "hnsr_body_"];
    let named: BTreeSet<&str> = words.filter(|word| ours.iter().any(|ours| word.starts_with(ours))).collect();
    // what the header defines itself is not the archive's
    let defined = between(&header, "static inline ", "(").into_iter().filter_map(|part| part.rsplit(' ').next());
    let declared = &named - &defined.collect();
    assert_eq!(declared, exported);
    assert!(exported.contains("lekchnam_layout") && exported.contains("opaque_relay_handle"));
    println!("compared: {} functions of the header with the archive's sources", declared.len());
}

/// The relay's calls in a text, and of each the parameters, as they stand there.
fn calls<'a>(text: &'a str, before: &str) -> BTreeMap<&'a str, Vec<&'a str>> {
    let one = |call: &'a str| {
        let (name, parameters) = call.split_once('(').expect("parameters");
        (name, parameters.split(',').map(str::trim).filter(|one| !["", "void"].contains(one)).collect())
    };
    between(text, &format!("{before} opaque_relay_"), ")").into_iter().map(one).collect()
}

/// A slice is one parameter of the archive's source, and two of a declaration. A change of a call's parameters that
/// only one of the three has would compile and link.
#[test]
fn calls_have_the_parameters_of_the_archives_source() {
    let (header, source, here) = (header(), text("../crates/lekchnam/src/relay.rt"), text("src/ffi/relay.rs"));
    let in_c = |one: &&str| {
        let name = one.split('[').next().unwrap_or_default().rsplit(' ').next().unwrap_or_default();
        name.trim_start_matches('*').to_owned()
    };
    let in_rust = |one: &&str| one.split(':').next().unwrap_or_default().to_owned();
    let (declared, exported, called) = (calls(&header, ""), calls(&source, "fn"), calls(&here, "fn"));
    assert_eq!(declared.len(), exported.len());
    for (name, parameters) in &declared {
        let mut names: Vec<String> = parameters.iter().map(in_c).collect();
        assert_eq!(names, called[name].iter().map(in_rust).collect::<Vec<_>>(), "{name}");
        names.retain(|one| !["_places", "_words", "_length"].iter().any(|length| one.ends_with(length)));
        assert_eq!(names, exported[name].iter().map(in_rust).collect::<Vec<_>>(), "{name}");
    }
    println!("compared: the parameters of {} calls of the header with the archive's sources", declared.len());
}

/// The table that crates/cases prints, and the same program as C.
#[test]
fn the_sixteen_cases_by_c() {
    let program = made("cases");
    compile(c(), &here("tests/c/cases.c"), Some(&program));
    let output = Command::new(&program).output().expect("the program");
    assert!(output.status.success(), "{}", String::from_utf8_lossy(&output.stderr));
    assert_eq!(String::from_utf8_lossy(&output.stdout), text("../crates/cases/stdout"));
    println!("compared: the sixteen cases by C with those of crates/cases");
}

/// Whole, and with two functions of C's library alone: a third would be missing.
#[test]
fn the_archive_needs_memcpy_and_memset_alone() {
    let mut command = c();
    command.args(["-ffreestanding", "-fno-builtin", "-nostdlib", "-static"]);
    command.args(["-Wl,--entry=outside", "-Wl,--whole-archive"]);
    compile(command, &here("tests/c/outside.c"), Some(&made("outside")));
}

/// A struct as src/ffi/layout.rs has it, which the crate's own tests hold to Rust's.
struct Struct {
    name: String,
    size: usize,
    align: usize,
    fields: Vec<(String, usize)>,
}

/// The name that the archive has for a struct.
fn archive_name(rust: &str) -> String {
    let body = |name: &str| name.trim_end_matches("Body").replace("Reason", "");
    if let Some(answer) = rust.strip_prefix("Answer<") {
        return body(answer.trim_end_matches('>')) + "Answer";
    }
    if let Some(written) = rust.strip_prefix("Written<{ body::") {
        return body(written.trim_end_matches("::SIZE }>")) + "Bytes";
    }
    match rust {
        "StoredPeer" => "HnsrPeerId",
        "Runtime" => "OpaqueRelayRuntime",
        same => same,
    }
    .to_owned()
}

fn structs() -> Vec<Struct> {
    let layout = text("src/ffi/layout.rs");
    let number = |text: &str| text.trim().parse().expect("a number");
    let one = |entry: &str| {
        let (name, rest) = entry.split_once(", size ").expect("a size");
        let (size, rest) = rest.split_once(", align ").expect("an alignment");
        let (align, fields) = rest.split_once(',').expect("fields");
        let field = |field: &str| {
            let (name, at) = field.trim().split_once(" at ").expect("a place");
            (name.to_owned(), number(at))
        };
        let fields = fields.split(',').map(field).collect();
        Struct { name: archive_name(name), size: number(size), align: number(align), fields }
    };
    between(&layout, "layout!(", ");").into_iter().map(one).collect()
}

/// The structs of the header: of each the names of its fields.
fn declared_structs(header: &str) -> BTreeMap<String, Vec<String>> {
    let one = |part: &str| {
        let (fields, name) = part.split_once("} Lekchnam").expect("a name");
        let field = |line: &str| {
            let line = line.split('[').next().unwrap_or_default();
            line.rsplit(' ').next().unwrap_or_default().to_owned()
        };
        let fields = fields.split(';').map(str::trim).filter(|line| !line.is_empty()).map(field).collect();
        (name.to_owned(), fields)
    };
    between(header, "typedef struct {", ";\n\n").into_iter().map(one).collect()
}

#[test]
fn structs_are_laid_out_as_here() {
    let structs = structs();
    let named = structs.iter().map(|one| (one.name.clone(), one.fields.iter().map(|(name, _)| name.clone()).collect()));
    assert_eq!(declared_structs(&header()), named.collect());
    let mut facts = Vec::new();
    for Struct { name, size, align, fields } in &structs {
        facts.push(format!("sizeof(Lekchnam{name}) == {size}"));
        facts.push(format!("alignof(Lekchnam{name}) == {align}"));
        facts.extend(fields.iter().map(|(field, at)| format!("offsetof(Lekchnam{name}, {field}) == {at}")));
    }
    facts.extend(WIDTHS.map(|(name, field, width)| format!("sizeof(((Lekchnam{name} *)0)->{field}) == {width}")));
    hold("structs", &facts);
    println!("compared: {} structs of the header", structs.len());
}

/// `FlowControl` as `FLOW_CONTROL`.
fn loud(name: &str) -> String {
    let mut loud = String::new();
    for letter in name.chars() {
        if letter.is_ascii_uppercase() && !loud.is_empty() {
            loud.push('_');
        }
        loud.push(letter.to_ascii_uppercase());
    }
    loud
}

macro_rules! limits {
    ($($name:ident),+) => { [$((stringify!($name), limits::$name as usize)),+] };
}

#[test]
fn numbers_are_the_ones_here() {
    let mut numbers: Vec<(String, usize)> = vec![("TAKEN".to_owned(), 0), ("PROTOCOL".to_owned(), 1)];
    let refusals = (2..=23).map(|number| (HnsrRuntimeError::from_number(number).expect("a refusal"), number as usize));
    numbers.extend(refusals.map(|(refusal, number)| (loud(&format!("{refusal:?}")), number)));
    let opcodes = (0..HnsrOpcode::COUNT).map(|number| (HnsrOpcode::from(number), usize::from(number)));
    numbers.extend(opcodes.map(|(opcode, number)| (format!("OPCODE_{}", loud(&format!("{opcode:?}"))), number)));
    numbers.extend(HnsrErrorCode::ALL.map(|code| (format!("REASON_{}", loud(&format!("{code:?}"))), code as usize)));
    numbers.extend(Invalid::ALL.map(|wrong| (format!("INVALID_{}", loud(&format!("{wrong:?}"))), wrong as usize)));
    let limits = limits!(
        MAXIMUM_PEER,
        MAX_PACKET_SIZE,
        HNSR_HEADER_SIZE,
        MAX_BODY_SIZE,
        MAX_DATA_SIZE,
        MIN_WINDOW,
        DEFAULT_WINDOW,
        MAX_WINDOW,
        MAX_DETAIL_SIZE,
        MAX_RUNTIME_PENDING,
        MAX_RUNTIME_CIRCUITS,
        MAX_CIRCUITS,
        MAX_CIRCUIT_QUEUE,
        MAX_RUNTIME_INFLIGHT_ACTIONS,
        MIN_INFLIGHT_ACTIONS_PER_CIRCUIT,
        MAX_OPEN_DEADLINE_SECONDS,
        PEER_WORDS,
        ADDRESS_WORDS,
        HEAD_WORDS,
        HANDLE_WORDS,
        CLOSING_WORDS
    );
    numbers.extend(limits.map(|(name, value)| (name.to_owned(), value)));
    let sizes = [
        ("OPEN_SIZE", OpenBody::SIZE),
        ("INCOMING_SIZE", IncomingBody::SIZE),
        ("ACCEPT_SIZE", AcceptBody::SIZE),
        ("OPENED_SIZE", OpenedBody::SIZE),
        ("WINDOW_SIZE", WindowBody::SIZE),
        ("DETAIL_SIZE", ReasonDetail::MAX_SIZE),
        ("RANDOM_BYTES", RANDOM_BYTES),
    ];
    numbers.extend(sizes.map(|(name, value)| (name.to_owned(), value)));
    let facts: Vec<String> = numbers.iter().map(|(name, value)| format!("LEKCHNAM_{name} == {value}")).collect();
    hold("numbers", &facts);
    println!("compared: {} numbers of the header", facts.len());
}

/// Has the compiler see that facts hold in C, and in C++ where there is a compiler for it.
fn hold(name: &str, facts: &[String]) {
    let asserted: String = facts.iter().map(|fact| format!("static_assert({fact}, \"{fact}\");\n")).collect();
    let source = format!("#include \"lekchnam.h\"\n#include <assert.h>\n#include <stdalign.h>\n{asserted}");
    let (in_c, in_cpp) = (made(&format!("{name}.c")), made(&format!("{name}.cpp")));
    fs::write(&in_c, &source).expect("a file");
    fs::write(&in_cpp, &source).expect("a file");
    compile(c(), &in_c, None);
    let cpp = compiler("CXX", "c++");
    if Command::new(&cpp).arg("--version").output().is_ok_and(|output| output.status.success()) {
        let mut command = Command::new(cpp);
        command.args(["-std=c++11", "-Wno-invalid-offsetof"]);
        compile(command, &in_cpp, None);
    }
}

/// What the compiler is asked is asked: a fact that does not hold is an error.
#[test]
#[should_panic(expected = "LEKCHNAM_VERSION == 0")]
fn a_fact_that_does_not_hold_is_an_error() {
    hold("wrong", &["LEKCHNAM_VERSION == 0".to_owned()]);
}
