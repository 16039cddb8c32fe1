//! What traces reach, counted.
use lekchnam_traces::Event;
use lekchnam_traces::coverage::{Item, items};
use std::collections::{BTreeMap, BTreeSet};
use std::fmt::Display;

type Counts<Key> = BTreeMap<Key, u64>;

#[derive(Default)]
pub struct Stats {
    pub traces: u64,
    items: Counts<Item>,
    history: Counts<String>,
    lenient: Counts<&'static str>,
    most_words: BTreeMap<&'static str, usize>,
}

fn add<Key: Ord>(counts: &mut Counts<Key>, key: Key) {
    *counts.entry(key).or_default() += 1;
}

impl Stats {
    pub fn history(&mut self, place: &str, wrong: &str) {
        add(&mut self.history, format!("{place}: {wrong}"));
    }

    pub fn lenient(&mut self, wrong: &'static str) {
        add(&mut self.lenient, wrong);
    }

    pub fn count(&mut self, event: &Event) {
        for item in items(event) {
            add(&mut self.items, item);
        }
        let most = self.most_words.entry(event.call.name()).or_default();
        *most = (*most).max(event.answer.words.count);
    }

    pub fn print(&self) {
        self.print_answers();
        println!();
        for (item, count) in self.items.iter().filter(|(item, _)| !matches!(item, Item::Answer(..))) {
            println!("  {:<70} {count}", item.to_string());
        }
        println!("\nmost output words {:?}", self.most_words);
        println!("\nhistory mismatches (the rules' reckoning against the Rust's state): {:?}", self.history);
        println!("the same with DATA and WINDOW refused with 6 counted as taken: {:?}", self.lenient);
    }

    /// How many of each call have each answer.
    fn print_answers(&self) {
        let answers = self.items.iter().filter_map(|(item, count)| match item {
            Item::Answer(label, number) => Some(((*label, *number), *count)),
            _ => None,
        });
        let answers: BTreeMap<(&str, u8), u64> = answers.collect();
        let total: u64 = answers.values().sum();
        let taken: u64 = answers.iter().filter(|((_, number), _)| *number == 0).map(|(_, count)| count).sum();
        println!(
            "traces {}  calls {total}  taken {taken} ({:.1} %)\n",
            self.traces,
            100.0 * taken as f64 / total as f64
        );
        let numbers: BTreeSet<u8> = answers.keys().map(|(_, number)| *number).collect();
        let numbers: Vec<u8> = numbers.into_iter().collect();
        let mut labels: Vec<&str> = answers.keys().map(|(label, _)| *label).collect();
        labels.dedup();
        let cell = |label, number: &u8| answers.get(&(label, *number)).copied().unwrap_or(0);
        row("answers by call", &numbers);
        for label in &labels {
            let cells = numbers.iter().map(|number| cell(*label, number));
            row(label, &cells.map(|count| if count == 0 { ".".into() } else { count.to_string() }).collect::<Vec<_>>());
        }
        let sums = numbers.iter().map(|number| labels.iter().map(|label| cell(*label, number)).sum());
        row("all", &sums.collect::<Vec<u64>>());
    }
}

fn row(label: &str, cells: &[impl Display]) {
    let cells: String = cells.iter().map(|cell| format!("{cell:>8}")).collect();
    println!("{label:<19}{cells}");
}
