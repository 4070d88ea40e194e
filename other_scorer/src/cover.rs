//! Counts of what generated hands and logs cover.

/// One counted property: its labels, each with its count; `needed` asks for the floor on each,
/// `brief` prints only the least and the most.
struct Section {
    name: &'static str,
    needed: bool,
    brief: bool,
    rows: Vec<(String, u64)>,
}

#[derive(Default)]
pub struct Cover {
    sections: Vec<Section>,
}

impl Cover {
    /// Names a section and the labels that must be reached.
    pub fn expect(&mut self, name: &'static str, labels: &[&str]) {
        let rows = labels.iter().map(|label| (label.to_string(), 0)).collect();
        self.sections.push(Section { name, needed: true, brief: false, rows });
    }

    /// Names a section whose labels low to high must be reached.
    pub fn expect_numbers(&mut self, name: &'static str, low: usize, high: usize) {
        let rows = (low..=high).map(|n| (n.to_string(), 0)).collect();
        self.sections.push(Section { name, needed: true, brief: false, rows });
    }

    /// Names a section whose labels are the 34 tile kinds, all of which must be reached.
    pub fn expect_kinds(&mut self, name: &'static str) {
        let rows = (0..34).map(|n| (n.to_string(), 0)).collect();
        self.sections.push(Section { name, needed: true, brief: true, rows });
    }

    /// Names a section whose labels are only counted.
    pub fn watch(&mut self, name: &'static str) {
        self.sections.push(Section { name, needed: false, brief: false, rows: Vec::new() });
    }

    /// Counts one more of a label.
    pub fn add(&mut self, name: &str, label: impl ToString) {
        let label = label.to_string();
        let section = self.sections.iter_mut().find(|section| section.name == name);
        let rows = &mut section.expect("a named section").rows;
        match rows.iter_mut().find(|row| row.0 == label) {
            Some(row) => row.1 += 1,
            None => rows.push((label, 1)),
        }
    }

    /// Counts one more of a label if the test holds.
    pub fn add_if(&mut self, test: bool, name: &str, label: impl ToString) {
        if test {
            self.add(name, label);
        }
    }

    /// The labels that are needed and stay under the floor.
    pub fn short(&self, floor: u64) -> Vec<String> {
        let needed = self.sections.iter().filter(|section| section.needed);
        let rows = needed.flat_map(|section| section.rows.iter().map(move |row| (section, row)));
        let low = rows.filter(|(_, row)| row.1 < floor);
        low.map(|(section, row)| format!("{} {}", section.name, row.0)).collect()
    }

    /// One line for each section.
    pub fn lines(&self) -> Vec<String> {
        self.sections.iter().map(Section::line).collect()
    }
}

impl Section {
    /// The section's line; labels only counted are put in order of number.
    fn line(&self) -> String {
        let mut rows = self.rows.clone();
        if self.brief {
            let counts = || rows.iter().map(|row| row.1);
            let (least, most) = (counts().min().unwrap_or(0), counts().max().unwrap_or(0));
            return format!("{}: each of {} labels {least} to {most} times", self.name, rows.len());
        }
        if !self.needed {
            rows.sort_by_key(|row| row.0.parse::<u64>().unwrap_or(0));
        }
        let rows: Vec<String> = rows.iter().map(|row| format!("{}={}", row.0, row.1)).collect();
        format!("{}: {}", self.name, rows.join(" "))
    }
}
