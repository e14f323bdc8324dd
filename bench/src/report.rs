//! Tables as they are printed, and the files that are written.

/// What was printed so far.
#[derive(Default)]
pub struct Report(String);

impl Report {
    fn line(&mut self, line: &str) {
        println!("{line}");
        self.0 += line;
        self.0.push('\n');
    }

    /// What a table is of, and its head.
    pub fn head(&mut self, title: &str, names: &[&str]) {
        if !self.0.is_empty() {
            self.line("");
        }
        self.line(&format!("{title}:\n"));
        self.line(&format!("| {} |", names.join(" | ")));
        self.line(&format!("|{}", "---|".repeat(names.len())));
    }

    pub fn row(&mut self, cells: &[String]) {
        self.line(&format!("| {} |", cells.join(" | ")));
    }

    /// A picture, as README.md shows it.
    pub fn picture(&mut self, title: &str, file: &str) {
        self.line(&format!("\n![{title}]({file})"));
    }

    pub fn write(&self, folder: &str, name: &str) {
        write(folder, name, &self.0);
    }
}

pub fn write(folder: &str, name: &str, text: &str) {
    std::fs::create_dir_all(folder).unwrap_or_else(|error| panic!("{folder}: {error}"));
    let file = format!("{folder}/{name}");
    std::fs::write(&file, text).unwrap_or_else(|error| panic!("{file}: {error}"));
}
