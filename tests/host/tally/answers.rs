//! Counts of the answers, by the shape of the input and in total.

pub struct Tally {
    subject: &'static str,
    answers: &'static [&'static str],
    rows: Vec<(&'static str, Vec<usize>)>,
}

impl Tally {
    pub fn new(subject: &'static str, answers: &'static [&'static str]) -> Tally {
        Tally {
            subject,
            answers,
            rows: Vec::new(),
        }
    }

    pub fn count(&mut self, shape: &'static str, answer: usize) {
        let row = match self.rows.iter().position(|row| row.0 == shape) {
            Some(row) => row,
            None => {
                self.rows.push((shape, vec![0; self.answers.len()]));
                self.rows.len() - 1
            }
        };
        self.rows[row].1[answer] += 1;
    }

    /// How often inputs of a shape had an answer.
    pub fn times(&self, shape: &str, answer: usize) -> usize {
        let rows = self.rows.iter().filter(|row| row.0 == shape);
        rows.map(|row| row.1[answer]).sum()
    }

    fn total(&self, answer: usize) -> usize {
        self.rows.iter().map(|row| row.1[answer]).sum()
    }

    pub fn print(&self) {
        let totals: Vec<usize> = (0..self.answers.len()).map(|a| self.total(a)).collect();
        print_row(self.subject, self.answers);
        for (shape, counts) in &self.rows {
            print_row(shape, counts);
        }
        print_row("in total", &totals);
    }

    /// Fewer inputs than asked for, or an answer that no input had, would make the comparison say
    /// less than it seems to.
    pub fn is_enough(&self, least: usize) -> bool {
        let compared: usize = (0..self.answers.len()).map(|a| self.total(a)).sum();
        if compared < least {
            println!(
                "{}: only {} of {} inputs compared",
                self.subject, compared, least
            );
            return false;
        }
        for (answer, name) in self.answers.iter().enumerate() {
            if self.total(answer) == 0 {
                println!("{}: no input has the answer '{}'", self.subject, name);
                return false;
            }
        }
        println!(
            "{}: {} inputs compared, no difference",
            self.subject, compared
        );
        true
    }
}

fn print_row<T: std::fmt::Display>(name: &str, cells: &[T]) {
    print!("  {:<36}", name);
    for cell in cells {
        print!(" {:>10}", cell);
    }
    println!();
}
