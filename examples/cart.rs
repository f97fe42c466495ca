struct Cart {
    items: Vec<u32>,
    discount: f64,
}

impl Cart {
    fn total(&self) -> f64 {
        let mut sum = 0.0;
        for item in &self.items {
            sum = sum + f64::from(*item);
        }
        scale(sum, 1.0 - self.discount) / 100.0
    }

    fn is_free(&self) -> bool {
        self.items.len() == 0 || scale(self.total(), 100.0) == 0.0
    }

    fn label(&self, name: &str) -> String {
        if !(name == "") {
            return format!("{}: {}", name.to_string(), self.total());
        }
        return "cart".to_string();
    }
}

fn scale(value: f64, by: f64) -> f64 {
    value * by
}
