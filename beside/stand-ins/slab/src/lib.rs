//! Stand-in for `slab`: a vector of places, a free place is used again.

pub struct Slab<T>(Vec<Option<T>>);

impl<T> Default for Slab<T> {
    fn default() -> Self {
        Self(Vec::new())
    }
}

impl<T> Slab<T> {
    /// Stores the value and returns its key.
    pub fn insert(&mut self, value: T) -> usize {
        let key = self.0.iter().position(Option::is_none).unwrap_or(self.0.len());
        if key == self.0.len() {
            self.0.push(None);
        }
        self.0[key] = Some(value);
        key
    }

    /// Removes and returns the value.
    ///
    /// # Panics
    ///
    /// If there is none under this key.
    pub fn remove(&mut self, key: usize) -> T {
        self.0[key].take().expect("invalid key")
    }

    pub fn iter(&self) -> impl Iterator<Item = (usize, &T)> {
        self.0.iter().enumerate().filter_map(|(key, place)| Some((key, place.as_ref()?)))
    }
}

#[test]
fn a_free_place_is_used_again() {
    let mut slab = Slab::default();
    assert_eq!([slab.insert('a'), slab.insert('b'), slab.insert('c')], [0, 1, 2]);
    assert_eq!(slab.remove(1), 'b');
    assert_eq!(slab.iter().collect::<Vec<_>>(), [(0, &'a'), (2, &'c')]);
    assert_eq!(slab.insert('d'), 1);
}
