//! Pages of the pool: read as lists of keys with what belongs to them, and written back whole.

/// The key that is printed on blank tags: no lot has it.
pub const BLANK_KEY: u32 = 0;

/// A page read: its level, its keys, and for a leaf the information of each key, above the
/// leaves the pointers, one more than keys.
#[derive(Clone, Debug, PartialEq, Eq)]
pub struct Page {
    pub level: u32,
    pub keys: Vec<u32>,
    pub with: Vec<u32>,
}

impl Page {
    /// Whether it is a leaf.
    pub fn is_leaf(&self) -> bool {
        self.level == 1
    }

    /// The number μ.
    pub fn count(&self) -> usize {
        self.keys.len()
    }

    /// Whether one more fits in: μ < 2k.
    pub fn has_room(&self, k: u32) -> bool {
        self.count() < 2 * k as usize
    }

    /// Whether it is not short with one less: μ > k.
    pub fn can_spare(&self, k: u32) -> bool {
        self.count() > k as usize
    }

    /// How many keys are at most this one.
    pub fn place(&self, key: u32) -> usize {
        self.keys.iter().filter(|&&own| own <= key).count()
    }

    /// The page an upper page routes the key to.
    pub fn route(&self, key: u32) -> u32 {
        self.with[self.place(key)]
    }

    /// Where a leaf has the key.
    pub fn find(&self, key: u32) -> Option<usize> {
        self.keys.iter().position(|&own| own == key)
    }

    /// A leaf's first entry whose key is at or above this one.
    pub fn first_from(&self, key: u32) -> Option<(u32, u32)> {
        let at = self.keys.iter().position(|&own| own >= key)?;
        Some((self.keys[at], self.with[at]))
    }

    /// An upper page's next child to the right of the route, if it has one.
    pub fn right_of_route(&self, key: u32) -> Option<u32> {
        if self.is_leaf() {
            return None;
        }
        self.with.get(self.place(key) + 1).copied()
    }

    /// An upper page's first pointer.
    pub fn first_child(&self) -> Option<u32> {
        (!self.is_leaf()).then(|| self.with[0])
    }

    /// Where an upper page has the pointer.
    pub fn place_of(&self, pointer: u32) -> usize {
        self.with
            .iter()
            .position(|&own| own == pointer)
            .expect("the page points there")
    }

    /// The neighbour of the child at this place: the right one, or with none the left.
    pub fn neighbour(&self, place: usize) -> u32 {
        if place < self.count() {
            self.with[place + 1]
        } else {
            self.with[place - 1]
        }
    }
}

/// How many words a page has.
pub fn page_words(k: u32) -> usize {
    4 * k as usize + 3
}

/// The words of a page.
fn part(words: &[u32], k: u32, number: u32) -> &[u32] {
    let start = number as usize * page_words(k);
    &words[start..start + page_words(k)]
}

/// A page that is sound by itself, read; `None` if it is not sound.
pub fn read_page(words: &[u32], k: u32, n: u32, number: u32) -> Option<Page> {
    let part = part(words, k, number);
    let (level, count) = (part[0], part[1]);
    if !(1..=10).contains(&level) || !is_count_sound(k, number, level, count) {
        return None;
    }
    let used = &part[2..];
    let (body, unused) = used.split_at(if level == 1 { 2 * count } else { 2 * count + 1 } as usize);
    let (even, odd): (Vec<u32>, Vec<u32>) = alternate(body);
    let page = if level == 1 {
        Page {
            level,
            keys: even,
            with: odd,
        }
    } else {
        Page {
            level,
            keys: odd,
            with: even,
        }
    };
    let is_sound = unused.iter().all(|&word| word == 0)
        && page.keys.windows(2).all(|pair| pair[0] < pair[1])
        && is_on_its_level(&page, n);
    is_sound.then_some(page)
}

/// μ is k to 2k; in page 0 from 1, or from 0 when it is a leaf.
fn is_count_sound(k: u32, number: u32, level: u32, count: u32) -> bool {
    let least = match (number, level) {
        (0, 1) => 0,
        (0, _) => 1,
        _ => k,
    };
    (least..=2 * k).contains(&count)
}

/// What is asked of a leaf alone, that it has no lot of a blank tag, and of an upper page alone, its pointers.
fn is_on_its_level(page: &Page, n: u32) -> bool {
    if page.is_leaf() {
        !page.keys.contains(&BLANK_KEY)
    } else {
        are_pointers_sound(&page.with, n)
    }
}

/// Pointers are all different and from 1 to N-1.
fn are_pointers_sound(pointers: &[u32], n: u32) -> bool {
    pointers
        .iter()
        .enumerate()
        .all(|(i, pointer)| (1..n).contains(pointer) && !pointers[..i].contains(pointer))
}

/// The words at even and those at odd places.
fn alternate(body: &[u32]) -> (Vec<u32>, Vec<u32>) {
    (
        body.iter().step_by(2).copied().collect(),
        body.iter().skip(1).step_by(2).copied().collect(),
    )
}

/// Writes a page whole, unused words 0.
pub fn write_page(words: &mut [u32], k: u32, number: u32, page: &Page) {
    let start = number as usize * page_words(k);
    let part = &mut words[start..start + page_words(k)];
    part.fill(0);
    part[0] = page.level;
    part[1] = page.count() as u32;
    let (even, odd) = if page.is_leaf() {
        (&page.keys, &page.with)
    } else {
        (&page.with, &page.keys)
    };
    for (i, &word) in even.iter().enumerate() {
        part[2 + 2 * i] = word;
    }
    for (i, &word) in odd.iter().enumerate() {
        part[3 + 2 * i] = word;
    }
}

/// Whether all words of a page are 0, as those of a free page are.
pub fn is_zero_page(words: &[u32], k: u32, number: u32) -> bool {
    part(words, k, number).iter().all(|&word| word == 0)
}

/// Frees a page: all its words become 0.
pub fn zero_page(words: &mut [u32], k: u32, number: u32) {
    let start = number as usize * page_words(k);
    words[start..start + page_words(k)].fill(0);
}

/// The free pages, lowest first: level 0 and not page 0.
pub fn free_pages(words: &[u32], k: u32, n: u32) -> Vec<u32> {
    (1..n)
        .filter(|&number| part(words, k, number)[0] == 0)
        .collect()
}
