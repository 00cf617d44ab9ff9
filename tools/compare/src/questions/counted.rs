//! What counting the slices of a picture gives.

/// In blocks.
#[derive(Clone, Copy, Debug, PartialEq)]
pub struct Place {
    pub left: u64,
    pub top: u64,
    pub width: u64,
    pub height: u64,
}

#[derive(Debug, PartialEq)]
pub struct Counted {
    /// By slice index.
    pub places: Vec<Place>,
    /// In how many slices a block of a tile lies at least and at most, by tile.
    pub least: Vec<u64>,
    pub most: Vec<u64>,
}

impl Counted {
    pub fn gap(&self) -> bool {
        self.least.contains(&0)
    }

    pub fn double(&self) -> bool {
        self.most.iter().any(|&slices| slices > 1)
    }

    pub fn in_no_slice(&self, tile: u32) -> bool {
        self.most.get(tile as usize) == Some(&0)
    }

    pub fn in_several(&self, tile: u32) -> bool {
        self.least.get(tile as usize).is_some_and(|&n| n > 1)
    }
}

/// A rectangle that holds so many blocks in all, all that were counted.
pub struct Extent {
    left: u64,
    right: u64,
    top: u64,
    bottom: u64,
    blocks: u64,
}

impl Extent {
    pub fn new() -> Self {
        Extent {
            left: u64::MAX,
            right: 0,
            top: u64::MAX,
            bottom: 0,
            blocks: 0,
        }
    }

    /// Takes in what lies from `left` and `top` on to the block before `right` and `bottom`.
    pub fn add(&mut self, left: u64, right: u64, top: u64, bottom: u64) {
        self.left = self.left.min(left);
        self.right = self.right.max(right);
        self.top = self.top.min(top);
        self.bottom = self.bottom.max(bottom);
        self.blocks += (right - left) * (bottom - top);
    }

    /// The blocks fill the rectangle.
    pub fn place(&self) -> Place {
        let (width, height) = (self.right - self.left, self.bottom - self.top);
        assert_eq!(width * height, self.blocks, "a slice is a rectangle");
        Place {
            left: self.left,
            top: self.top,
            width,
            height,
        }
    }
}
