//! The tree: nodes that own their children and carry their page numbers, and the print to words.

use crate::words::{ENTRIES, INFINITY, PAGE, POINT_PAGE, REGION_PAGE};

/// A record: K keys and a location.
#[derive(Clone, Debug, PartialEq, Eq)]
pub struct Record {
    pub keys: Vec<u32>,
    pub location: u32,
}

/// A region: the points with lower <= key < upper in each domain.
#[derive(Clone, Debug, PartialEq, Eq)]
pub struct Region {
    pub lower: Vec<u32>,
    pub upper: Vec<u32>,
}

impl Region {
    /// The whole space of K domains.
    pub fn whole(k: usize) -> Region {
        Region {
            lower: vec![0; k],
            upper: vec![INFINITY; k],
        }
    }

    /// Does the region hold this point?
    pub fn holds(&self, keys: &[u32]) -> bool {
        (0..keys.len()).all(|d| self.lower[d] <= keys[d] && keys[d] < self.upper[d])
    }

    /// Does the region hold no point at all?
    pub fn is_empty(&self) -> bool {
        (0..self.lower.len()).any(|d| self.lower[d] >= self.upper[d])
    }

    /// Do region and closed window (K lower ends, then K upper ends) have a point in common?
    /// The common part is made and looked at; an empty region has none. One more bit is taken for upper + 1.
    pub fn meets(&self, window: &[u32]) -> bool {
        let k = self.lower.len();
        (0..k).all(|d| {
            let from = u64::from(self.lower[d].max(window[d]));
            let to = u64::from(self.upper[d]).min(u64::from(window[k + d]) + 1);
            from < to
        })
    }

    /// The two parts on either side of a cut that goes through the region.
    pub fn split(&self, domain: usize, cut: u32) -> (Region, Region) {
        assert!(self.lower[domain] < cut && cut < self.upper[domain]);
        let (mut left, mut right) = (self.clone(), self.clone());
        left.upper[domain] = cut;
        right.lower[domain] = cut;
        (left, right)
    }
}

/// An entry of a region page: a region, and the child that takes care of it.
#[derive(Clone, Debug, PartialEq, Eq)]
pub struct Entry {
    pub region: Region,
    pub child: Box<Node>,
}

impl Entry {
    pub fn new(region: Region, child: Node) -> Entry {
        Entry {
            region,
            child: Box::new(child),
        }
    }
}

#[derive(Clone, Debug, PartialEq, Eq)]
pub struct PointPage {
    pub number: u32,
    /// The splitting domain.
    pub domain: usize,
    pub records: Vec<Record>,
}

#[derive(Clone, Debug, PartialEq, Eq)]
pub struct RegionPage {
    pub number: u32,
    /// The splitting domain.
    pub domain: usize,
    pub entries: Vec<Entry>,
}

#[derive(Clone, Debug, PartialEq, Eq)]
pub enum Node {
    Points(PointPage),
    Regions(RegionPage),
}

impl Node {
    pub fn number(&self) -> u32 {
        match self {
            Node::Points(page) => page.number,
            Node::Regions(page) => page.number,
        }
    }

    /// This node and all below it, each with its own region; a node before its children, in page order.
    pub fn all(&self, own: &Region) -> Vec<(Region, &Node)> {
        let mut found = vec![(own.clone(), self)];
        if let Node::Regions(page) = self {
            for entry in &page.entries {
                found.extend(entry.child.all(&entry.region));
            }
        }
        found
    }

    /// The page of this node in words.
    fn print(&self) -> Vec<u32> {
        let mut page = match self {
            Node::Points(page) => {
                let count = page.records.len() as u32;
                let mut words = vec![POINT_PAGE, count, page.domain as u32, 0];
                for record in &page.records {
                    words.extend(&record.keys);
                    words.push(record.location);
                }
                words
            }
            Node::Regions(page) => {
                let count = page.entries.len() as u32;
                let mut words = vec![REGION_PAGE, count, page.domain as u32, 0];
                for entry in &page.entries {
                    words.extend(&entry.region.lower);
                    words.extend(&entry.region.upper);
                    words.push(entry.child.number());
                }
                words
            }
        };
        assert!((ENTRIES..=PAGE).contains(&page.len()));
        page.resize(PAGE, 0);
        page
    }
}

/// A pool as a value: the tree and the number of pages. All else follows from these.
#[derive(Clone, Debug, PartialEq, Eq)]
pub struct Pool {
    pub k: usize,
    pub n: usize,
    pub root: Option<Box<Node>>,
}

impl Pool {
    /// A pool with nothing placed.
    pub fn new(k: usize, n: usize) -> Pool {
        Pool { k, n, root: None }
    }

    /// All nodes, each with its own region.
    pub fn nodes(&self) -> Vec<(Region, &Node)> {
        match &self.root {
            None => Vec::new(),
            Some(root) => root.all(&Region::whole(self.k)),
        }
    }

    /// All records in walk order.
    pub fn records(&self) -> Vec<&Record> {
        let mut records = Vec::new();
        for (_, node) in self.nodes() {
            if let Node::Points(page) = node {
                records.extend(&page.records);
            }
        }
        records
    }

    /// The number of levels: the pages on the path that goes by the first entries.
    pub fn levels(&self) -> u32 {
        let mut levels = 0;
        let mut next = self.root.as_deref();
        while let Some(node) = next {
            levels += 1;
            next = match node {
                Node::Points(_) => None,
                Node::Regions(page) => page.entries.first().map(|entry| &*entry.child),
            };
        }
        levels
    }

    /// The numbers of the free pages, lowest first.
    pub fn free_pages(&self) -> Vec<u32> {
        let mut free = vec![true; self.n];
        free[0] = false;
        for (_, node) in self.nodes() {
            free[node.number() as usize] = false;
        }
        (0..self.n as u32).filter(|&p| free[p as usize]).collect()
    }

    /// Every word of every page.
    pub fn print(&self) -> Vec<u32> {
        let mut words = vec![0; self.n * PAGE];
        words[0] = self.k as u32;
        words[1] = self.n as u32;
        words[2] = self.root.as_ref().map_or(0, |root| root.number());
        words[3] = self.levels();
        words[4] = self.records().len() as u32;
        for (_, node) in self.nodes() {
            let start = node.number() as usize * PAGE;
            words[start..start + PAGE].copy_from_slice(&node.print());
        }
        words
    }
}
