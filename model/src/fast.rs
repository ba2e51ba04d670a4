//! A second version of two things, made to be fast: the check of a sheet, and a floor over an air
//! like the board. It is a yardstick for measurements; the plain model is what it is tested
//! against.
//!
//! Sets of sites are masks of six bits. A set of such sets is a mask of 64 bits, so "some fan has
//! its sources in A, for every A that arises" is one comparison of two numbers.

const MOST_SITES: usize = 6;
const MOST_WORDS: usize = 1024;
const MOST_SUSPECT_SETS: usize = 22;
/// How many sets of six sites there are.
const SETS: usize = 64;
/// How many paths a site expects at most in a phase, and in a round.
const MOST_PATHS: usize = 325;
const LANE: usize = 120;

/// What follows from n and f alone.
struct Size {
    /// The suspect sets in their order, and how many there are.
    suspects: [u8; MOST_SUSPECT_SETS],
    count: usize,
    /// For each set of sites in the middle of a path: the suspect sets that the path avoids, the
    /// i-th of them as bit i.
    avoided: [u32; SETS],
    /// For each suspect set: the sets A that arise from some Z, as a set of sets.
    arising: [u64; MOST_SUSPECT_SETS],
    /// For each suspect set and each Z: the set A.
    keepers: [[u8; SETS]; MOST_SUSPECT_SETS],
}

const fn size_of(n: usize, f: u32) -> Size {
    let mut size = Size {
        suspects: [0; MOST_SUSPECT_SETS],
        count: 0,
        avoided: [0; SETS],
        arising: [0; MOST_SUSPECT_SETS],
        keepers: [[0; SETS]; MOST_SUSPECT_SETS],
    };
    let sets = 1u32 << n;
    let mut members = 0;
    while members <= f {
        let mut set = 0;
        while set < sets {
            if set.count_ones() == members {
                size.suspects[size.count] = set as u8;
                size.count += 1;
            }
            set += 1;
        }
        members += 1;
    }
    let mut i = 0;
    while i < size.count {
        let suspects = size.suspects[i] as u32;
        let mut set = 0;
        while set < sets {
            if set & suspects == 0 {
                size.avoided[set as usize] |= 1 << i;
            }
            let keeping = keepers(n, f, suspects, set);
            size.keepers[i][set as usize] = keeping as u8;
            size.arising[i] |= 1 << keeping;
            set += 1;
        }
        i += 1;
    }
    size
}

/// The set A for a suspect set and a set of zeros.
const fn keepers(n: usize, f: u32, suspects: u32, zeros: u32) -> u32 {
    let ones = !zeros & ((1 << n) - 1);
    if (suspects & zeros).count_ones() <= f / 2 {
        if ones.count_ones() > f {
            ones
        } else {
            zeros
        }
    } else if zeros.count_ones() > f {
        zeros
    } else {
        ones
    }
}

const fn sizes_of(n: usize) -> [Size; 3] {
    [size_of(n, 0), size_of(n, 1), size_of(n, 2)]
}

static SIZES: [[Size; 3]; 5] = [sizes_of(2), sizes_of(3), sizes_of(4), sizes_of(5), sizes_of(6)];

/// For each set: the sets that hold all of it.
static SUPERSETS: [u64; SETS] = supersets();

const fn supersets() -> [u64; SETS] {
    let mut table = [0; SETS];
    let mut set = 0;
    while set < SETS {
        let mut other = 0;
        while other < SETS {
            if other & set == set {
                table[set] |= 1 << other;
            }
            other += 1;
        }
        set += 1;
    }
    table
}

/// For each site: the sets that lack it.
static LACKING: [u64; MOST_SITES] = lacking();

const fn lacking() -> [u64; MOST_SITES] {
    let mut table = [0; MOST_SITES];
    let mut site = 0;
    while site < MOST_SITES {
        let mut set = 0;
        while set < SETS {
            if set >> site & 1 == 0 {
                table[site] |= 1 << set;
            }
            set += 1;
        }
        site += 1;
    }
    table
}

/// Where the kinds of a sheet begin, and its wiring.
struct Layout {
    n: usize,
    f: usize,
    /// The place of the first route, and of the first fan path.
    routes: usize,
    fans: usize,
    /// The neighbours of each site. Sites that are none have no neighbours.
    neighbours: [u8; 8],
}

#[derive(Clone, Copy)]
struct Ends {
    first: u8,
    last: u8,
    /// All sites of the path, as a mask.
    all: u8,
}

impl Ends {
    fn middle(self) -> u8 {
        self.all & !(1 << self.first) & !(1 << self.last)
    }
}

/// Checks a sheet: all eight rows. A refused sheet answers its number and its place.
pub fn check_sheet(words: &[u32]) -> Result<(), (u8, u32)> {
    let layout = rows_1_to_4(words)?;
    let size = &SIZES[layout.n - 2][layout.f];
    // Row 5 covers the fan paths before row 6 begins, and row 6 comes before row 7: so both kinds
    // are gone through before anything else is refused.
    let routed = go_through_routes(words, &layout, size)?;
    let served = go_through_fans(words, &layout, size)?;
    let missing = !routed & (((1u64 << size.count) - 1) as u32);
    if missing != 0 {
        return Err((7, u32::from(size.suspects[missing.trailing_zeros() as usize])));
    }
    for (i, fans) in served.iter().enumerate().take(size.count) {
        for v in 0..layout.n {
            if size.arising[i] & LACKING[v] & !fans[v] != 0 {
                return Err((8, u32::from(size.suspects[i])));
            }
        }
    }
    Ok(())
}

fn rows_1_to_4(words: &[u32]) -> Result<Layout, (u8, u32)> {
    if words.is_empty() || words.len() > MOST_WORDS {
        return Err((1, 0));
    }
    let head = words[0];
    let n = (head >> 4 & 15) as usize;
    let f = (head & 15) as usize;
    if head >> 8 != 0x80_0000 || !(2..=6).contains(&n) || f > 2 {
        return Err((2, 0));
    }
    let past = |kind: u32, from: usize| {
        let others = words[from..].iter().position(|&word| word >> 28 != kind);
        others.map_or(words.len(), |count| from + count)
    };
    let routes = past(9, 1);
    let fans = past(10, routes);
    let end = past(11, fans);
    if end < words.len() {
        return Err((3, end as u32));
    }
    let mut neighbours = [0u8; 8];
    let mut before = 0;
    for (i, &word) in words[1..routes].iter().enumerate() {
        let lower = (word >> 3 & 7) as usize;
        let higher = (word & 7) as usize;
        if word & 0x0FFF_FFC0 != 0 || lower >= higher || higher >= n || word <= before {
            return Err((4, i as u32 + 1));
        }
        neighbours[lower] |= 1 << higher;
        neighbours[higher] |= 1 << lower;
        before = word;
    }
    Ok(Layout { n, f, routes, fans, neighbours })
}

/// Reads a route or fan path that runs along the edges; none if it is refused.
#[inline(always)]
fn read_path(word: u32, neighbours: &[u8; 8]) -> Option<Ends> {
    let length = word >> 25 & 7;
    if !(2..=6).contains(&length) {
        return None;
    }
    // The fields stand at the top, the next one first. What is left after the last must be zero.
    let mut rest = word << 7;
    let first = (rest >> 29) as u8;
    let mut last = first;
    let mut all = 1u8 << first;
    for _ in 1..length {
        rest <<= 3;
        let next = (rest >> 29) as u8;
        // A neighbour that is not on the path yet. Sites that are none are nobody's neighbours.
        if neighbours[last as usize] & !all & 1 << next == 0 {
            return None;
        }
        all |= 1 << next;
        last = next;
    }
    (rest << 3 == 0).then_some(Ends { first, last, all })
}

/// Row 5 for the routes. Gives the suspect sets for which every pair has a route.
fn go_through_routes(words: &[u32], layout: &Layout, size: &Size) -> Result<u32, (u8, u32)> {
    let mut avoided = [0u32; 64];
    for (i, &word) in words[layout.routes..layout.fans].iter().enumerate() {
        let Some(path) = read_path(word, &layout.neighbours) else {
            return Err((5, (layout.routes + i) as u32));
        };
        let pair = usize::from(path.first) << 3 | usize::from(path.last);
        avoided[pair & 63] |= size.avoided[usize::from(path.middle() & 63)];
    }
    let mut all = u32::MAX;
    for u in 0..layout.n {
        for v in 0..layout.n {
            if u != v {
                all &= avoided[u << 3 | v];
            }
        }
    }
    Ok(all)
}

/// Rows 5 and 6 for the fan paths. Gives for each suspect set and site the sets A from which the
/// site has a fan.
fn go_through_fans(
    words: &[u32],
    layout: &Layout,
    size: &Size,
) -> Result<[[u64; MOST_SITES]; MOST_SUSPECT_SETS], (u8, u32)> {
    // Fans of which no path has a middle serve for every suspect set.
    let mut direct = [0u64; MOST_SITES];
    let mut served = [[0u64; MOST_SITES]; MOST_SUSPECT_SETS];
    let mut refused_group = None;
    let group_size = layout.f + 1;
    for (i, group) in words[layout.fans..].chunks(group_size).enumerate() {
        let place = layout.fans + i * group_size;
        let mut shared = false;
        let mut used = 0u8;
        let mut middle = 0u8;
        let mut sources = 0u8;
        let mut at = None;
        for (j, &word) in group.iter().enumerate() {
            let Some(path) = read_path(word, &layout.neighbours) else {
                return Err((5, (place + j) as u32));
            };
            let before_end = path.all & !(1 << path.last);
            shared |= used & before_end != 0 || *at.get_or_insert(path.last) != path.last;
            used |= before_end;
            sources |= 1 << path.first;
            middle |= path.middle();
        }
        let at = usize::from(at.unwrap_or(0));
        if shared || group.len() < group_size || used >> at & 1 == 1 {
            refused_group.get_or_insert(place as u32);
            continue;
        }
        let supersets = SUPERSETS[usize::from(sources & 63)];
        if middle == 0 {
            direct[at] |= supersets;
            continue;
        }
        let mut avoided = size.avoided[usize::from(middle & 63)];
        while avoided != 0 {
            served[avoided.trailing_zeros() as usize][at] |= supersets;
            avoided &= avoided - 1;
        }
    }
    if let Some(place) = refused_group {
        return Err((6, place));
    }
    for sets in &mut served {
        for (site, set) in sets.iter_mut().enumerate() {
            *set |= direct[site];
        }
    }
    Ok(served)
}

/// The paths that one site expects, by length, then ascending, in flat arrays.
struct Expected {
    /// The flood word of each path with bit 0.
    words: Vec<u32>,
    /// The paths of r sites stand from `starts[r - 1]` to `starts[r]`.
    starts: [usize; MOST_SITES],
    /// The relay that brings the bit of each path, and the position that the word has in the
    /// relay's lane if the relay is sound.
    relays: Vec<u8>,
    positions: Vec<u8>,
}

/// A plan with all that a floor looks up.
pub struct FastPlan {
    n: usize,
    f: usize,
    size: &'static Size,
    expected: Vec<Expected>,
    /// For each suspect set, site v and site u: the place in v's notebook of the route taken.
    routes: Vec<[[u16; MOST_SITES]; MOST_SITES]>,
    /// For each suspect set, site v and set A: the places in v's notebook of the fan taken.
    fans: Vec<[[[u16; 3]; SETS]; MOST_SITES]>,
}

impl FastPlan {
    pub fn new(words: &[u32]) -> Result<FastPlan, (u8, u32)> {
        check_sheet(words)?;
        let layout = rows_1_to_4(words)?;
        let size = &SIZES[layout.n - 2][layout.f];
        let mut plan = FastPlan {
            n: layout.n,
            f: layout.f,
            size,
            expected: expected_of_all(&layout),
            routes: vec![[[0; MOST_SITES]; MOST_SITES]; size.count],
            fans: vec![[[[0; 3]; SETS]; MOST_SITES]; size.count],
        };
        plan.note_routes(&words[layout.routes..layout.fans], &layout);
        plan.note_fans(&words[layout.fans..], &layout);
        Ok(plan)
    }

    fn note_routes(&mut self, routes: &[u32], layout: &Layout) {
        let mut noted = [[0u32; MOST_SITES]; MOST_SITES];
        for &word in routes {
            let Some(path) = read_path(word, &layout.neighbours) else {
                continue;
            };
            let (u, v) = (usize::from(path.first), usize::from(path.last));
            let mut new = self.size.avoided[usize::from(path.middle())] & !noted[v][u];
            noted[v][u] |= new;
            let place = self.place(v, word);
            while new != 0 {
                self.routes[new.trailing_zeros() as usize][v][u] = place;
                new &= new - 1;
            }
        }
    }

    fn note_fans(&mut self, fan_paths: &[u32], layout: &Layout) {
        let mut noted = [[0u64; MOST_SITES]; MOST_SUSPECT_SETS];
        for group in fan_paths.chunks(self.f + 1) {
            let paths: Vec<Ends> =
                group.iter().filter_map(|&word| read_path(word, &layout.neighbours)).collect();
            let v = usize::from(paths[0].last);
            let sources = paths.iter().fold(0, |mask, path| mask | 1u8 << path.first);
            let middle = paths.iter().fold(0, |mask, path| mask | path.middle());
            // A fan of fewer than three paths repeats its last, which changes nothing when they
            // are compared.
            let mut places = [0; 3];
            for (i, place) in places.iter_mut().enumerate() {
                *place = self.place(v, group[i.min(self.f)]);
            }
            for (i, noted) in noted.iter_mut().enumerate().take(self.size.count) {
                if self.size.avoided[usize::from(middle)] >> i & 1 == 0 {
                    continue;
                }
                let mut new = SUPERSETS[usize::from(sources)] & !noted[v];
                noted[v] |= new;
                while new != 0 {
                    self.fans[i][v][new.trailing_zeros() as usize] = places;
                    new &= new - 1;
                }
            }
        }
    }

    /// The place in v's notebook of a path word that ends at v.
    fn place(&self, v: usize, word: u32) -> u16 {
        let length = (word >> 25 & 7) - 1;
        let field = 25 - 3 * length;
        let fields = (word & 0x01FF_FFFF) >> field << field;
        let flood = 1 << 28 | length << 25 | fields;
        let expected = &self.expected[v];
        let found = expected.words.binary_search(&flood);
        found.expect("the path without its end is expected there") as u16
    }
}

fn expected_of_all(layout: &Layout) -> Vec<Expected> {
    let mut all: Vec<Expected> = (0..layout.n).map(|v| expected_at(layout, v)).collect();
    for v in 0..layout.n {
        let mut relays = Vec::new();
        let mut positions = Vec::new();
        for &word in &all[v].words {
            let length = word >> 25 & 7;
            let field = 25 - 3 * length;
            let relay = (word >> field & 7) as usize;
            let before = 1 << 28 | (length - 1) << 25 | word & 0x01FF_FFFF & !(7 << field);
            let position = if length == 1 {
                0
            } else {
                let place = all[relay].words.binary_search(&before);
                let place = place.expect("the path without its relay is expected at the relay");
                place - all[relay].starts[length as usize - 2]
            };
            relays.push(relay as u8);
            positions.push(position as u8);
        }
        all[v].relays = relays;
        all[v].positions = positions;
    }
    all
}

/// Paths of one length, grown by one site into the paths of the next. Flood words of longer paths
/// are greater, so the words ascend as a whole.
fn expected_at(layout: &Layout, v: usize) -> Expected {
    let mut expected = Expected {
        words: Vec::with_capacity(MOST_PATHS),
        starts: [0; MOST_SITES],
        relays: Vec::new(),
        positions: Vec::new(),
    };
    // Each path with its last site and the mask of its sites and v.
    let mut paths: Vec<(u32, u8, u8)> = Vec::new();
    for site in (0..layout.n as u8).filter(|&site| usize::from(site) != v) {
        let word = 1 << 28 | 1 << 25 | u32::from(site) << 22;
        paths.push((word, site, 1 << site | 1 << v));
    }
    for length in 1..layout.n {
        let heard = paths.iter().filter(|path| layout.neighbours[v] >> path.1 & 1 == 1);
        expected.words.extend(heard.map(|path| path.0));
        expected.starts[length] = expected.words.len();
        let mut longer = Vec::with_capacity(LANE * 2);
        for &(word, last, used) in &paths {
            let mut next = layout.neighbours[usize::from(last)] & !used;
            while next != 0 {
                let site = next.trailing_zeros() as u8;
                next &= next - 1;
                // One more site: the length goes up by one, and the site fills the next field.
                let grown = (word + (1 << 25)) | u32::from(site) << (22 - 3 * length);
                longer.push((grown, site, used | 1 << site));
            }
        }
        paths = longer;
    }
    expected
}

/// A floor over an air like the board.
pub struct FastFloor<'a> {
    plan: &'a FastPlan,
    rogues: u8,
    /// The bits that the sites hold, and the sound sites that have spoken.
    held: u8,
    spoken: u8,
    turns: u32,
    phase: usize,
    round: usize,
    lanes: [[u32; LANE]; MOST_SITES],
    lengths: [usize; MOST_SITES],
    /// What each site noted: a bit for each expected path.
    notebooks: [[u8; MOST_PATHS]; MOST_SITES],
}

impl<'a> FastFloor<'a> {
    /// Opens a floor with the rogues and the opening bits of two masks.
    pub fn open(plan: &'a FastPlan, rogues: u32, bits: u32) -> Result<FastFloor<'a>, u8> {
        if (rogues | bits) >> plan.n != 0 {
            return Err(11);
        }
        if rogues.count_ones() as usize > plan.f {
            return Err(12);
        }
        Ok(FastFloor {
            plan,
            rogues: rogues as u8,
            held: bits as u8,
            spoken: 0,
            turns: 0,
            phase: 0,
            round: 1,
            lanes: [[0; LANE]; MOST_SITES],
            lengths: [0; MOST_SITES],
            notebooks: [[0; MOST_PATHS]; MOST_SITES],
        })
    }

    pub fn over(&self) -> bool {
        self.phase == self.plan.size.count
    }

    fn is_rogue(&self, site: usize) -> bool {
        self.rogues >> site & 1 == 1
    }

    /// Puts a word for a rogue, and gives the new length of its lane.
    pub fn transmit(&mut self, site: u32, word: u32) -> Result<u32, u8> {
        let index = site as usize;
        if index >= self.plan.n {
            return Err(21);
        }
        if !self.is_rogue(index) {
            return Err(22);
        }
        if self.over() {
            return Err(24);
        }
        let length = self.lengths[index];
        if length >= LANE {
            return Err(25);
        }
        self.lanes[index][length] = word;
        self.lengths[index] = length + 1;
        Ok(length as u32 + 1)
    }

    /// A sound site puts all that it owes in this round.
    pub fn speak(&mut self, site: u32) -> Result<u32, u8> {
        let v = site as usize;
        if v >= self.plan.n {
            return Err(21);
        }
        if self.is_rogue(v) {
            return Err(23);
        }
        if self.over() {
            return Err(24);
        }
        if self.spoken >> v & 1 == 1 {
            return Err(26);
        }
        self.spoken |= 1 << v;
        if self.round == 1 {
            self.lanes[v][0] = 1 << 28 | u32::from(self.held >> v & 1);
            self.lengths[v] = 1;
            return Ok(1);
        }
        let expected = &self.plan.expected[v];
        let owed = expected.starts[self.round - 2]..expected.starts[self.round - 1];
        let length = owed.len();
        let words = &expected.words[owed.clone()];
        let bits = &self.notebooks[v][owed];
        for ((slot, &word), &bit) in self.lanes[v].iter_mut().zip(words).zip(bits) {
            *slot = word | u32::from(bit);
        }
        self.lengths[v] = length;
        Ok(length as u32)
    }

    /// All sound sites hear, and weigh if the phase is over; gives the number of turns.
    pub fn turn(&mut self) -> Result<u32, u8> {
        if self.over() {
            return Err(24);
        }
        let all = (1u32 << self.plan.n) as u8 - 1;
        if self.spoken | self.rogues != all {
            return Err(27);
        }
        self.hear();
        if self.round == self.plan.n - 1 {
            self.weigh();
            self.phase += 1;
            self.round = 1;
        } else {
            self.round += 1;
        }
        self.lengths = [0; MOST_SITES];
        self.spoken = 0;
        self.turns += 1;
        Ok(self.turns)
    }

    fn hear(&mut self) {
        // What each site said, as bits at the positions that a sound site's words have.
        let mut said = [[1u8; LANE]; MOST_SITES];
        for (u, bits) in said.iter_mut().enumerate().take(self.plan.n) {
            if self.is_rogue(u) {
                self.hear_rogue(u, bits);
            } else {
                for (bit, &word) in bits.iter_mut().zip(&self.lanes[u][..self.lengths[u]]) {
                    *bit = (word & 1) as u8;
                }
            }
        }
        for v in 0..self.plan.n {
            if self.is_rogue(v) {
                continue;
            }
            let expected = &self.plan.expected[v];
            let heard = expected.starts[self.round - 1]..expected.starts[self.round];
            let relays = &expected.relays[heard.clone()];
            let positions = &expected.positions[heard.clone()];
            let notes = &mut self.notebooks[v][heard];
            for ((note, &relay), &position) in notes.iter_mut().zip(relays).zip(positions) {
                *note = said[usize::from(relay)][usize::from(position)];
            }
        }
    }

    /// One pass over a rogue's lane: the first lawful word of each path that matters.
    fn hear_rogue(&self, rogue: usize, bits: &mut [u8; LANE]) {
        let lane = &self.lanes[rogue][..self.lengths[rogue]];
        if self.round == 1 {
            if let Some(word) = lane.iter().find(|&word| word & !1 == 1 << 28) {
                bits[0] = (word & 1) as u8;
            }
            return;
        }
        let expected = &self.plan.expected[rogue];
        let owed =
            &expected.words[expected.starts[self.round - 2]..expected.starts[self.round - 1]];
        let mut met = 0u128;
        // Where the words stand in the order of a sound site, the next path is the next word's.
        let mut next = 0;
        for &word in lane {
            let path = word & !1;
            let position = if owed.get(next) == Some(&path) {
                next
            } else if let Ok(found) = owed.binary_search(&path) {
                found
            } else {
                continue;
            };
            next = position + 1;
            if met >> position & 1 == 0 {
                met |= 1 << position;
                bits[position] = (word & 1) as u8;
            }
        }
    }

    fn weigh(&mut self) {
        let routes = &self.plan.routes[self.phase];
        let fans = &self.plan.fans[self.phase];
        let keepers = &self.plan.size.keepers[self.phase];
        let mut held = self.held;
        for v in 0..self.plan.n {
            if self.is_rogue(v) {
                continue;
            }
            let notebook = &self.notebooks[v];
            let mut zeros = !self.held & 1 << v;
            for u in (0..self.plan.n).filter(|&u| u != v) {
                zeros |= (notebook[usize::from(routes[v][u])] ^ 1) << u;
            }
            let keeping = keepers[usize::from(zeros)];
            if keeping >> v & 1 == 1 {
                continue;
            }
            let bits = fans[v][usize::from(keeping)].map(|place| notebook[usize::from(place)]);
            if bits[0] == bits[1] && bits[1] == bits[2] {
                held = held & !(1 << v) | bits[0] << v;
            }
        }
        self.held = held;
    }

    /// The bit on which a sound site decided.
    pub fn decision(&self, site: u32) -> Result<bool, u8> {
        let index = site as usize;
        if index >= self.plan.n {
            return Err(21);
        }
        if self.is_rogue(index) {
            return Err(23);
        }
        if !self.over() {
            return Err(28);
        }
        Ok(self.held >> index & 1 == 1)
    }
}
