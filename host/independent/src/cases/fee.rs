//! Amounts to add and fees to split, worked out by hand.

/// The fee limit, and the largest weight.
const LIMIT: u64 = 100_000_000_000;
const HEAVIEST: u32 = 16_777_215;

pub enum Case {
    Add {
        a: u64,
        b: u64,
        sum: Result<u64, u32>,
    },
    Split {
        fee: u64,
        weights: Vec<u32>,
        places: usize,
        shares: Result<Vec<u64>, u32>,
    },
}

impl Case {
    /// The line of the table.
    pub fn line(&self) -> String {
        match self {
            Case::Add { a, b, .. } => format!("add {a} {b}"),
            Case::Split {
                fee,
                weights,
                places,
                ..
            } => weights
                .iter()
                .fold(format!("split {fee} {places}"), |line, weight| {
                    format!("{line} {weight}")
                }),
        }
    }

    /// The line that the mode `fees` prints for it: a refusal leaves 7 in each
    /// place.
    pub fn printed(&self) -> String {
        match self {
            Case::Add { sum: Ok(sum), .. } => format!("0 {sum}"),
            Case::Add {
                sum: Err(number), ..
            } => format!("{number} 0"),
            Case::Split {
                shares: Ok(shares), ..
            } => shares
                .iter()
                .fold("0".to_string(), |line, share| format!("{line} {share}")),
            Case::Split {
                shares: Err(number),
                places,
                ..
            } => format!("{number}{}", " 7".repeat(*places)),
        }
    }
}

struct Cases {
    list: Vec<Case>,
}

impl Cases {
    /// Both ways round.
    fn add(&mut self, a: u64, b: u64, sum: u64) {
        self.sum(a, b, Ok(sum));
    }

    fn past(&mut self, a: u64, b: u64) {
        self.sum(a, b, Err(16));
    }

    fn sum(&mut self, a: u64, b: u64, sum: Result<u64, u32>) {
        self.list.push(Case::Add { a, b, sum });
        if a != b {
            self.list.push(Case::Add { a: b, b: a, sum });
        }
    }

    fn split(&mut self, fee: u64, weights: impl AsRef<[u32]>, shares: impl AsRef<[u64]>) {
        let weights = weights.as_ref().to_vec();
        let shares = shares.as_ref().to_vec();
        assert_eq!(weights.len(), shares.len());
        self.list.push(Case::Split {
            fee,
            places: weights.len(),
            weights,
            shares: Ok(shares),
        });
    }

    fn refused(&mut self, number: u32, fee: u64, weights: impl AsRef<[u32]>, places: usize) {
        self.list.push(Case::Split {
            fee,
            weights: weights.as_ref().to_vec(),
            places,
            shares: Err(number),
        });
    }
}

pub fn all() -> Vec<Case> {
    let mut c = Cases { list: Vec::new() };
    sums(&mut c);
    one_weight(&mut c);
    two_weights(&mut c);
    three_and_more(&mut c);
    equal_remainders(&mut c);
    zero_weights(&mut c);
    sixty_four(&mut c);
    the_largest(&mut c);
    nothing_to_split(&mut c);
    refused_15(&mut c);
    refused_16(&mut c);
    refused_17(&mut c);
    refused_in_order(&mut c);
    c.list
}

fn sums(c: &mut Cases) {
    c.add(0, 0, 0);
    c.add(0, 1, 1);
    c.add(12_345, 678, 13_023);
    c.add(4_294_967_295, 1, 4_294_967_296);
    c.add(4_294_967_296, 4_294_967_296, 8_589_934_592);
    c.add(50_000_000_000, 50_000_000_000, LIMIT);
    c.add(49_999_999_999, 50_000_000_000, LIMIT - 1);
    c.add(LIMIT - 1, 0, LIMIT - 1);
    c.add(LIMIT - 1, 1, LIMIT);
    c.add(LIMIT, 0, LIMIT);
    // One cent past the limit, and more.
    c.past(LIMIT, 1);
    c.past(LIMIT + 1, 0);
    c.past(LIMIT - 1, 2);
    c.past(50_000_000_000, 50_000_000_001);
    c.past(50_000_000_001, 50_000_000_001);
    c.past(LIMIT, LIMIT);
    c.past(LIMIT + 1, LIMIT + 1);
    // Amounts that no 64 bits hold together: 2^64 is 18446744073709551616.
    c.past(u64::MAX, 0);
    c.past(u64::MAX, 1);
    c.past(u64::MAX, 2);
    c.past(u64::MAX, LIMIT);
    c.past(u64::MAX, LIMIT + 1);
    c.past(u64::MAX, LIMIT + 2);
    c.past(u64::MAX, u64::MAX);
    c.past(u64::MAX - LIMIT, LIMIT);
    c.past(u64::MAX - LIMIT, LIMIT + 1);
    c.past(9_223_372_036_854_775_808, 9_223_372_036_854_775_808);
    c.past(9_223_372_036_854_775_807, 9_223_372_036_854_775_808);
    c.past(9_223_372_036_854_775_809, 9_223_372_036_854_775_808);
}

/// One weight alone takes the whole fee.
fn one_weight(c: &mut Cases) {
    for weight in [1, 2, 3, 1_000, HEAVIEST] {
        for fee in [0, 1, 7, 12_345, LIMIT - 1, LIMIT] {
            c.split(fee, [weight], [fee]);
        }
    }
}

fn two_weights(c: &mut Cases) {
    // Halves.
    c.split(1, [1, 1], [1, 0]);
    c.split(2, [1, 1], [1, 1]);
    c.split(3, [1, 1], [2, 1]);
    c.split(101, [5, 5], [51, 50]);
    // 1/3 and 2/3.
    c.split(1, [1, 2], [0, 1]);
    c.split(1, [2, 1], [1, 0]);
    c.split(2, [1, 2], [1, 1]);
    c.split(2, [2, 1], [1, 1]);
    c.split(3, [1, 2], [1, 2]);
    c.split(10, [1, 2], [3, 7]);
    c.split(10, [2, 1], [7, 3]);
    // 1/4 and 3/4.
    c.split(5, [1, 3], [1, 4]);
    c.split(5, [3, 1], [4, 1]);
    c.split(7, [1, 3], [2, 5]);
    c.split(7, [3, 1], [5, 2]);
    // 0.1 and 9.9; 0.99 and 98.01; 9.5 and 85.5.
    c.split(10, [1, 99], [0, 10]);
    c.split(99, [1, 99], [1, 98]);
    c.split(99, [99, 1], [98, 1]);
    c.split(95, [1, 9], [10, 85]);
    c.split(95, [9, 1], [86, 9]);
    // The proportion alone counts: 16.67 and 83.33, over small and large weights.
    c.split(100, [1, 5], [17, 83]);
    c.split(100, [2_000_000, 10_000_000], [17, 83]);
}

fn three_and_more(c: &mut Cases) {
    c.split(99, [1, 1, 1], [33, 33, 33]);
    c.split(100, [1, 1, 1], [34, 33, 33]);
    c.split(101, [1, 1, 1], [34, 34, 33]);
    c.split(102, [1, 1, 1], [34, 34, 34]);
    c.split(1, [1, 1, 1], [1, 0, 0]);
    c.split(2, [1, 1, 1], [1, 1, 0]);
    // 16.67, 33.33, 50.
    c.split(100, [1, 2, 3], [17, 33, 50]);
    c.split(100, [3, 2, 1], [50, 33, 17]);
    c.split(100, [2, 1, 3], [33, 17, 50]);
    c.split(100, [2, 3, 1], [33, 50, 17]);
    // 5/6, 10/6, 15/6: two cents left.
    c.split(5, [1, 2, 3], [1, 2, 2]);
    c.split(5, [3, 2, 1], [2, 2, 1]);
    // 7/6, 14/6, 21/6: one cent left, to the last.
    c.split(7, [1, 2, 3], [1, 2, 4]);
    // 8/6, 16/6, 24/6: one cent left, to the second.
    c.split(8, [1, 2, 3], [1, 3, 4]);
    // 0.3125, 0.375, 0.3125.
    c.split(1, [5, 6, 5], [0, 1, 0]);
    c.split(2, [5, 6, 5], [1, 1, 0]);
    // 1.4, 2.8, 4.2, 5.6: two cents left, to the second and the last.
    c.split(14, [1, 2, 3, 4], [1, 3, 4, 6]);
    // 1.3, 2.6, 3.9, 5.2: two cents left, to the third and the second.
    c.split(13, [1, 2, 3, 4], [1, 3, 4, 5]);
    // 6.86, 3.43, 1.71: the smallest weight is not left out.
    c.split(12, [4, 2, 1], [7, 3, 2]);
    c.split(12, [1, 2, 4], [2, 3, 7]);
    // 2.75 each.
    c.split(11, [1, 1, 1, 1], [3, 3, 3, 2]);
    // 1.43 each: three cents left.
    c.split(10, [9; 7], [2, 2, 2, 1, 1, 1, 1]);
    // 10 / 1023 of each weight: 0.0098, 0.0196, 0.0391, 0.0782, 0.1564, 0.3128,
    // 0.6256, 1.2512, 2.5024, 5.0049.
    c.split(
        10,
        [1, 2, 4, 8, 16, 32, 64, 128, 256, 512],
        [0, 0, 0, 0, 0, 0, 1, 1, 3, 5],
    );
}

fn equal_remainders(c: &mut Cases) {
    // 0.5, 1.5.
    c.split(2, [1, 3], [1, 1]);
    c.split(2, [3, 1], [2, 0]);
    // 0.5, 1.5, 1 in every order.
    c.split(3, [1, 3, 2], [1, 1, 1]);
    c.split(3, [3, 1, 2], [2, 0, 1]);
    c.split(3, [2, 1, 3], [1, 1, 1]);
    c.split(3, [2, 3, 1], [1, 2, 0]);
    c.split(3, [1, 2, 3], [1, 1, 1]);
    c.split(3, [3, 2, 1], [2, 1, 0]);
    // 2.5, 2.5, 5.
    c.split(10, [1, 1, 2], [3, 2, 5]);
    c.split(10, [2, 1, 1], [5, 3, 2]);
    c.split(10, [1, 2, 1], [3, 5, 2]);
    // 0.75, 0.75, 1.5: the two larger ones.
    c.split(3, [1, 1, 2], [1, 1, 1]);
    c.split(3, [2, 1, 1], [1, 1, 1]);
    // 0.5, 0.5, 4.
    c.split(5, [1, 1, 8], [1, 0, 4]);
    c.split(5, [8, 1, 1], [4, 1, 0]);
    // 0.5, 1.5, 2.5, 3.5: two cents left, to the first two.
    c.split(8, [1, 3, 5, 7], [1, 2, 2, 3]);
    c.split(8, [7, 5, 3, 1], [4, 3, 1, 0]);
    // 1/3, 1/3, 4/3, 2: one cent left.
    c.split(4, [1, 1, 4, 6], [1, 0, 1, 2]);
    c.split(4, [6, 4, 1, 1], [2, 2, 0, 0]);
    // 2/3, 1/3, 2/3, 1/3: two cents left, to the two larger ones.
    c.split(2, [2, 1, 2, 1], [1, 0, 1, 0]);
    // 4/3, 2/3, 4/3, 2/3: two cents left, to the two smaller ones.
    c.split(4, [2, 1, 2, 1], [1, 1, 1, 1]);
    // 5/3, 5/6, 5/3, 5/6: three cents left, to both of 5/6 and to the first.
    c.split(5, [2, 1, 2, 1], [2, 1, 1, 1]);
}

fn zero_weights(c: &mut Cases) {
    c.split(10, [0, 1], [0, 10]);
    c.split(10, [1, 0], [10, 0]);
    c.split(1, [0, 0, 1], [0, 0, 1]);
    c.split(10, [0, 1, 0, 1, 0], [0, 5, 0, 5, 0]);
    c.split(11, [0, 1, 0, 1, 0], [0, 6, 0, 5, 0]);
    c.split(7, [3, 0, 0, 4], [3, 0, 0, 4]);
    // 5/6, 10/6, 15/6 between zeros.
    c.split(5, [0, 1, 0, 2, 0, 3], [0, 1, 0, 2, 0, 2]);
    // A zero weight has the remainder zero, as have exact shares: no cent.
    c.split(3, [0, 2, 1, 0, 3], [0, 1, 1, 0, 1]);
    c.split(LIMIT, [0, HEAVIEST, 0], [0, LIMIT, 0]);
    // The last of 64, the first of 64, one between.
    c.split(12_345, last_of_64(5), last_of_64(12_345));
    c.split(1, last_of_64(HEAVIEST), last_of_64(1));
    let mut weights = vec![0; 64];
    weights[0] = 1;
    let mut shares = vec![0; 64];
    shares[0] = 99;
    c.split(99, &weights, &shares);
    // With the 31st as heavy the odd cent goes to the first.
    weights[30] = 1;
    shares[0] = 50;
    shares[30] = 49;
    c.split(99, &weights, &shares);
}

/// 63 zeros and a number.
fn last_of_64<T: Clone + From<u8>>(value: T) -> Vec<T> {
    let mut list = vec![T::from(0); 63];
    list.push(value);
    list
}

/// 64 numbers: the first so many, and those after them.
fn two_sorts(first: u64, count: usize, then: u64) -> Vec<u64> {
    (0..64)
        .map(|k| if k < count { first } else { then })
        .collect()
}

fn sixty_four(c: &mut Cases) {
    // Equal weights: the cents left go to the lower numbers.
    c.split(1, [1; 64], two_sorts(1, 1, 0));
    c.split(2, [1; 64], two_sorts(1, 2, 0));
    c.split(63, [1; 64], two_sorts(1, 63, 0));
    c.split(64, [1; 64], [1; 64]);
    c.split(65, [1; 64], two_sorts(2, 1, 1));
    c.split(100, [7; 64], two_sorts(2, 36, 1));
    c.split(127, [1_000_000; 64], two_sorts(2, 63, 1));
    c.split(LIMIT, [1; 64], [1_562_500_000; 64]);
    c.split(
        LIMIT - 1,
        [3; 64],
        two_sorts(1_562_500_000, 63, 1_562_499_999),
    );
    // One cent, and the 30th is twice as heavy.
    let mut weights = vec![1; 64];
    weights[29] = 2;
    let mut shares = vec![0; 64];
    shares[29] = 1;
    c.split(1, &weights, &shares);
    // 2/65 each and 4/65: the 30th, then the first.
    shares[0] = 1;
    c.split(2, &weights, &shares);
    // Weights 1 to 64: 2,080 in all.
    let rising: Vec<u32> = (1..=64).collect();
    let falling: Vec<u32> = (1..=64).rev().collect();
    let exact: Vec<u64> = (1..=64).collect();
    c.split(2_080, &rising, &exact);
    c.split(
        20_800,
        &rising,
        exact.iter().map(|i| 10 * i).collect::<Vec<_>>(),
    );
    // One cent and two: to the heaviest.
    c.split(1, &rising, last_of_64(1u64));
    c.split(1, &falling, two_sorts(1, 1, 0));
    c.split(2, &falling, two_sorts(1, 2, 0));
    // 2,079 cents: each lacks i / 2,080 of a cent, so the heaviest is short.
    let mut short = exact.clone();
    short[63] = 63;
    c.split(2_079, &rising, &short);
    // 2,081 cents: i / 2,080 over, so the heaviest has one more.
    let mut more = exact;
    more[63] = 65;
    c.split(2_081, &rising, &more);
    // 63 weights.
    c.split(64, [2; 63], {
        let mut shares = vec![1; 63];
        shares[0] = 2;
        shares
    });
}

fn the_largest(c: &mut Cases) {
    c.split(LIMIT, [1, 1], [50_000_000_000, 50_000_000_000]);
    c.split(LIMIT, [1, 2], [33_333_333_333, 66_666_666_667]);
    c.split(LIMIT, [2, 1], [66_666_666_667, 33_333_333_333]);
    c.split(
        LIMIT,
        [1, 1, 1],
        [33_333_333_334, 33_333_333_333, 33_333_333_333],
    );
    // 14,285,714,285.71 each: five cents left.
    c.split(
        LIMIT,
        [1; 7],
        [
            14_285_714_286,
            14_285_714_286,
            14_285_714_286,
            14_285_714_286,
            14_285_714_286,
            14_285_714_285,
            14_285_714_285,
        ],
    );
    // 5,960.46 of 2^24 parts.
    c.split(LIMIT, [HEAVIEST, 1], [99_999_994_040, 5_960]);
    c.split(LIMIT, [1, HEAVIEST], [5_960, 99_999_994_040]);
    // 49,999,998,509.88 twice, and 2,980.23: two cents left.
    c.split(
        LIMIT,
        [HEAVIEST, HEAVIEST, 1],
        [49_999_998_510, 49_999_998_510, 2_980],
    );
    // One cent over two weights that differ by one.
    c.split(1, [HEAVIEST - 1, HEAVIEST], [0, 1]);
    c.split(1, [HEAVIEST, HEAVIEST - 1], [1, 0]);
    c.split(LIMIT, [HEAVIEST; 64], [1_562_500_000; 64]);
    c.split(
        LIMIT - 1,
        [HEAVIEST; 64],
        two_sorts(1_562_500_000, 63, 1_562_499_999),
    );
    c.split(
        LIMIT - 63,
        [HEAVIEST; 64],
        two_sorts(1_562_500_000, 1, 1_562_499_999),
    );
    // 16,777,215 cents over that weight and one more that is zero.
    c.split(16_777_215, [HEAVIEST, 0], [16_777_215, 0]);
}

fn nothing_to_split(c: &mut Cases) {
    c.split(0, [1, 1], [0, 0]);
    c.split(0, [0, 1, 0], [0, 0, 0]);
    c.split(0, [1; 64], [0; 64]);
    c.split(0, [HEAVIEST; 64], [0; 64]);
}

fn refused_15(c: &mut Cases) {
    // No weight, and 65 or more.
    c.refused(15, 1, [], 0);
    c.refused(15, 1, [], 1);
    c.refused(15, 1, [], 64);
    c.refused(15, 100, [1; 65], 65);
    c.refused(15, 100, [1; 65], 64);
    c.refused(15, 100, [1; 65], 0);
    c.refused(15, 100, [1; 70], 70);
    // Fewer places, more, none.
    c.refused(15, 100, [1], 0);
    c.refused(15, 100, [1], 2);
    c.refused(15, 100, [1], 65);
    c.refused(15, 100, [1, 2], 1);
    c.refused(15, 100, [1, 2], 3);
    c.refused(15, 100, [1, 2, 3], 0);
    c.refused(15, 100, [1; 64], 63);
    c.refused(15, 100, [1; 64], 65);
    c.refused(15, 100, [1; 64], 0);
    c.refused(15, 0, [1; 63], 64);
}

fn refused_16(c: &mut Cases) {
    // The fee.
    c.refused(16, LIMIT + 1, [1], 1);
    c.refused(16, LIMIT + 1, [1; 64], 64);
    c.refused(16, 2 * LIMIT, [1, 2], 2);
    c.refused(16, 4_294_967_296 * 4_294_967_295, [1, 2], 2);
    c.refused(16, u64::MAX, [1, 2, 3], 3);
    // A weight: alone, the first, the last, one between.
    c.refused(16, 1, [HEAVIEST + 1], 1);
    c.refused(16, 1, [u32::MAX], 1);
    c.refused(16, 1, [HEAVIEST + 1, 1, 1], 3);
    c.refused(16, 1, [1, 1, HEAVIEST + 1], 3);
    c.refused(16, 1, [1, u32::MAX, 1], 3);
    c.refused(16, 0, [1, HEAVIEST + 1], 2);
    c.refused(16, 0, last_of_64(HEAVIEST + 1), 64);
    c.refused(16, LIMIT, [2_147_483_648; 2], 2);
    // Weights whose sum in 32 bits is small again, or zero.
    c.refused(16, 9, [4_294_967_295, 1], 2);
    c.refused(16, 9, [67_108_864; 64], 64);
}

fn refused_17(c: &mut Cases) {
    c.refused(17, 1, [0], 1);
    c.refused(17, 1, [0, 0], 2);
    c.refused(17, LIMIT, [0; 3], 3);
    c.refused(17, 64, [0; 64], 64);
    c.refused(17, 0, [0], 1);
    c.refused(17, 0, [0; 64], 64);
}

/// Several wrong at once: 15 before 16 before 17.
fn refused_in_order(c: &mut Cases) {
    // 15 and 16.
    c.refused(15, LIMIT + 1, [], 0);
    c.refused(15, LIMIT + 1, [1, 2], 3);
    c.refused(15, u64::MAX, [u32::MAX; 65], 65);
    c.refused(15, 1, [HEAVIEST + 1], 0);
    c.refused(15, 1, [u32::MAX; 64], 63);
    // 15 and 17.
    c.refused(15, 1, [0], 2);
    c.refused(15, 1, [0; 65], 65);
    c.refused(15, 0, [0; 64], 65);
    // 16 and 17.
    c.refused(16, LIMIT + 1, [0], 1);
    c.refused(16, LIMIT + 1, [0; 64], 64);
    c.refused(16, u64::MAX, [0, 0], 2);
    // Both of 16.
    c.refused(16, LIMIT + 1, [HEAVIEST + 1], 1);
    // All three.
    c.refused(15, LIMIT + 1, [0; 65], 65);
    c.refused(15, u64::MAX, [0, 0], 1);
    c.refused(15, u64::MAX, [0; 66], 66);
}
