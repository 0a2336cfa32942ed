//! The exact amplitude Z, ordered against whole numbers without rounding.

use crate::amplitude::Window;

/// Z ≥ 0 with Z² = P + Q√2.
#[derive(Clone, Copy, Debug, PartialEq, Eq)]
pub struct Exact {
    pub p: i128,
    pub q: i128,
}

impl Exact {
    /// The exact amplitude of order 1, 2 or 3.
    pub fn of_order(window: &Window, order: u8) -> Exact {
        match order {
            1 => Exact::of(window),
            2 => {
                // "For p = 2, Q is 0 and P is 16((s0 − s2 + s4 − s6)² + (s1 − s3 + s5 − s7)²)."
                let s = window.map(i128::from);
                let even = s[0] - s[2] + s[4] - s[6];
                let odd = s[1] - s[3] + s[5] - s[7];
                Exact { p: 16 * (even * even + odd * odd), q: 0 }
            }
            // "Document 01's Z with sample k replaced by sample 3k mod 8."
            3 => Exact::of(&std::array::from_fn(|k| window[3 * k % 8])),
            _ => panic!("no order {order}"),
        }
    }

    /// The exact amplitude of document 01: order 1.
    pub fn of(window: &Window) -> Exact {
        let s = window.map(i128::from);
        let a = s[0] - s[4];
        let b = s[1] - s[3] - s[5] + s[7];
        let c = s[2] - s[6];
        let d = s[1] + s[3] - s[5] - s[7];
        Exact {
            p: 16 * (a * a + c * c) + 8 * (b * b + d * d),
            q: 16 * (a * b + c * d),
        }
    }

    /// Z ≥ t.
    pub fn at_least(&self, t: i64) -> bool {
        let t = i128::from(t);
        t < 0 || order_rule(self.p - t * t, self.q)
    }

    /// Z ≤ t: "the same rule with −R and −Q".
    pub fn at_most(&self, t: i64) -> bool {
        let t = i128::from(t);
        t >= 0 && order_rule(-(self.p - t * t), -self.q)
    }

    /// "Z < t means that Z ≥ t fails."
    pub fn below(&self, t: i64) -> bool {
        !self.at_least(t)
    }

    /// "Within 2" means Z ≥ m − 2 and Z ≤ m + 2.
    pub fn within_2(&self, m: i64) -> bool {
        self.at_least(m - 2) && self.at_most(m + 2)
    }
}

/// R + Q√2 ≥ 0, by the three cases of the document.
fn order_rule(r: i128, q: i128) -> bool {
    (r >= 0 && q >= 0)
        || (r >= 0 && q < 0 && r * r >= 2 * q * q)
        || (r < 0 && q > 0 && 2 * q * q >= r * r)
}
