// The operations of vp_bits by hand, on a width and a pair of words, timed as bench/bits/main.txt times them: the calls' conditions are
// tested in both.
use std::time::Instant;

const TURNS: u64 = 20_000_000;

#[derive(Clone, Copy)]
struct Pair {
    width: u8,
    aval: u64,
    bval: u64,
}

fn ones(width: u8) -> u64 {
    u64::MAX >> (64 - width)
}

fn pair(width: u8, aval: u64, bval: u64) -> Pair {
    Pair { width, aval, bval }
}

fn unknown(width: u8) -> Pair {
    pair(width, ones(width), ones(width))
}

fn number(width: u8, number: u64) -> Pair {
    pair(width, number & ones(width), 0)
}

fn bit(test: bool) -> Pair {
    pair(1, test as u64, 0)
}

fn and(a: Pair, b: Pair) -> Pair {
    let ones = (a.aval | a.bval) & (b.aval | b.bval);
    pair(a.width, ones, ones & (a.bval | b.bval))
}

fn or(a: Pair, b: Pair) -> Pair {
    let unknown = a.bval | b.bval;
    let ones = (a.aval & !a.bval) | (b.aval & !b.bval);
    pair(a.width, ones | unknown, unknown & !ones)
}

fn xor(a: Pair, b: Pair) -> Pair {
    let unknown = a.bval | b.bval;
    pair(a.width, (a.aval ^ b.aval) | unknown, unknown)
}

fn not(a: Pair) -> Pair {
    pair(a.width, (a.aval ^ ones(a.width)) | a.bval, a.bval)
}

fn merge(a: Pair, b: Pair) -> Pair {
    let unknown = (a.aval ^ b.aval) | a.bval | b.bval;
    pair(a.width, a.aval | unknown, unknown)
}

fn computed(a: Pair, b: Pair, operation: impl Fn(u64, u64) -> u64) -> Pair {
    if a.bval | b.bval != 0 {
        unknown(a.width)
    } else {
        number(a.width, operation(a.aval, b.aval))
    }
}

fn eq(a: Pair, b: Pair) -> Pair {
    let unknowns = a.bval | b.bval;
    if (a.aval ^ b.aval) & !unknowns != 0 {
        bit(false)
    } else if unknowns != 0 {
        unknown(1)
    } else {
        bit(true)
    }
}

fn lt(a: Pair, b: Pair) -> Pair {
    if a.bval | b.bval != 0 {
        unknown(1)
    } else {
        bit(a.aval < b.aval)
    }
}

fn shl(a: Pair, n: Pair) -> Pair {
    if n.bval != 0 {
        unknown(a.width)
    } else if n.aval >= a.width as u64 {
        number(a.width, 0)
    } else {
        pair(
            a.width,
            (a.aval << n.aval) & ones(a.width),
            (a.bval << n.aval) & ones(a.width),
        )
    }
}

fn shr(a: Pair, n: Pair) -> Pair {
    if n.bval != 0 {
        unknown(a.width)
    } else if n.aval >= a.width as u64 {
        number(a.width, 0)
    } else {
        pair(a.width, a.aval >> n.aval, a.bval >> n.aval)
    }
}

fn concat(a: Pair, b: Pair) -> Pair {
    pair(
        a.width + b.width,
        (a.aval << b.width) | b.aval,
        (a.bval << b.width) | b.bval,
    )
}

fn replicate(a: Pair, count: u8) -> Pair {
    let width = a.width * count;
    let places = ones(width) / ones(a.width);
    pair(width, a.aval * places, a.bval * places)
}

fn select(a: Pair, low: u8, width: u8) -> Pair {
    pair(
        width,
        (a.aval >> low) & ones(width),
        (a.bval >> low) & ones(width),
    )
}

fn with_select(a: Pair, low: u8, part: Pair) -> Pair {
    let places = ones(part.width) << low;
    pair(
        a.width,
        (a.aval & !places) | (part.aval << low),
        (a.bval & !places) | (part.bval << low),
    )
}

fn reduce_and(a: Pair) -> Pair {
    if (a.aval | a.bval) ^ ones(a.width) != 0 {
        bit(false)
    } else if a.bval != 0 {
        unknown(1)
    } else {
        bit(true)
    }
}

fn reduce_or(a: Pair) -> Pair {
    if a.aval & !a.bval != 0 {
        bit(true)
    } else if a.bval != 0 {
        unknown(1)
    } else {
        bit(false)
    }
}

fn reduce_xor(a: Pair) -> Pair {
    if a.bval != 0 {
        unknown(1)
    } else {
        number(1, a.aval.count_ones() as u64)
    }
}

fn next(mut number: u64) -> u64 {
    number ^= number << 13;
    number ^= number >> 7;
    number ^ (number << 17)
}

// The lowest digits of a number, the first of them the greatest: known ones, as most are.
fn vector(from: u64, width: u8) -> Pair {
    let mut found = pair(width, 0, 0);
    for place in 0..width {
        found.aval = found.aval << 1 | (from >> place & 1);
    }
    found
}

fn together(a: Pair, b: Pair) -> Pair {
    if a.width == b.width {
        xor(a, b)
    } else {
        b
    }
}

fn digits(a: Pair) -> String {
    let digit = |place| match (a.aval >> place & 1, a.bval >> place & 1) {
        (0, 0) => '0',
        (1, 0) => '1',
        (0, _) => 'z',
        _ => 'x',
    };
    (0..a.width).rev().map(digit).collect()
}

fn time(name: &str, operands: &[(Pair, Pair); 256], call: impl Fn(Pair, Pair, Pair) -> Pair) {
    let mut total = bit(false);
    let start = Instant::now();
    for turn in 0..TURNS {
        let place = (turn % 256) as usize;
        let next = ((turn + 1) % 256) as usize;
        total = together(
            total,
            call(operands[place].0, operands[next].0, operands[place].1),
        );
    }
    let picoseconds = start.elapsed().as_nanos() as u64 / (TURNS / 1000);
    println!("{name} {picoseconds} {}", digits(total));
}

fn main() {
    let mut number = 88_172_645_463_325_252;
    let operands: [(Pair, Pair); 256] = std::array::from_fn(|_| {
        number = next(number);
        let first = vector(number, 32);
        number = next(number);
        (first, vector(number, 5))
    });
    let operands = std::hint::black_box(operands);
    time("none", &operands, |a, _, _| a);
    time("and", &operands, |a, b, _| {
        if a.width == b.width {
            and(a, b)
        } else {
            a
        }
    });
    time("or", &operands, |a, b, _| {
        if a.width == b.width {
            or(a, b)
        } else {
            a
        }
    });
    time("xor", &operands, |a, b, _| {
        if a.width == b.width {
            xor(a, b)
        } else {
            a
        }
    });
    time("not", &operands, |a, _, _| not(a));
    time("merge", &operands, |a, b, _| {
        if a.width == b.width {
            merge(a, b)
        } else {
            a
        }
    });
    time("add", &operands, |a, b, _| {
        computed(a, b, u64::wrapping_add)
    });
    time("sub", &operands, |a, b, _| {
        computed(a, b, u64::wrapping_sub)
    });
    time("mul", &operands, |a, b, _| {
        computed(a, b, u64::wrapping_mul)
    });
    time("eq", &operands, |a, b, _| {
        if a.width == b.width {
            eq(a, b)
        } else {
            a
        }
    });
    time("case_eq", &operands, |a, b, _| {
        if a.width == b.width {
            bit(a.aval == b.aval && a.bval == b.bval)
        } else {
            a
        }
    });
    time("lt", &operands, |a, b, _| {
        if a.width == b.width {
            lt(a, b)
        } else {
            a
        }
    });
    time("shl", &operands, |a, _, n| shl(a, n));
    time("shr", &operands, |a, _, n| shr(a, n));
    time("concat", &operands, |a, b, _| {
        if a.width + b.width <= 64 {
            concat(a, b)
        } else {
            a
        }
    });
    time("replicate", &operands, |a, _, _| {
        if a.width <= 32 {
            replicate(a, 2)
        } else {
            a
        }
    });
    time("select", &operands, |a, _, _| {
        if a.width >= 17 {
            select(a, 5, 12)
        } else {
            a
        }
    });
    time("with_select", &operands, |a, b, n| {
        if n.width <= 11 && a.width >= 16 {
            with_select(a, 5, n)
        } else {
            b
        }
    });
    time("resize", &operands, |a, _, _| {
        pair(20, a.aval & ones(20), a.bval & ones(20))
    });
    time("reduce_and", &operands, |a, _, _| reduce_and(a));
    time("reduce_or", &operands, |a, _, _| reduce_or(a));
    time("reduce_xor", &operands, |a, _, _| reduce_xor(a));
}
