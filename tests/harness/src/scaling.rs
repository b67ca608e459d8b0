//! What CONSTRAIN, MAP and POW found on the stack. Document 02, Q-3: "Operands stand in appendix C's order, first pushed
//! lowest."

use second::instruction::{CONSTRAIN, MAP, POW};
use second::number::Number::{self, Char, Float, Int};
use second::number::{CHAR_TYPE, FLOAT_TYPE, INT_TYPE, STRING_TYPE};

/// The three instructions with the places of their operands, first pushed first.
pub const SCALING: [(u8, &str, &[&str]); 3] =
    [(CONSTRAIN, "CONSTRAIN", &["x", "a", "b"]), (MAP, "MAP", &["a", "b", "c", "d", "e"]), (POW, "POW", &["x", "y"])];

/// What must be reached at every place; a FLOAT y is none that POW takes.
const AT_PLACES: [&str; 6] = ["nothing", "a STRING", "too few bytes", "no type", "the one INT", "the one FLOAT"];

/// What must be reached beside that.
const OF_VALUES: [&str; 65] = [
    "POW, a FLOAT at y",
    "POW, the type FLOAT over too few bytes at y",
    "POW, y above 15 over nothing",
    "POW, y above 15 over a STRING",
    "MAP, b equal to c over nothing",
    "MAP, b equal to c over a STRING",
    "CONSTRAIN, x below a",
    "CONSTRAIN, x between a and b",
    "CONSTRAIN, x above b",
    "CONSTRAIN, a above b and x below both",
    "CONSTRAIN, a above b and x between",
    "CONSTRAIN, a above b and x above both",
    "CONSTRAIN, x equal to a of another type",
    "CONSTRAIN, x equal to b of another type",
    "CONSTRAIN, a equal to b of another type",
    "CONSTRAIN, x a NaN of other bits",
    "CONSTRAIN, a alone a NaN",
    "CONSTRAIN, b alone a NaN",
    "CONSTRAIN, x -0 and a 0",
    "CONSTRAIN, x 0 and a -0",
    "CONSTRAIN, x -0 and b 0",
    "CONSTRAIN, x 0 and b -0",
    "MAP, b equal to c, both of one type",
    "MAP, b equal to c of another type",
    "MAP, a quotient above 0 is cut",
    "MAP, a quotient below 0 is cut",
    "MAP, a quotient below 0 is cut to 0",
    "MAP, a product beyond 32 bits",
    "MAP, a - b beyond CHAR",
    "MAP, e - d beyond CHAR",
    "MAP, c - b beyond CHAR",
    "MAP, a - b beyond INT",
    "MAP, e - d beyond INT",
    "MAP, c - b beyond INT",
    "MAP, a CHAR from beyond CHAR",
    "MAP, an INT from beyond INT",
    "MAP, a quotient beyond the type and the answer not",
    "MAP, b equal to c and whole beside a FLOAT",
    "MAP, b equal to c, infinite",
    "MAP, b equal to c, NaN",
    "MAP, infinite from finite numbers",
    "MAP, a NaN of other bits",
    "MAP, -0",
    "MAP, the quotient times e - d would round otherwise",
    "MAP, a product not rounded would round otherwise",
    "MAP, a quotient not rounded would round otherwise",
    "POW, y -32768",
    "POW, y -128",
    "POW, y -1",
    "POW, y 0",
    "POW, y 15",
    "POW, y 16",
    "POW, y 127",
    "POW, y 256",
    "POW, y 32767",
    "POW, y 0 of a NaN",
    "POW, y 0 of 0",
    "POW, y 1 of a NaN of other bits",
    "POW, an INT from a CHAR x",
    "POW, a CHAR from beyond CHAR",
    "POW, an INT from beyond INT",
    "POW, y 4 by squares would round otherwise",
    "POW, a product not rounded would round otherwise",
    "POW, infinite from a finite x",
    "POW, a FLOAT below 0",
];

/// All that one pass must reach: of turns, and of turns that a single process made too.
pub fn needed() -> Vec<String> {
    let at_places = SCALING.iter().flat_map(|(_, name, places)| {
        let named = places.iter().flat_map(move |place| AT_PLACES.map(|what| format!("{name}, {what} at {place}")));
        named.filter(|name| name != "POW, the one FLOAT at y")
    });
    let names: Vec<String> = at_places.chain(OF_VALUES.map(String::from)).collect();
    // no program of `operands` lays an INT's type over one byte, and of a FLOAT's POW judges the type
    let single = names.iter().filter(|name| *name != "POW, too few bytes at y").map(|name| of_single(name)).collect();
    [names, single].concat()
}

/// The name of a situation that a single process met too.
pub fn of_single(name: &str) -> String {
    format!("single process, {name}")
}

/// The situations of a turn that finds this instruction on this stack.
pub fn situations(opcode: Option<u8>, stack: &[u8]) -> Vec<String> {
    let Some(&(opcode, name, places)) = SCALING.iter().find(|scaling| Some(scaling.0) == opcode) else {
        return Vec::new();
    };
    let mut numbers = Vec::new();
    let mut rest = stack;
    for place in places.iter().rev() {
        match pop(rest, *place == "y") {
            Ok((number, below)) => {
                numbers.insert(0, number);
                rest = below;
            }
            Err(what) => {
                let over = over(opcode, &numbers).map(|whole| format!("{name}, {whole} over {what}"));
                return over.into_iter().chain([format!("{name}, {what} at {place}")]).collect();
            }
        }
    }
    let tried = match numbers[..] {
        [x, a, b] => of_constrain(x, a, b),
        [a, b, c, d, e] => of_map([a, b, c, d, e]),
        [x, y] => of_pow(x, y),
        _ => Vec::new(),
    };
    let tried = tried.into_iter().filter(|(_, holds)| *holds).map(|(what, _)| format!("{name}, {what}"));
    tried.chain(widest(name, places, &numbers)).collect()
}

/// The number at the top and what lies below it, or what is there instead.
fn pop(stack: &[u8], whole: bool) -> Result<(Number, &[u8]), &'static str> {
    let (&kind, below) = stack.split_last().ok_or("nothing")?;
    let rest = below.len().checked_sub(usize::from(kind));
    match (kind, rest) {
        (STRING_TYPE, _) => Err("a STRING"),
        (FLOAT_TYPE, None) if whole => Err("the type FLOAT over too few bytes"),
        (FLOAT_TYPE, _) if whole => Err("a FLOAT"),
        (CHAR_TYPE | INT_TYPE | FLOAT_TYPE, None) => Err("too few bytes"),
        (CHAR_TYPE | INT_TYPE | FLOAT_TYPE, Some(rest)) => Ok((Number::decode(kind, &below[rest..]), &below[..rest])),
        _ => Err("no type"),
    }
}

/// What would be fault 7 or 8 if the first operand were there: "popping from the top" comes before.
fn over(opcode: u8, numbers: &[Number]) -> Option<&'static str> {
    match (opcode, numbers) {
        (POW, [y]) if y.whole()? > 15 => Some("y above 15"),
        (MAP, [b, c, d, e]) if b.whole()? == c.whole()? && d.whole().and(e.whole()).is_some() => Some("b equal to c"),
        _ => None,
    }
}

/// A situation and whether it holds.
type Tried = (&'static str, bool);

/// The place whose type alone is the answer's.
fn widest(name: &str, places: &[&str], numbers: &[Number]) -> Option<String> {
    let kind = numbers.iter().map(|number| number.kind()).max()?;
    let mut widest = places.iter().zip(numbers).filter(|(_, number)| number.kind() == kind);
    let (Some((place, number)), None) = (widest.next(), widest.next()) else { return None };
    let what = if number.whole().is_some() { "the one INT" } else { "the one FLOAT" };
    Some(format!("{name}, {what} at {place}"))
}

fn of_constrain(x: Number, a: Number, b: Number) -> Vec<Tried> {
    let other_type = |one: Number, two: Number| one.float() == two.float() && one.kind() != two.kind();
    let zeros = |one: Number, two: Number, sign: bool| {
        let signs = (one.float().is_sign_negative(), two.float().is_sign_negative());
        one.is_zero() && two.is_zero() && signs == (sign, !sign)
    };
    let (above, below) = (b.float() > 0.0, a.float() < 0.0);
    let mut tried = of_bounds(x.float(), a.float(), b.float());
    tried.extend([
        ("x equal to a of another type", other_type(x, a)),
        ("x equal to b of another type", other_type(x, b)),
        ("a equal to b of another type", other_type(a, b)),
        ("x a NaN of other bits", is_other_nan(x)),
        ("a alone a NaN", is_nan(a) && !is_nan(x) && !is_nan(b)),
        ("b alone a NaN", is_nan(b) && !is_nan(x) && !is_nan(a)),
        ("x -0 and a 0", zeros(x, a, true) && above),
        ("x 0 and a -0", zeros(x, a, false) && above),
        ("x -0 and b 0", zeros(x, b, true) && below),
        ("x 0 and b -0", zeros(x, b, false) && below),
    ]);
    tried
}

fn of_bounds(x: f32, a: f32, b: f32) -> Vec<Tried> {
    vec![
        ("x below a", x < a && a <= b),
        ("x between a and b", a < x && x < b),
        ("x above b", a <= b && b < x),
        ("a above b and x below both", x < b && b < a),
        ("a above b and x between", b < x && x < a),
        ("a above b and x above both", b < a && a < x),
    ]
}

fn is_nan(number: Number) -> bool {
    number.float().is_nan()
}

/// Not the NaN that a result is stored as.
fn is_other_nan(number: Number) -> bool {
    is_nan(number) && number.float().to_bits() != 0x7FC0_0000
}

fn of_map(numbers: [Number; 5]) -> Vec<Tried> {
    let wholes: Option<Vec<i64>> = numbers.iter().map(|number| number.whole().map(i64::from)).collect();
    match wholes {
        Some(wholes) if wholes[1] == wholes[2] => {
            let one_type = numbers[1].kind() == numbers[2].kind();
            vec![("b equal to c, both of one type", one_type), ("b equal to c of another type", !one_type)]
        }
        Some(wholes) => of_map_wholes(&wholes, numbers.iter().all(|number| number.kind() == CHAR_TYPE)),
        None => of_map_floats(&numbers),
    }
}

fn of_map_wholes(wholes: &[i64], char: bool) -> Vec<Tried> {
    let &[a, b, c, d, e] = wholes else { return Vec::new() };
    let (product, divisor) = ((a - b) * (e - d), c - b);
    let quotient = product / divisor;
    let (cut, negative) = (product % divisor != 0, (product < 0) != (divisor < 0));
    let beyond = |exact: i64| if char { i8::try_from(exact).is_err() } else { i16::try_from(exact).is_err() };
    vec![
        ("a quotient above 0 is cut", cut && !negative),
        ("a quotient below 0 is cut", cut && negative && quotient < 0),
        ("a quotient below 0 is cut to 0", cut && negative && quotient == 0),
        ("a product beyond 32 bits", i32::try_from(product).is_err()),
        ("a - b beyond CHAR", char && beyond(a - b)),
        ("e - d beyond CHAR", char && beyond(e - d)),
        ("c - b beyond CHAR", char && beyond(divisor)),
        ("a - b beyond INT", !char && beyond(a - b)),
        ("e - d beyond INT", !char && beyond(e - d)),
        ("c - b beyond INT", !char && beyond(divisor)),
        ("a CHAR from beyond CHAR", char && beyond(quotient + d)),
        ("an INT from beyond INT", !char && beyond(quotient + d)),
        ("a quotient beyond the type and the answer not", beyond(quotient) && !beyond(quotient + d)),
    ]
}

fn of_map_floats(numbers: &[Number; 5]) -> Vec<Tried> {
    let [a, b, c, d, e] = numbers.map(Number::float);
    let (product, divisor) = ((a - b) * (e - d), c - b);
    let answer = product / divisor + d;
    let finite = numbers.iter().all(|number| number.float().is_finite());
    let otherwise = |other: f32| answer.is_finite() && other != answer;
    let exact = f64::from(a - b) * f64::from(e - d) / f64::from(divisor);
    let quotient = f64::from(product) / f64::from(divisor);
    let whole_divisor = numbers[1].whole().and(numbers[2].whole()).is_some();
    vec![
        ("b equal to c and whole beside a FLOAT", b == c && whole_divisor),
        ("b equal to c, infinite", b == c && answer.is_infinite()),
        ("b equal to c, NaN", b == c && finite && answer.is_nan()),
        ("infinite from finite numbers", b != c && finite && answer.is_infinite()),
        ("a NaN of other bits", numbers.iter().any(|&number| is_other_nan(number))),
        ("-0", answer == 0.0 && answer.is_sign_negative()),
        ("the quotient times e - d would round otherwise", otherwise((a - b) / divisor * (e - d) + d)),
        ("a product not rounded would round otherwise", otherwise(exact as f32 + d)),
        ("a quotient not rounded would round otherwise", otherwise((quotient + f64::from(d)) as f32)),
    ]
}

fn of_pow(x: Number, y: Number) -> Vec<Tried> {
    let exponent = y.whole().unwrap_or(0);
    let mut tried = of_exponent(exponent);
    tried.extend([
        ("y 0 of a NaN", exponent == 0 && is_nan(x)),
        ("y 0 of 0", exponent == 0 && x.is_zero()),
        ("y 1 of a NaN of other bits", exponent == 1 && is_other_nan(x)),
    ]);
    match (x, u32::try_from(exponent)) {
        (Float(x), Ok(times @ 0..=15)) => tried.extend(of_pow_float(x, times)),
        (_, Ok(times @ 0..=15)) => tried.extend(of_pow_whole(x, y, times)),
        _ => {}
    }
    tried
}

fn of_exponent(y: i32) -> Vec<Tried> {
    vec![
        ("y -32768", y == -32_768),
        ("y -128", y == -128),
        ("y -1", y == -1),
        ("y 0", y == 0),
        ("y 15", y == 15),
        ("y 16", y == 16),
        ("y 127", y == 127),
        ("y 256", y == 256),
        ("y 32767", y == 32_767),
    ]
}

fn of_pow_whole(x: Number, y: Number, times: u32) -> Vec<Tried> {
    let exact = x.whole().and_then(|x| i64::from(x).checked_pow(times));
    let fits_char = exact.is_some_and(|exact| i8::try_from(exact).is_ok());
    let fits_int = exact.is_some_and(|exact| i16::try_from(exact).is_ok());
    match (x, y) {
        (Char(_), Char(_)) => vec![("a CHAR from beyond CHAR", !fits_char)],
        (Char(_), Int(_)) => vec![("an INT from a CHAR x", fits_int && !fits_char)],
        _ => vec![("an INT from beyond INT", !fits_int)],
    }
}

fn of_pow_float(x: f32, times: u32) -> Vec<Tried> {
    let answer = (0..times).fold(1.0, |product: f32, _| product * x);
    let exact = (0..times).fold(1.0, |product: f64, _| product * f64::from(x));
    let square = x * x;
    vec![
        ("y 4 by squares would round otherwise", times == 4 && answer.is_finite() && square * square != answer),
        ("a product not rounded would round otherwise", answer.is_finite() && exact as f32 != answer),
        ("infinite from a finite x", x.is_finite() && answer.is_infinite()),
        ("a FLOAT below 0", answer < 0.0),
    ]
}
