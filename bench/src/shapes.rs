//! Records to try, and modules that put many questions about names.

/// A record without flags and range.
pub fn record(mark: &str, text: &[u8], children: &[Vec<u8>]) -> Vec<u8> {
    let mut bytes = mark.as_bytes().to_vec();
    bytes.extend([0; 9]);
    bytes.extend((text.len() as u16).to_le_bytes());
    bytes.extend((children.len() as u16).to_le_bytes());
    bytes.extend(text);
    for child in children {
        bytes.extend(child);
    }
    bytes
}

pub fn leaf(mark: &str) -> Vec<u8> {
    record(mark, &[], &[])
}

/// A resolved name.
pub fn name(symbol: &str) -> Vec<u8> {
    record("Id", &[b"\x02\0\0\0", symbol.as_bytes()].concat(), &[])
}

fn declarator(symbol: &str, ty: Vec<u8>, init: Vec<u8>) -> Vec<u8> {
    record("Vr", &[], &[record("Bd", &[], &[name(symbol), ty]), init])
}

/// A Vd with the flag of a const.
fn constants(declarators: &[Vec<u8>]) -> Vec<u8> {
    let mut bytes = record("Vd", &[], declarators);
    bytes[2] = 2;
    bytes
}

pub fn constant(symbol: &str, ty: Vec<u8>, init: Vec<u8>) -> Vec<u8> {
    constants(&[declarator(symbol, ty, init)])
}

/// Items in a namespace with so many dots in its name.
pub fn dotted(dots: usize, items: Vec<Vec<u8>>) -> Vec<u8> {
    let body = (0..dots).fold(record("Nb", &[], &items), |body, _| record("Nd", &[], &[leaf("Op"), body]));
    record("Ns", &[], &[leaf("Op"), body])
}

fn function(symbol: &str) -> Vec<u8> {
    record("Fd", &[], &[name(symbol), record("Fu", &[], &[leaf("No"), leaf("No"), leaf("No")])])
}

fn numbered(number: usize) -> String {
    format!("n{number:05}")
}

/// As many of these records as fit in so many bytes.
fn fill(bytes: usize, make: impl Fn(usize) -> Vec<u8>) -> Vec<Vec<u8>> {
    vec![make(0); bytes / make(0).len()].into_iter().enumerate().map(|(number, _)| make(number)).collect()
}

/// A module of functions and a full overload list, in which none of them is found.
pub fn unlisted(bytes: usize) -> (Vec<u8>, Vec<u8>) {
    let entry = |number: u32| [b"ov", &number.to_le_bytes()[..], &number.to_le_bytes()[..]].concat();
    (record("Mo", &[], &fill(bytes - 60, |number| function(&numbered(number)))), (1..=4096).flat_map(entry).collect())
}

/// Numbers in no order, other ones for each seed.
fn numbers(seed: u64) -> impl FnMut() -> usize {
    let mut state = 2 * seed + 1;
    move || {
        state = state.wrapping_mul(6_364_136_223_846_793_005).wrapping_add(1_442_695_040_888_963_407);
        (state >> 33) as usize
    }
}

/// The numbers below `count` in no order.
fn shuffled(count: usize, seed: u64) -> Vec<usize> {
    let mut order: Vec<usize> = (0..count).collect();
    let mut next = numbers(seed);
    for last in (1..count).rev() {
        order.swap(last, next() % (last + 1));
    }
    order
}

/// The shapes in which each name is a question about the module: each a module of at most so many bytes, and nearly as many. Names that are asked in
/// no order are asked in another one for each seed.
pub fn shapes(bytes: usize, seed: u64) -> Vec<(&'static str, Vec<u8>)> {
    let half = bytes / 2 - 60;
    let with_default = |mut items: Vec<Vec<u8>>, mark: &str, parts: Vec<Vec<u8>>| {
        items.push(record("Xe", &[], &[record(mark, &[], &parts)]));
        record("Mo", &[], &items)
    };
    let imports = || fill(half, |_| leaf("Im"));
    let functions = |symbol: &dyn Fn(usize) -> String| fill(half, |number| function(&symbol(number)));
    let count = functions(&numbered).len();
    let falling = |number: usize| numbered(count - 1 - number);
    let order = shuffled(count, seed);
    let mixed = |number: usize| numbered(order[number]);
    let same = |_: usize| numbered(0);
    // The names of the functions, each asked several times and not in their order.
    let asked = || {
        let mut next = numbers(seed + 1_000_000);
        fill(half, |number| name(&numbered(number))).iter().map(|_| name(&numbered(next() % count))).collect()
    };
    let whole = |items: Vec<Vec<u8>>| record("Mo", &[], &items);
    let full = bytes - 60;
    vec![
        ("imports and an array of names", with_default(imports(), "Ar", asked())),
        ("imports and an array of spread names", with_default(imports(), "Ar", fill(half, |n| record("Sp", &[], &[name(&numbered(n))])))),
        ("imports and an array of new objects", with_default(imports(), "Ar", fill(half, |n| record("Ne", &[], &[name(&numbered(n)), leaf("No")])))),
        ("imports and an object of shorthands", with_default(imports(), "Ob", fill(half, |n| record("Sh", &[], &[name(&numbered(n))])))),
        ("functions with rising names, and an array of names", with_default(functions(&numbered), "Ar", asked())),
        ("functions with falling names, and an array of names", with_default(functions(&falling), "Ar", asked())),
        ("functions with names in no order, and an array of names", with_default(functions(&mixed), "Ar", asked())),
        ("functions of one name, and an array of names", with_default(functions(&same), "Ar", asked())),
        ("constants, each with a name", whole(fill(full, |n| constant(&numbered(n + 1), leaf("No"), name(&numbered(n)))))),
        ("constants with falling names, each with a name", whole(fill(full, |n| constant(&numbered(99_998 - n), leaf("No"), name(&numbered(99_999 - n)))))),
        ("declarators of one constant, each with a name", whole(vec![constants(&fill(full, |n| declarator(&numbered(n + 1), leaf("No"), name(&numbered(n)))))])),
    ]
}
