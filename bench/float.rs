// The same job in plain floating point: read a record, refuse it, or give verdict, use, capacity and row share; write a
// record from values and read values from a record; find whole square roots.
// Nothing here is proved, and comparisons are only as good as f64, but for a loaded edge's: it is a yardstick for the
// benchmark.

// By class from 1: k90 without its 0.015 d (1.35 softwood, 0.90 hardwood), and the density.
const WOOD: [(f64, f64); 11] = [
    (1.35, 350.),
    (1.35, 380.),
    (1.35, 385.),
    (1.35, 365.),
    (1.35, 425.),
    (1.35, 390.),
    (1.35, 440.),
    (1.35, 400.),
    (0.90, 530.),
    (0.90, 550.),
    (0.90, 900.),
];
const STEEL: [f64; 3] = [360., 430., 510.];
const KMOD: [[f64; 5]; 3] = [
    [0.60, 0.70, 0.80, 0.90, 1.10],
    [0.60, 0.70, 0.80, 0.90, 1.10],
    [0.50, 0.55, 0.65, 0.70, 0.90],
];

// Versions of the record that are known; the first by which a loaded edge is one of EN 1995-1-1.
const OLDEST: i32 = 1;
const NEWEST: i32 = 2;
const LOADED_EDGES: i32 = 2;

// What a call is lent for its classes: nothing, a firm's own table, or a firm's number and one that two firms share.
#[derive(Clone, Copy)]
enum Lent<'a> {
    Nothing,
    Own(&'a [u8]),
    Shared(u32, &'a [u8]),
}

// By which table classes are read: the printed one, or a firm's, as its entries of 4 bytes.
#[derive(Clone, Copy)]
enum Table<'a> {
    Printed,
    Own(&'a [u8]),
}

impl Table<'_> {
    fn wood(self, class: u8) -> Option<(f64, f64)> {
        match self {
            Table::Printed => WOOD.get((class as usize).wrapping_sub(1)).copied(),
            Table::Own(entries) => {
                let e = entries.chunks_exact(4).find(|e| e[0] == class)?;
                Some((if e[1] == 0 { 1.35 } else { 0.90 }, u16_at(e, 2) as f64))
            }
        }
    }
}

#[derive(Clone, Copy)]
struct Member {
    class: u8,
    wood: Option<(f64, f64)>,
    grain: u8,
    thickness: f64,
    x0: f64,
    y0: f64,
    x1: f64,
    y1: f64,
}

// Lengths in tenths of a millimetre, the diameter in millimetres, forces in newtons.
struct Joint {
    version: i32,
    planes: u8,
    members: [Member; 2],
    d: f64,
    steel: u8,
    n: usize,
    x: [f64; 64],
    y: [f64; 64],
    service: u8,
    duration: u8,
    fx: f64,
    fy: f64,
}

type Refusal = [u64; 4];

fn u16_at(b: &[u8], i: usize) -> usize {
    u16::from_le_bytes([b[i], b[i + 1]]) as usize
}

fn i32_at(b: &[u8], i: usize) -> f64 {
    i32::from_le_bytes([b[i], b[i + 1], b[i + 2], b[i + 3]]) as f64
}

fn refuse<T>(number: u64) -> Result<T, Refusal> {
    Err([number, 0, 0, 0])
}

// What so many pairs name: stretches of whole entries, end to end behind the pairs up to the last byte; or refusal 14.
fn stretches<const PAIRS: usize>(b: &[u8]) -> Result<[&[u8]; PAIRS], Refusal> {
    let mut end = 2 + 4 * PAIRS;
    let mut named = [&b[..0]; PAIRS];
    if b.len() < end || u16_at(b, 0) != PAIRS {
        return refuse(14);
    }
    for (k, stretch) in named.iter_mut().enumerate() {
        let (offset, length) = (u16_at(b, 2 + 4 * k), u16_at(b, 4 + 4 * k));
        if offset != end || length == 0 || length % 4 != 0 || b.len() - end < length {
            return refuse(14);
        }
        *stretch = &b[end..end + length];
        end += length;
    }
    if end != b.len() {
        return refuse(14);
    }
    Ok(named)
}

// Refusals 14 to 16. No table handed in: the printed one.
fn load(lent: Lent<'_>) -> Result<Table<'_>, Refusal> {
    let entries = match lent {
        Lent::Nothing => return Ok(Table::Printed),
        Lent::Own(b) => stretches::<1>(b)?[0],
        Lent::Shared(firm @ 1..=2, b) => stretches::<2>(b)?[firm as usize - 1],
        Lent::Shared(..) => return refuse(16),
    };
    let mut before = 0;
    for e in entries.chunks_exact(4) {
        if e[0] <= before || e[1] > 1 || !(290..=1100).contains(&u16_at(e, 2)) {
            return refuse(15);
        }
        before = e[0];
    }
    Ok(Table::Own(entries))
}

// Refusal 2.
fn known(version: i32) -> Result<i32, Refusal> {
    if (OLDEST..=NEWEST).contains(&version) { Ok(version) } else { refuse(2) }
}

// Refusals 1 to 6; the version, and where each kind's part starts.
fn layout(b: &[u8]) -> Result<(i32, [usize; 4]), Refusal> {
    if b.len() < 20 {
        return refuse(1);
    }
    let version = known(u16_at(b, 0) as i32)?;
    if u16_at(b, 2) != 4 {
        return refuse(3);
    }
    let mut end = 20;
    for k in 0..4 {
        let (offset, length) = (u16_at(b, 4 + 4 * k), u16_at(b, 6 + 4 * k));
        if offset != end || length == 0 {
            return refuse(4);
        }
        end += length;
    }
    if end != b.len() {
        return refuse(4);
    }
    let mut at = [0; 4];
    let mut lengths = [0; 4];
    for k in 0..4 {
        let offset = u16_at(b, 4 + 4 * k);
        let kind = b[offset] as usize;
        if !(1..=4).contains(&kind) || at[kind - 1] != 0 {
            return refuse(5);
        }
        at[kind - 1] = offset;
        lengths[kind - 1] = u16_at(b, 6 + 4 * k);
    }
    if lengths[0] != 42 || lengths[1] != 3 || lengths[3] != 11 {
        return refuse(6);
    }
    if lengths[2] < 2 || lengths[2] != 2 + 8 * b[at[2] + 1] as usize {
        return refuse(6);
    }
    Ok((version, at))
}

fn member(b: &[u8], i: usize, table: Table) -> Member {
    Member {
        class: b[i],
        wood: table.wood(b[i]),
        grain: b[i + 1],
        thickness: u16_at(b, i + 2) as f64,
        x0: i32_at(b, i + 4),
        y0: i32_at(b, i + 8),
        x1: i32_at(b, i + 12),
        y1: i32_at(b, i + 16),
    }
}

// Refusals 7 to 9; the number of dowels is tested before.
fn value_fault(j: &Joint) -> Result<(), Refusal> {
    let coordinate = |z: f64| z.abs() <= 100_000.;
    let fields = (1..=2).contains(&j.planes)
        && j.members.iter().all(|m| {
            m.wood.is_some()
                && m.grain <= 1
                && (200. ..=4000.).contains(&m.thickness)
                && [m.x0, m.y0, m.x1, m.y1].into_iter().all(coordinate)
        })
        && (6. ..=30.).contains(&j.d)
        && (1..=3).contains(&j.steel)
        && j.x[..j.n].iter().chain(&j.y[..j.n]).all(|&z| coordinate(z))
        && (1..=3).contains(&j.service)
        && (1..=5).contains(&j.duration)
        && j.fx.abs() <= 1e6
        && j.fy.abs() <= 1e6;
    if !fields {
        return refuse(7);
    }
    if j.members.iter().any(|m| m.x0 >= m.x1 || m.y0 >= m.y1) {
        return refuse(8);
    }
    if j.fx == 0. && j.fy == 0. {
        return refuse(9);
    }
    Ok(())
}

// Refusals 1 to 9.
fn read(b: &[u8], table: Table) -> Result<Joint, Refusal> {
    let (version, at) = layout(b)?;
    let n = b[at[2] + 1] as usize;
    if !(1..=64).contains(&n) {
        return refuse(7);
    }
    let mut j = Joint {
        version,
        planes: b[at[0] + 1],
        members: [member(b, at[0] + 2, table), member(b, at[0] + 22, table)],
        d: b[at[1] + 1] as f64,
        steel: b[at[1] + 2],
        n,
        x: [0.; 64],
        y: [0.; 64],
        service: b[at[3] + 1],
        duration: b[at[3] + 2],
        fx: i32_at(b, at[3] + 3),
        fy: i32_at(b, at[3] + 7),
    };
    for i in 0..n {
        j.x[i] = i32_at(b, at[2] + 2 + 8 * i);
        j.y[i] = i32_at(b, at[2] + 6 + 8 * i);
    }
    value_fault(&j)?;
    Ok(j)
}

// The least whole number that is not below a length times the root of part/whole: the one nearest to what f64 makes of
// it, or the next.  Which of the two, f64 would guess where they are close; their squares say it, whole and in 64 bits.
fn least_root(length: f64, part: f64, whole: f64) -> f64 {
    let near = (length * (part / whole).sqrt() + 0.5) as i64;
    let [l, p, w] = [length, part, whole].map(|z| z as i64);
    (if near * near * w < l * l * p { near + 1 } else { near }) as f64
}

// The least distances from the low and from the high one of two ends or edges, by the force from one to the other.
fn least_distances(force: f64, loaded: f64, other: f64) -> (f64, f64) {
    (if force < 0. { loaded } else { other }, if force > 0. { loaded } else { other })
}

// Refusals 10 to 12 of a member, with the force in it.
fn spacing(j: &Joint, k: usize, fx: f64, fy: f64) -> Result<(), Refusal> {
    let m = &j.members[k];
    let place = k as u64 + 1;
    let (along, across, force_along, force_across) =
        if m.grain == 0 { (&j.x[..j.n], &j.y[..j.n], fx, fy) } else { (&j.y[..j.n], &j.x[..j.n], fy, fx) };
    let ((end0, end1), (edge0, edge1)) =
        if m.grain == 0 { ((m.x0, m.x1), (m.y0, m.y1)) } else { ((m.y0, m.y1), (m.x0, m.x1)) };
    let d = 10. * j.d;
    let whole = fx * fx + fy * fy;
    let cos2 = force_along * force_along / whole;
    let apart = (3. + 2. * cos2.sqrt()) * d;
    for i in 0..j.n {
        for l in i + 1..j.n {
            if (along[i] - along[l]).abs() < apart && (across[i] - across[l]).abs() < 3. * d {
                return Err([10, place, i as u64 + 1, l as u64 + 1]);
            }
        }
    }
    let free = (7. * d * (1. - cos2).sqrt()).max(3. * d);
    let (low, high) = least_distances(force_along, (7. * d).max(800.), free);
    for i in 0..j.n {
        if along[i] - end0 < low || end1 - along[i] < high {
            return Err([11, place, i as u64 + 1, 0]);
        }
    }
    let mut loaded = 3. * d;
    if j.version >= LOADED_EDGES {
        loaded = loaded.max(2. * d + least_root(2. * d, force_across * force_across, whole));
    }
    let (low, high) = least_distances(force_across, loaded, 3. * d);
    for i in 0..j.n {
        if across[i] - edge0 < low || edge1 - across[i] < high {
            return Err([12, place, i as u64 + 1, 0]);
        }
    }
    Ok(())
}

fn cos2(m: &Member, j: &Joint) -> f64 {
    let c = if m.grain == 0 { j.fx } else { j.fy };
    c * c / (j.fx * j.fx + j.fy * j.fy)
}

fn capacity(j: &Joint) -> f64 {
    let bearing = |m: &Member| {
        let c2 = cos2(m, j);
        let (base, density) = m.wood.expect("7 was tested");
        let k90 = base + 0.015 * j.d;
        0.082 * (1. - 0.01 * j.d) * density / (k90 * (1. - c2) + c2)
    };
    let [f1, f2] = [bearing(&j.members[0]), bearing(&j.members[1])];
    let [t1, t2] = [j.members[0].thickness / 10., j.members[1].thickness / 10.];
    let moment = 0.3 * STEEL[j.steel as usize - 1] * j.d.powf(2.6);
    let s = (f2 / (f1 + f2)).sqrt();
    let c = (f1 / (f1 + f2)).sqrt();
    let first = 2.3 * (moment * j.d * f1 * f2 / (f1 + f2)).sqrt();
    let second = f1 * j.d * t1 * s / (1. + s);
    let third = if j.planes == 1 { f2 * j.d * t2 * c / (1. + c) } else { f2 * j.d * t2 / 2. };
    first.min(second).min(third)
}

// The least effective number over n of the rows of a member. The dowels are put in order along once. A row is all dowels
// less than d above its lowest one; where such dowels are no row, they are part of one, whose share is no greater.
fn share(j: &Joint, m: &Member) -> f64 {
    let (along, across) = if m.grain == 0 { (&j.x, &j.y) } else { (&j.y, &j.x) };
    let mut dowels = [(0f64, 0f64); 64];
    for i in 0..j.n {
        dowels[i] = (along[i], across[i]);
    }
    let dowels = &mut dowels[..j.n];
    dowels.sort_unstable_by(|p, q| p.0.total_cmp(&q.0));
    let d = 10. * j.d;
    let mut least: f64 = 1.;
    for i in 0..j.n {
        let low = dowels[i].1;
        if dowels[..i].iter().any(|p| p.1 == low) {
            continue;
        }
        let (mut n, mut a1, mut last) = (0, f64::INFINITY, f64::NEG_INFINITY);
        for &(here, side) in dowels.iter() {
            if low <= side && side < low + d {
                n += 1;
                a1 = a1.min(here - last);
                last = here;
            }
        }
        if n > 1 {
            least = least.min((n as f64).powf(-0.1) * (a1 / (13. * d)).powf(0.25));
        }
    }
    least
}

fn judge(lent: Lent, b: &[u8]) -> [u64; 8] {
    let refused = |r: Refusal| [0, r[0], r[1], r[2], r[3], 0, 0, 0];
    let j = match load(lent).and_then(|table| read(b, table)) {
        Ok(j) => j,
        Err(r) => return refused(r),
    };
    if let Err(r) = spacing(&j, 0, -j.fx, -j.fy) {
        return refused(r);
    }
    if let Err(r) = spacing(&j, 1, j.fx, j.fy) {
        return refused(r);
    }
    let r = capacity(&j);
    let share1 = share(&j, &j.members[0]);
    let share2 = if j.members[0].grain == j.members[1].grain { share1 } else { share(&j, &j.members[1]) };
    let planes = if j.n == 1 { 0.5 * j.planes as f64 } else { j.n as f64 * j.planes as f64 };
    let kmod = KMOD[j.service as usize - 1][j.duration as usize - 1];
    let design = planes * kmod * r / 1.3;
    let force = j.fx.hypot(j.fy);
    let along = |m: &Member| if m.grain == 0 { j.fx.abs() } else { j.fy.abs() };
    let used = (force / design)
        .max(along(&j.members[0]) / (share1 * design))
        .max(along(&j.members[1]) / (share2 * design));
    let u = (10_000. * used).ceil() as u64;
    let verdict = if u <= 10_000 { 1 } else { 2 };
    [verdict, 0, 0, 0, 0, u, r as u64, (10_000. * share1.min(share2)) as u64]
}

// The slices as C hands them over.
unsafe fn judge_lent(
    lent: Lent,
    record: *const u8,
    record_len: usize,
    report: *mut u64,
    report_len: usize,
) -> u32 {
    if report_len < 8 {
        return 1;
    }
    let record = unsafe { std::slice::from_raw_parts(record, record_len) };
    let report = unsafe { std::slice::from_raw_parts_mut(report, report_len) };
    report[..8].copy_from_slice(&judge(lent, record));
    0
}

/// # Safety
/// The two slices are as include/negwishal.h says for negwishal_judge.
#[no_mangle]
pub unsafe extern "C" fn float_judge(record: *const u8, record_len: usize, report: *mut u64, report_len: usize) -> u32 {
    unsafe { judge_lent(Lent::Nothing, record, record_len, report, report_len) }
}

fn code_of(lent: Lent) -> u32 {
    load(lent).err().map_or(0, |r| r[0] as u32)
}

/// # Safety
/// The slice is as include/negwishal.h says for negwishal_load.
#[no_mangle]
pub unsafe extern "C" fn float_load(table: *const u8, table_len: usize) -> u32 {
    code_of(Lent::Own(unsafe { std::slice::from_raw_parts(table, table_len) }))
}

/// # Safety
/// The slice is as include/negwishal.h says for negwishal_load_for.
#[no_mangle]
pub unsafe extern "C" fn float_load_for(firm: u32, shared: *const u8, shared_len: usize) -> u32 {
    code_of(Lent::Shared(firm, unsafe { std::slice::from_raw_parts(shared, shared_len) }))
}

/// # Safety
/// The slices are as include/negwishal.h says for negwishal_judge_with.
#[no_mangle]
pub unsafe extern "C" fn float_judge_with(
    table: *const u8,
    table_len: usize,
    record: *const u8,
    record_len: usize,
    report: *mut u64,
    report_len: usize,
) -> u32 {
    unsafe {
        let lent = Lent::Own(std::slice::from_raw_parts(table, table_len));
        judge_lent(lent, record, record_len, report, report_len)
    }
}

/// # Safety
/// The slices are as include/negwishal.h says for negwishal_judge_for.
#[no_mangle]
pub unsafe extern "C" fn float_judge_for(
    firm: u32,
    shared: *const u8,
    shared_len: usize,
    record: *const u8,
    record_len: usize,
    report: *mut u64,
    report_len: usize,
) -> u32 {
    unsafe {
        let lent = Lent::Shared(firm, std::slice::from_raw_parts(shared, shared_len));
        judge_lent(lent, record, record_len, report, report_len)
    }
}

// ---- values: 27 numbers in the header's order, x and y

const VALUES: usize = 27;
const DOWELS: usize = 64;

// A number as the byte that a code fills; a refused one, 0, where it is too wide (no code is 0 but the grain's).
fn code(z: i32) -> u8 {
    u8::try_from(z).unwrap_or(0)
}

fn member_from(f: &[i32], table: Table) -> Member {
    Member {
        class: code(f[0]),
        wood: table.wood(code(f[0])),
        grain: u8::try_from(f[1]).unwrap_or(u8::MAX),
        thickness: f[4] as f64,
        x0: f[5] as f64,
        y0: f[6] as f64,
        x1: f[7] as f64,
        y1: f[8] as f64,
    }
}

// Refusals 2 and 7 to 9.
fn take(fields: &[i32], x: &[i32], y: &[i32], table: Table) -> Result<Joint, Refusal> {
    let version = known(fields[0])?;
    let n = x.len();
    if n != y.len() || !(1..=DOWELS).contains(&n) {
        return refuse(7);
    }
    let mut j = Joint {
        version,
        planes: code(fields[1]),
        members: [member_from(&fields[2..11], table), member_from(&fields[11..20], table)],
        d: fields[20] as f64,
        steel: code(fields[21]),
        n,
        x: [0.; DOWELS],
        y: [0.; DOWELS],
        service: code(fields[23]),
        duration: code(fields[24]),
        fx: fields[25] as f64,
        fy: fields[26] as f64,
    };
    for i in 0..n {
        j.x[i] = x[i] as f64;
        j.y[i] = y[i] as f64;
    }
    value_fault(&j)?;
    Ok(j)
}

// Bytes one after the other into a buffer that is long enough.
struct Put<'a> {
    buffer: &'a mut [u8],
    at: usize,
}

impl Put<'_> {
    fn bytes(&mut self, b: &[u8]) {
        self.buffer[self.at..self.at + b.len()].copy_from_slice(b);
        self.at += b.len();
    }
    fn u16(&mut self, z: u16) {
        self.bytes(&z.to_le_bytes());
    }
    fn i32(&mut self, z: f64) {
        self.bytes(&(z as i32).to_le_bytes());
    }
}

fn write_joint(j: &Joint, buffer: &mut [u8]) {
    let mut p = Put { buffer, at: 0 };
    p.u16(j.version as u16);
    p.u16(4);
    let mut offset = 20;
    for length in [42, 3, 2 + 8 * j.n as u16, 11] {
        p.u16(offset);
        p.u16(length);
        offset += length;
    }
    p.bytes(&[1, j.planes]);
    for m in &j.members {
        p.bytes(&[m.class, m.grain]);
        p.u16(m.thickness as u16);
        for z in [m.x0, m.y0, m.x1, m.y1] {
            p.i32(z);
        }
    }
    p.bytes(&[2, j.d as u8, j.steel]);
    p.bytes(&[3, j.n as u8]);
    for i in 0..j.n {
        p.i32(j.x[i]);
        p.i32(j.y[i]);
    }
    p.bytes(&[4, j.service, j.duration]);
    p.i32(j.fx);
    p.i32(j.fy);
}

#[allow(clippy::too_many_arguments)]
unsafe fn write_lent(
    lent: Lent,
    fields: *const i32,
    fields_len: usize,
    x: *const i32,
    x_len: usize,
    y: *const i32,
    y_len: usize,
    buffer: *mut u8,
    buffer_len: usize,
    answer: *mut u64,
    answer_len: usize,
) -> u32 {
    if fields_len < VALUES || answer_len < 2 {
        return 1;
    }
    let fields = unsafe { std::slice::from_raw_parts(fields, fields_len) };
    let (x, y) = unsafe { (std::slice::from_raw_parts(x, x_len), std::slice::from_raw_parts(y, y_len)) };
    let buffer = unsafe { std::slice::from_raw_parts_mut(buffer, buffer_len) };
    let answer = unsafe { std::slice::from_raw_parts_mut(answer, answer_len) };
    let length = 78 + 8 * x_len;
    let made = match load(lent).and_then(|table| take(fields, x, y, table)) {
        Err(r) => Err(r[0]),
        Ok(_) if buffer_len < length => Err(13),
        Ok(j) => Ok(j),
    };
    match made {
        Ok(j) => {
            write_joint(&j, buffer);
            answer[..2].copy_from_slice(&[0, length as u64]);
        }
        Err(number) => answer[..2].copy_from_slice(&[number, 0]),
    }
    0
}

/// # Safety
/// The slices are as include/negwishal.h says for negwishal_write.
#[no_mangle]
pub unsafe extern "C" fn float_write(
    fields: *const i32,
    fields_len: usize,
    x: *const i32,
    x_len: usize,
    y: *const i32,
    y_len: usize,
    _marks: *const i32,
    _marks_len: usize,
    buffer: *mut u8,
    buffer_len: usize,
    answer: *mut u64,
    answer_len: usize,
) -> u32 {
    unsafe { write_lent(Lent::Nothing, fields, fields_len, x, x_len, y, y_len, buffer, buffer_len, answer, answer_len) }
}

/// # Safety
/// The slices are as include/negwishal.h says for negwishal_write_with.
#[no_mangle]
pub unsafe extern "C" fn float_write_with(
    table: *const u8,
    table_len: usize,
    fields: *const i32,
    fields_len: usize,
    x: *const i32,
    x_len: usize,
    y: *const i32,
    y_len: usize,
    _marks: *const i32,
    _marks_len: usize,
    buffer: *mut u8,
    buffer_len: usize,
    answer: *mut u64,
    answer_len: usize,
) -> u32 {
    unsafe {
        let lent = Lent::Own(std::slice::from_raw_parts(table, table_len));
        write_lent(lent, fields, fields_len, x, x_len, y, y_len, buffer, buffer_len, answer, answer_len)
    }
}

/// # Safety
/// The slices are as include/negwishal.h says for negwishal_write_for.
#[no_mangle]
pub unsafe extern "C" fn float_write_for(
    firm: u32,
    shared: *const u8,
    shared_len: usize,
    fields: *const i32,
    fields_len: usize,
    x: *const i32,
    x_len: usize,
    y: *const i32,
    y_len: usize,
    _marks: *const i32,
    _marks_len: usize,
    buffer: *mut u8,
    buffer_len: usize,
    answer: *mut u64,
    answer_len: usize,
) -> u32 {
    unsafe {
        let lent = Lent::Shared(firm, std::slice::from_raw_parts(shared, shared_len));
        write_lent(lent, fields, fields_len, x, x_len, y, y_len, buffer, buffer_len, answer, answer_len)
    }
}

#[allow(clippy::too_many_arguments)]
unsafe fn read_lent(
    lent: Lent,
    record: *const u8,
    record_len: usize,
    fields: *mut i32,
    fields_len: usize,
    x: *mut i32,
    x_len: usize,
    y: *mut i32,
    y_len: usize,
    marks: *mut i32,
    marks_len: usize,
    answer: *mut u64,
    answer_len: usize,
) -> u32 {
    if fields_len < VALUES || x_len.min(y_len).min(marks_len) < DOWELS || answer_len < 2 {
        return 1;
    }
    let record = unsafe { std::slice::from_raw_parts(record, record_len) };
    let fields = unsafe { std::slice::from_raw_parts_mut(fields, VALUES) };
    let x = unsafe { std::slice::from_raw_parts_mut(x, DOWELS) };
    let y = unsafe { std::slice::from_raw_parts_mut(y, DOWELS) };
    let answer = unsafe { std::slice::from_raw_parts_mut(answer, 2) };
    unsafe { std::slice::from_raw_parts_mut(marks, DOWELS) }.fill(0);
    fields.fill(0);
    x.fill(0);
    y.fill(0);
    let j = match load(lent).and_then(|table| read(record, table)) {
        Ok(j) => j,
        Err(r) => {
            answer.copy_from_slice(&[r[0], 0]);
            return 0;
        }
    };
    fields[0] = j.version;
    fields[1] = j.planes as i32;
    for (m, f) in j.members.iter().zip(fields[2..20].chunks_exact_mut(9)) {
        let outline = [m.x0 as i32, m.y0 as i32, m.x1 as i32, m.y1 as i32];
        f[..5].copy_from_slice(&[m.class as i32, m.grain as i32, 0, 0, m.thickness as i32]);
        f[5..].copy_from_slice(&outline);
    }
    let (service, duration) = (j.service as i32, j.duration as i32);
    fields[20..].copy_from_slice(&[j.d as i32, j.steel as i32, 0, service, duration, j.fx as i32, j.fy as i32]);
    for i in 0..j.n {
        x[i] = j.x[i] as i32;
        y[i] = j.y[i] as i32;
    }
    answer.copy_from_slice(&[0, j.n as u64]);
    0
}

/// # Safety
/// The slices are as include/negwishal.h says for negwishal_read.
#[no_mangle]
pub unsafe extern "C" fn float_read(
    record: *const u8,
    record_len: usize,
    fields: *mut i32,
    fields_len: usize,
    x: *mut i32,
    x_len: usize,
    y: *mut i32,
    y_len: usize,
    marks: *mut i32,
    marks_len: usize,
    answer: *mut u64,
    answer_len: usize,
) -> u32 {
    unsafe {
        read_lent(
            Lent::Nothing, record, record_len, fields, fields_len, x, x_len, y, y_len, marks, marks_len, answer,
            answer_len,
        )
    }
}

/// # Safety
/// The slices are as include/negwishal.h says for negwishal_read_with.
#[no_mangle]
pub unsafe extern "C" fn float_read_with(
    table: *const u8,
    table_len: usize,
    record: *const u8,
    record_len: usize,
    fields: *mut i32,
    fields_len: usize,
    x: *mut i32,
    x_len: usize,
    y: *mut i32,
    y_len: usize,
    marks: *mut i32,
    marks_len: usize,
    answer: *mut u64,
    answer_len: usize,
) -> u32 {
    unsafe {
        let lent = Lent::Own(std::slice::from_raw_parts(table, table_len));
        read_lent(
            lent, record, record_len, fields, fields_len, x, x_len, y, y_len, marks, marks_len, answer, answer_len,
        )
    }
}

/// # Safety
/// The slices are as include/negwishal.h says for negwishal_read_for.
#[no_mangle]
pub unsafe extern "C" fn float_read_for(
    firm: u32,
    shared: *const u8,
    shared_len: usize,
    record: *const u8,
    record_len: usize,
    fields: *mut i32,
    fields_len: usize,
    x: *mut i32,
    x_len: usize,
    y: *mut i32,
    y_len: usize,
    marks: *mut i32,
    marks_len: usize,
    answer: *mut u64,
    answer_len: usize,
) -> u32 {
    unsafe {
        let lent = Lent::Shared(firm, std::slice::from_raw_parts(shared, shared_len));
        read_lent(
            lent, record, record_len, fields, fields_len, x, x_len, y, y_len, marks, marks_len, answer, answer_len,
        )
    }
}

// ---- whole square roots

// The root of the nearest f64 is never too small, and at most 1 too great: its square may take 65 bits.
fn whole_root(n: u64) -> u64 {
    let root = (n as f64).sqrt() as u64;
    root - (u128::from(root).pow(2) > u128::from(n)) as u64
}

// The exponent of the greatest power of two that is not above a root, which f64 holds exactly; the root is not 0.
fn exponent(root: u64) -> u64 {
    ((root as f64).to_bits() >> 52) - 1023
}

// Low and high, the greatest power of two that is not above the root and its double.
fn bracket(n: u64) -> [u64; 2] {
    match whole_root(n) {
        0 => [0, 1],
        root => [1, 2].map(|z| z << exponent(root)),
    }
}

// The root, and the halvings that a bracket of this width takes: as many as its exponent.
fn counted_root(n: u64) -> [u64; 2] {
    match whole_root(n) {
        0 => [0, 0],
        root => [root, exponent(root)],
    }
}

unsafe fn root_lent(find: fn(u64) -> [u64; 2], n: u64, answer: *mut u64, answer_len: usize) -> u32 {
    if answer_len < 2 {
        return 1;
    }
    unsafe { std::slice::from_raw_parts_mut(answer, 2) }.copy_from_slice(&find(n));
    0
}

/// # Safety
/// The slice is one that may be written to.
#[no_mangle]
pub unsafe extern "C" fn float_root_bracket(n: u64, answer: *mut u64, answer_len: usize) -> u32 {
    unsafe { root_lent(bracket, n, answer, answer_len) }
}

/// # Safety
/// The slice is one that may be written to.
#[no_mangle]
pub unsafe extern "C" fn float_whole_root(n: u64, answer: *mut u64, answer_len: usize) -> u32 {
    unsafe { root_lent(counted_root, n, answer, answer_len) }
}
