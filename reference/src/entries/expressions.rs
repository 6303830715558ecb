//! Constant expressions in the place of numbers. All names start with `expression`.

use super::Entries;

const A32: &str = "0|@alloc [t], 32;";
const A64: &str = "0|@alloc [t], 64;";
const D32: &str = "0|@dealloc t, 32;";
const D64: &str = "0|@dealloc t, 64;";
const EXIT: &str = "0|exit;";
const WAIT: &str = "0|@wait::ld;";
/// A shared memory descriptor that reads, an instruction descriptor that is listed.
const B: &str = "0|mov.b64 b, 0x0000400800100000;";
const I: &str = "0|mov.b32 i, 0x08100010;";

pub fn all(e: &mut Entries) {
    values(e);
    not_taken(e);
    broken(e);
    numbers_alone(e);
    partial_results(e);
    negatives(e);
    levels(e);
    addresses(e);
    requests(e);
    descriptors(e);
    after_exit(e);
}

/// So many parentheses around a 1.
fn parentheses(count: usize) -> String {
    format!("{}1{}", "(".repeat(count), ")".repeat(count))
}

impl Entries {
    /// A `mov` with this number, which reads.
    fn moved(&mut self, name: &str, opcode: &str, number: &str) {
        self.passed(&format!("expression-{name}"), &[&format!("0|{opcode} x, {number};"), EXIT], 0, &[]);
    }

    /// A line that is refused before anything is held.
    fn unread(&mut self, name: &str, reason: u32, line: &str) {
        self.refused(&format!("expression-{name}"), &[line], [reason, 2, 0, 0]);
    }

    /// A load of one column in a holding of 64: inside at this offset.
    fn inside(&mut self, name: &str, offset: &str) {
        let load = format!("0|@ld(32x32b.x1) {{r}}, [t+{offset}];");
        self.passed(&format!("expression-{name}"), &[A64, &load, WAIT, D64, EXIT], 64, &[0]);
    }

    /// The same, one column past its end, so that 63 is told from 64.
    fn outside(&mut self, name: &str, offset: &str) {
        let load = format!("0|@ld(32x32b.x1) {{r}}, ^[t+{offset}];");
        self.refused(&format!("expression-{name}"), &[A64, &load], [14, 3, 64, 64]);
    }
}

/// What an expression is worth tells whether a load at 63 or 64 is inside.
fn values(e: &mut Entries) {
    e.inside("product-before-sum", "3+4*15");
    e.outside("product-before-sum-64", "4+4*15");
    e.inside("sum-in-parentheses", "(5+4)*7");
    e.outside("sum-in-parentheses-64", "(4+4)*8");
    e.inside("left-to-right", "100-30-7");
    e.outside("left-to-right-64", "100-30-6");
    e.inside("product-of-three", "3*3*7");
    e.inside("minus-minus", "--63");
    e.inside("difference-of-negative", "61--2");
    e.inside("sum-with-negative", "64+-1");
    e.inside("product-with-negative", "69+2*-3");
    e.outside("product-of-negatives", "-8*-8");
    e.inside("minus-before-product", "-1*-63");
    e.inside("zero-minus-zero", "-0");
    e.inside("minus-group-zero", "-(0)");
    e.inside("spaces", " - ( 3 ) + 66 ");
    e.inside("no-spaces", "65-2");
    e.inside("every-base", "0x20+0b11111+010-8U");
    e.inside("sum-of-twenty", &["(1)"; 20].join("+"));
}

fn not_taken(e: &mut Entries) {
    e.unread("unary-plus", 3, "0|mov.b32 x, ^+1;");
    e.unread("two-plus", 3, "0|mov.b32 x, 1+^+2;");
    e.unread("quotient", 3, "0|mov.b32 x, 4^/2;");
    e.unread("remainder", 3, "0|mov.b32 x, 4^%2;");
    e.unread("shift", 3, "0|mov.b32 x, 1^<<2;");
    e.unread("comparison", 3, "0|mov.b32 x, 1^==1;");
    e.unread("complement", 3, "0|mov.b32 x, ^~1;");
    e.unread("name", 3, "0|mov.b32 x, 1+^y;");
    e.unread("name-in-parentheses", 3, "0|mov.b32 x, (^y);");
    e.unread("no-number", 3, "0|mov.b32 x, 1+^08;");
}

fn broken(e: &mut Entries) {
    e.unread("two-numbers", 3, "0|mov.b32 x, 1 ^2;");
    e.unread("two-groups", 3, "0|mov.b32 x, (1)^(2);");
    e.unread("number-and-group", 3, "0|mov.b32 x, 2^(3);");
    e.unread("empty-group", 3, "0|mov.b32 x, (^);");
    e.unread("open-group", 3, "0|mov.b32 x, (1^;");
    e.unread("open-group-at-the-end", 3, "0|mov.b32 x, (1^");
    e.unread("closed-too-often", 3, "0|mov.b32 x, (1)^);");
    e.unread("nothing-behind-plus", 3, "0|mov.b32 x, 1+^;");
    e.unread("nothing-behind-minus", 3, "0|mov.b32 x, -^;");
    e.unread("end-behind-times", 3, "0|mov.b32 x, 2* ^");
    e.unread("times-first", 3, "0|mov.b32 x, ^*2;");
    // a fault of form comes before what is out of range, also in one expression
    e.unread("broken-and-out-of-range", 3, "0|mov.b32 x, 4294967296*4294967296*4294967296+^;");
    e.unread("broken-behind-negative", 3, "0|@mma(f16) [t+-1], [t+1 ^2], b, i, p;");
}

fn numbers_alone(e: &mut Entries) {
    e.moved("alone-largest", "mov.b64", "  18446744073709551615  ");
    e.unread("group-largest", 4, "0|mov.b64 x, ^(18446744073709551615);");
    e.moved("alone-2-to-63", "mov.b64", "9223372036854775808");
    e.unread("group-2-to-63", 4, "0|mov.b64 x, ^(9223372036854775808);");
    e.unread("minus-2-to-63", 4, "0|mov.b64 x, ^-9223372036854775808;");
    e.unread("minus-minus-2-to-63", 4, "0|mov.b64 x, ^--9223372036854775808;");
    e.moved("group-largest-in-range", "mov.b64", "(9223372036854775807)");
}

fn partial_results(e: &mut Entries) {
    e.moved("largest-sum", "mov.b64", "9223372036854775806+1");
    e.unread("sum-over", 4, "0|mov.b64 x, ^9223372036854775807+1;");
    e.moved("back-in-range", "mov.b64", "9223372036854775807-1+1");
    e.unread("out-of-range-and-back", 4, "0|mov.b64 x, ^9223372036854775807+1-1;");
    e.moved("product-least", "mov.b32", "-4611686018427387904*2+9223372036854775807+1");
    e.unread("product-over", 4, "0|mov.b32 x, ^4611686018427387904*2-9223372036854775807;");
    e.moved("difference-least", "mov.b32", "-9223372036854775807-1+9223372036854775807+1");
    e.unread("difference-below-least", 4, "0|mov.b32 x, ^-9223372036854775807-2+9223372036854775807+2;");
    e.unread("minus-least", 4, "0|mov.b32 x, ^-(-9223372036854775807-1)-9223372036854775807;");
    e.unread("zero-times-over", 4, "0|mov.b32 x, ^0*9223372036854775808;");
    e.unread("over-times-zero", 4, "0|mov.b32 x, ^4294967296*4294967296*0;");
    e.moved("zero-times-large", "mov.b32", "0*4294967296*4294967296");
    e.unread("number-of-900-digits", 4, &format!("0|mov.b32 x, ^0*{};", "9".repeat(900)));
    e.moved("largest-32", "mov.b32", "4294967296-1");
    e.unread("over-32", 4, "0|mov.b32 x, ^4294967295+1;");
    e.moved("over-32-wide", "mov.b64", "4294967295+1");
}

fn negatives(e: &mut Entries) {
    e.unread("negative-mov", 4, "0|mov.b32 x, ^-1;");
    e.unread("negative-mov-wide", 4, "0|mov.b64 x, ^-1;");
    e.unread("negative-unsigned", 4, "0|mov.b64 x, ^0U-1;");
    e.unread("negative-alloc", 4, "0|@alloc [t], ^-32;");
    e.unread("negative-dealloc", 4, "0|@dealloc t, ^(0-32);");
    e.unread("negative-offset", 4, "0|@ld(32x32b.x1) {r}, [t+^-1];");
    e.unread("negative-offset-of-store", 4, "0|@st(32x32b.x1) [t+ ^- 1], {r};");
    e.unread("negative-offset-of-mma", 4, "0|@mma.sp(f16) [t+1], [t+2*3], b, [t+^1-2], i, p;");
}

fn levels(e: &mut Entries) {
    e.moved("16-parentheses", "mov.b32", &parentheses(16));
    e.unread("17-parentheses", 3, &format!("0|mov.b32 x, {};", parentheses(17).replace("(1", "^(1")));
    e.moved("16-minuses", "mov.b32", &format!("{}1", "-".repeat(16)));
    e.unread("17-minuses", 3, &format!("0|mov.b32 x, {}^-1;", "-".repeat(16)));
    e.unread("15-minuses", 4, &format!("0|mov.b32 x, ^{}1;", "-".repeat(15)));
    e.moved("16-of-both", "mov.b32", &format!("{}1{}", "-(".repeat(8), ")".repeat(8)));
    e.unread("17-of-both", 3, &format!("0|mov.b32 x, {}^-1{};", "-(".repeat(8), ")".repeat(8)));
    // what is closed does not count, and neither does a minus between two operands
    e.moved("16-behind-minus", "mov.b32", &format!("-1+({})+1", parentheses(15)));
    e.moved("16-behind-difference", "mov.b32", &format!("2-{}", parentheses(16)));
    e.unread("17-behind-difference", 3, &format!("0|mov.b32 x, 2--{};", parentheses(16).replace("(1", "^(1")));
    let deep = parentheses(16);
    let lines = [A64, B, I, &format!("0|@mma(f16) [t+{deep}-1], [t+{deep}], b, i, p;"), D64, EXIT];
    e.passed("expression-16-in-each-offset", &lines, 64, &[0]);
}

fn addresses(e: &mut Entries) {
    e.inside("offset-of-two-terms", "32+31");
    e.inside("offset-zero", "2-2");
    e.unread("offset-column", 4, "0|@ld(32x32b.x1) {r}, [t+^(65536)*65536];");
    e.unread("address-minus", 3, "0|@ld(32x32b.x1) {r}, [t^-4];");
    e.unread("address-two-plus", 3, "0|@ld(32x32b.x1) {r}, [t+^+4];");
    e.unread("address-times", 3, "0|@ld(32x32b.x1) {r}, [t^*4];");
    e.unread("address-in-parentheses", 3, "0|@ld(32x32b.x1) {r}, ^([t+4]);");
    e.unread("name-of-address-in-parentheses", 3, "0|@ld(32x32b.x1) {r}, [^(t)+4];");
    e.unread("offset-open", 3, "0|@ld(32x32b.x1) {r}, [t+(4^];");
    e.unread("alloc-offset", 3, "0|@alloc [t^+4], 32;");
    let written_out = ["0|@alloc [t0], 32;", "1|@ld(32x32b.x1) {r}, [t0+(32*65536)+4];", "1|@wait::ld;", "0|@dealloc t0, 32;", EXIT];
    e.passed("expression-lane-and-column", &written_out, 32, &[0]);
    let lane = [A32, "0|@ld(32x32b.x1) {r}, ^[t+(32*65536)+4];"];
    e.refused("expression-lane-of-another-warp", &lane, [8, 3, 32, 32]);
}

fn requests(e: &mut Entries) {
    e.passed("expression-request", &["0|@alloc [t], 2*16;", "0|@dealloc t, (64-32);", EXIT], 32, &[0]);
    e.unread("request-33", 9, "0|@alloc [t], ^(32+1);");
    e.unread("request-0", 9, "0|@alloc [t],  ^-(0);");
    e.refused("expression-dealloc-64", &[A32, "0|@dealloc t,  ^-(-64);"], [9, 3, 32, 32]);
    e.refused("expression-dealloc-negative", &[A32, "0|@dealloc t, ^32-64;"], [4, 3, 32, 32]);
    e.passed("expression-dealloc-32", &[A32, "0|@dealloc t, --32;", EXIT], 32, &[0]);
}

fn descriptors(e: &mut Entries) {
    let i = "0|mov.b32 i, (8*65536+0x1000)*0x100+16;";
    let b = "0|mov.b64 b, (64*65536*65536*256)+(8*65536*65536)+(16*65536);";
    e.passed("expression-descriptors", &[A64, b, i, "0|@mma(f16) [t+0*8], [t+7*8], b, i, p;", D64, EXIT], 64, &[0]);
    e.refused("expression-cells", &[A64, B, I, "0|@mma(f16) [t+1-1], ^[t+7*8+1], b, i, p;"], [14, 5, 64, 64]);
    e.refused("expression-word-0", &[A64, B, "0|mov.b32 i, 1-1;", "0|@mma(f16) [t], b, b, ^i, p;"], [13, 5, 64, 64]);
}

/// A line after exit is still read.
fn after_exit(e: &mut Entries) {
    e.refused("expression-after-exit", &[EXIT, "0|mov.b32 x, 1+1;"], [15, 3, 0, 0]);
    e.refused("expression-after-exit-negative", &[EXIT, "0|mov.b32 x, ^-1;"], [4, 3, 0, 0]);
    e.refused("expression-after-exit-broken", &[A32, D32, EXIT, "0|mov.b32 x, 1-^;"], [3, 5, 0, 32]);
}
