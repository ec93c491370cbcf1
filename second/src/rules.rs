//! The twenty rules, as the specification's section of that name says them.

/// A state for some of x, y and z.
pub type Part = [Option<u8>; 3];

#[derive(Clone, Copy, PartialEq, Eq, PartialOrd, Ord, Debug)]
pub struct Rule {
    pub premises: Part,
    pub conclusions: Part,
}

const OUT: Option<u8> = Some(0);
const IN: Option<u8> = Some(1);
const ANY: Option<u8> = None;

const fn rule(premises: Part, conclusions: Part) -> Rule {
    Rule { premises, conclusions }
}

const EQU: [Rule; 4] = [
    // either box settled gives the other the same state
    rule([OUT, ANY, ANY], [ANY, OUT, ANY]),
    rule([IN, ANY, ANY], [ANY, IN, ANY]),
    rule([ANY, OUT, ANY], [OUT, ANY, ANY]),
    rule([ANY, IN, ANY], [IN, ANY, ANY]),
];

const NOT: [Rule; 4] = [
    // either box settled gives the other the opposite state
    rule([OUT, ANY, ANY], [ANY, IN, ANY]),
    rule([IN, ANY, ANY], [ANY, OUT, ANY]),
    rule([ANY, OUT, ANY], [IN, ANY, ANY]),
    rule([ANY, IN, ANY], [OUT, ANY, ANY]),
];

const AND: [Rule; 6] = [
    // x out gives z out; y out gives z out
    rule([OUT, ANY, ANY], [ANY, ANY, OUT]),
    rule([ANY, OUT, ANY], [ANY, ANY, OUT]),
    // z in gives x in and y in
    rule([ANY, ANY, IN], [IN, IN, ANY]),
    // x in and y in give z in
    rule([IN, IN, ANY], [ANY, ANY, IN]),
    // x in and z out give y out; y in and z out give x out
    rule([IN, ANY, OUT], [ANY, OUT, ANY]),
    rule([ANY, IN, OUT], [OUT, ANY, ANY]),
];

const OR: [Rule; 6] = [
    // x in gives z in; y in gives z in
    rule([IN, ANY, ANY], [ANY, ANY, IN]),
    rule([ANY, IN, ANY], [ANY, ANY, IN]),
    // z out gives x out and y out
    rule([ANY, ANY, OUT], [OUT, OUT, ANY]),
    // x out and y out give z out
    rule([OUT, OUT, ANY], [ANY, ANY, OUT]),
    // x out and z in give y in; y out and z in give x in
    rule([OUT, ANY, IN], [ANY, IN, ANY]),
    rule([ANY, OUT, IN], [IN, ANY, ANY]),
];

pub fn rules_of(kind: u8) -> &'static [Rule] {
    match kind {
        1 => &EQU,
        2 => &NOT,
        3 => &AND,
        4 => &OR,
        _ => &[],
    }
}
