//! The 124 forms (op, m1, m2), and what they are made of.

pub use layout::form::*;
pub use layout::mode::*;
pub use layout::op::*;
pub use layout::reg::*;

/// All forms in the order of op, m1, m2.
pub fn all() -> Vec<Form> {
    let mut forms = Vec::new();
    for op in 0..OPERATIONS {
        for m1 in 0..MODES {
            for m2 in 0..MODES {
                if plain::cost(op, m1, m2) > 0 {
                    forms.push(Form { op, m1, m2 });
                }
            }
        }
    }
    assert_eq!(forms.len(), LEGAL, "document 01 counts 124 instructions");
    forms
}
