//! Kinds, their order and their join over the classes of a unit.

use crate::unit::{self, Unit};

/// A kind. A class number that the unit does not have is allowed here.
#[derive(Clone, Copy, Debug, PartialEq, Eq)]
pub enum Kind {
    Int,
    Null,
    Unusable,
    Class(u16),
}

impl Kind {
    /// The kind of a two-byte code.
    pub fn from_code(code: u16) -> Kind {
        match code {
            unit::INT => Kind::Int,
            unit::NULL => Kind::Null,
            unit::UNUSABLE => Kind::Unusable,
            class => Kind::Class(class),
        }
    }

    /// The two-byte code of the kind.
    pub fn code(self) -> u16 {
        match self {
            Kind::Int => unit::INT,
            Kind::Null => unit::NULL,
            Kind::Unusable => unit::UNUSABLE,
            Kind::Class(class) => class,
        }
    }
}

/// Whether kind `a` lies below kind `b`.
pub fn below(unit: &Unit, a: Kind, b: Kind) -> bool {
    match (a, b) {
        _ if a == b => true,
        (_, Kind::Unusable) => true,
        (Kind::Null, Kind::Class(_)) => true,
        (Kind::Class(a), Kind::Class(b)) => has_class(unit, a) && is_ancestor(unit, b, a),
        _ => false,
    }
}

/// The least kind that both `a` and `b` lie below.
pub fn join(unit: &Unit, a: Kind, b: Kind) -> Kind {
    match (a, b) {
        _ if a == b => a,
        (Kind::Null, Kind::Class(class)) | (Kind::Class(class), Kind::Null) => Kind::Class(class),
        (Kind::Class(a), Kind::Class(b)) if has_class(unit, a) && has_class(unit, b) => {
            Kind::Class(nearest_common(unit, a, b))
        }
        _ => Kind::Unusable,
    }
}

fn has_class(unit: &Unit, class: u16) -> bool {
    usize::from(class) < unit.class_count()
}

/// Whether `upper` is an ancestor of the class, which the unit has.
fn is_ancestor(unit: &Unit, upper: u16, mut class: u16) -> bool {
    while class != 0 {
        class = unit.parent(usize::from(class));
        if class == upper {
            return true;
        }
    }
    false
}

/// The nearest common ancestor-or-self of two classes that the unit has.
fn nearest_common(unit: &Unit, mut a: u16, mut b: u16) -> u16 {
    // Ancestors have lower numbers, so the higher of two unequal classes is
    // not above the other, and its parent can take its place.
    while a != b {
        let higher = if a > b { &mut a } else { &mut b };
        *higher = unit.parent(usize::from(*higher));
    }
    a
}

#[cfg(test)]
mod tests {
    use super::*;
    use crate::draft::{Class, Draft};
    use crate::unit::read;

    const ROOT: Kind = Kind::Class(0);
    const VESSEL: Kind = Kind::Class(1);
    const FERRY: Kind = Kind::Class(2);
    const BARGE: Kind = Kind::Class(3);
    const MISSING: Kind = Kind::Class(4);
    const OTHER_MISSING: Kind = Kind::Class(5);

    #[test]
    fn codes() {
        for code in 0..=0xFFFF {
            assert_eq!(Kind::from_code(code).code(), code);
        }
        assert_eq!(Kind::from_code(0xFFFF), Kind::Int);
        assert_eq!(Kind::from_code(0xFFFE), Kind::Null);
        assert_eq!(Kind::from_code(0xFFFD), Kind::Unusable);
        assert_eq!(Kind::from_code(0xFFFC), Kind::Class(0xFFFC));
    }

    #[test]
    fn rule_u_joins() {
        let bytes = Draft::rule_u().bytes();
        let unit = &read(&bytes).unwrap();
        assert_eq!(join(unit, FERRY, BARGE), VESSEL);
        assert_eq!(join(unit, Kind::Int, FERRY), Kind::Unusable);
        assert_eq!(join(unit, Kind::Int, Kind::Null), Kind::Unusable);
        assert_eq!(join(unit, Kind::Null, Kind::Null), Kind::Null);
        assert_eq!(join(unit, Kind::Null, FERRY), FERRY);
        assert_eq!(join(unit, ROOT, FERRY), ROOT);
        assert_eq!(join(unit, MISSING, MISSING), MISSING);
        assert_eq!(join(unit, MISSING, Kind::Null), MISSING);
        assert_eq!(join(unit, MISSING, ROOT), Kind::Unusable);
        assert_eq!(join(unit, MISSING, OTHER_MISSING), Kind::Unusable);
    }

    #[test]
    fn rule_u_order() {
        let bytes = Draft::rule_u().bytes();
        let unit = &read(&bytes).unwrap();
        assert!(below(unit, FERRY, VESSEL));
        assert!(below(unit, FERRY, ROOT));
        assert!(!below(unit, VESSEL, FERRY));
        assert!(!below(unit, BARGE, FERRY));
        assert!(below(unit, Kind::Null, ROOT));
        assert!(!below(unit, ROOT, Kind::Null));
        assert!(!below(unit, Kind::Null, Kind::Int));
        assert!(below(unit, Kind::Int, Kind::Unusable));
        assert!(!below(unit, Kind::Unusable, Kind::Int));
        assert!(below(unit, Kind::Null, MISSING));
        assert!(below(unit, MISSING, MISSING));
        assert!(below(unit, MISSING, Kind::Unusable));
        assert!(!below(unit, MISSING, ROOT));
        assert!(!below(unit, ROOT, MISSING));
    }

    /// The join is the least kind above both, by trying all kinds.
    #[test]
    fn join_is_least() {
        let mut draft = Draft::smallest();
        for parent in [0, 1, 1, 2, 3, 0, 6, 4] {
            draft.classes.push(Class::new(parent, &[]));
        }
        let bytes = draft.bytes();
        let unit = &read(&bytes).unwrap();
        let mut kinds = vec![Kind::Int, Kind::Null, Kind::Unusable];
        kinds.extend((0..=10).map(Kind::Class)); // 9 and 10 are missing
        for &a in &kinds {
            for &b in &kinds {
                let joined = join(unit, a, b);
                assert!(below(unit, a, joined) && below(unit, b, joined));
                for &upper in &kinds {
                    if below(unit, a, upper) && below(unit, b, upper) {
                        assert!(below(unit, joined, upper), "{a:?} {b:?} {upper:?}");
                    }
                }
            }
        }
    }
}
