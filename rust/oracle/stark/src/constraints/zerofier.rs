//! Shim for `constraints/zerofier.rs`.

use math::field::element::FieldElement;
use math::field::traits::IsField;

use super::builder::ConstraintMeta;
use crate::domain::Domain;

/// Called by a trait's provided method that nothing here runs.
pub fn zerofier_evaluations_on_extended_domain<F: IsField>(
    _meta: &ConstraintMeta,
    _domain: &Domain<F>,
) -> Vec<FieldElement<F>> {
    unimplemented!("the zerofier was not published")
}
