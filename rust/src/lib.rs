//! Vine's type store for blend rules, in place of its own `types.rs`, over a library in which every call is proved to
//! do what its definition says.
//!
//! - [`Chart`] says what is defined and holds the two texts that names are parts of. It is tested once, when it is built.
//! - [`Types`] is a store. Its calls have the names and shapes of Vine's: [`new`](Types::new), [`new_var`](Types::new_var),
//!   [`unify`](Types::unify), [`find_mut`](Types::find_mut), [`force_kind`](Types::force_kind), [`import`](Types::import),
//!   [`export`](Types::export), [`show`](Types::show) and the others.
//! - What can't be done is refused, with [`Refusal`], and changes nothing. Nothing panics, whatever numbers come in.
//! - A state can be named and returned to: [`name`](Types::name), [`return_to`](Types::return_to).
//! - [`lent`] has the calls that test everything, over words that the caller lends.
//!
//! ```
//! use faroalder::{Chart, DefId, ImplType, Kind, Refusal, Span, TypeKind, Types, UnifyResult};
//!
//! let mut builder = Chart::builder();
//! let list = builder.enumeration("List", "std::List", DefId(1));
//! let fork = builder.trait_("Fork", "std::Fork", DefId(2));
//! let chart = builder.rule("key").build()?;
//!
//! let mut types = Types::open(&chart, 256, 1024)?;
//! let item = types.new_var(Span(12))?;
//! let items = types.new(TypeKind::Enum(list, &[item]))?;
//! let key = types.new(TypeKind::Key(chart.name("key").unwrap()))?;
//! let keys = types.new(TypeKind::Enum(list, &[key]))?;
//! assert_eq!(types.unify(items, keys)?, UnifyResult::Success);
//! assert_eq!(types.show(items)?, "List[.key]");
//! assert!(matches!(types.kind(item)?, Some((_, Kind::Key(_)))));
//! assert_eq!(types.show_impl_type(&ImplType::Trait(fork, vec![items]))?, "Fork[List[.key]]");
//! # Ok::<(), Refusal>(())
//! ```
//!
//! # Linking
//!
//! The crate links `liblibrary.a`, which `rt lib` in `../crates/library` writes to its `out`; `FAROALDER_LIB_DIR` names
//! another folder.

mod answers;
mod chart;
mod kind;
#[allow(unsafe_code)]
mod raw;
mod refusal;
mod transfer;
mod ty;
mod types;

pub use answers::{Figures, Forced, Mod, Node, UnifyResult};
pub use chart::{
  Chart, ChartBuilder, ConcreteConstId, DefId, EnumId, FnId, Name, OpaqueTypeId, Record, Sort,
  StructId, TraitId, UnionId,
};
pub use kind::{Children, ClosureId, Fields, Flex, FnSig, ImplType, Kind, Signature, TypeKind};
pub use raw::Words;
pub use refusal::Refusal;
pub use transfer::{TransferTypes, TypeCtx};
pub use ty::{Inverted, Span, Type, TypeIdx};
pub use types::{MAX_SHOWN, Types};

/// The calls that test everything, over words that are lent: any numbers at all may stand there, and the refusal that
/// they deserve comes out. Answers are the library's own: a value below [`REFUSED`](lent::REFUSED), or that and a
/// refusal's number.
///
/// ```
/// use faroalder::lent::{Lent, REFUSED, Rules};
///
/// let rules = Rules { chart: vec![], fn_trait: u32::MAX, sigils: [0; 12], rule: vec![], text: vec![] };
/// let (mut h, mut ws, mut ks) = ([9; 8], [9; 24], [9; 8]);
/// let mut lent = Lent { rules: &rules, h: &mut h, ws: &mut ws, ks: &mut ks };
/// assert_eq!(lent.new_var(7), REFUSED + 8);
/// assert_eq!(lent.open(2, 2), 0);
/// assert_eq!(lent.new_var(7), 0);
/// assert_eq!(lent.find(5), REFUSED + 3);
/// ```
pub mod lent {
  pub use crate::raw::{
    Lent, OUT, RECORD_WORDS, REFUSED, Record, Rules, load, names_words, open_names,
  };
}

/// How many nodes a store can have.
pub const MAX_NODES: u32 = 4096;

/// How many children a store can have, over all nodes ever made.
pub const MAX_CHILDREN: u32 = 16_384;

/// How many children a kind can have, and how many types a list.
pub const MAX_WIDTH: usize = 255;

/// How many states a store can hold under names.
pub const MAX_STATES: usize = 8;

/// How many bytes such a name can have.
pub const MAX_STATE_NAME: usize = 255;
