//! What lexer.rs, parser.rs and ast.rs lean on, no more than they need.

use std::collections::hash_map::DefaultHasher;
use std::collections::{HashMap, HashSet};
use std::hash::BuildHasherDefault;

// No order of these maps reaches an answer. The fixed hasher is for speed.
pub type FxHashMap<K, V> = HashMap<K, V, BuildHasherDefault<DefaultHasher>>;
pub type FxHashSet<K> = HashSet<K, BuildHasherDefault<DefaultHasher>>;

pub mod alloc
{
    /// Ids must fit in 24 bits.
    pub const MAX_AUX24: usize = 0xFF_FFFF;
}

pub mod symbols
{
    use crate::ast::FunId;

    /// The two kinds of declaration that the parser itself makes.
    #[derive(Copy, Clone, Debug, PartialEq, Eq, Hash)]
    pub enum Decl
    {
        Fun { id: FunId },
        Global { idx: u32, mutable: bool },
    }
}

pub mod host
{
    /// Never made by the parser.
    #[derive(Copy, Clone, Debug, PartialEq)]
    pub enum HostFnId {}
}

pub mod libcore
{
    /// The engine's runtime takes ids here. Ids are printed relative to the
    /// first, so none are taken.
    pub fn init_runtime(_prog: &mut crate::ast::Program) {}
}

pub mod libstd
{
    pub fn unit_key(path: &str) -> String { path.to_string() }

    /// No standard library: imports are left out.
    pub fn get_source(_key: &str) -> Option<&'static str> { None }
}
